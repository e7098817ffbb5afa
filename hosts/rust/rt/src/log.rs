//! Logs: records on a disk, to which the tasks of a core append, and which are read at the next start.

use crate::appender::Appender;
use crate::fs::unblock;
use crate::{yield_if_needed, Queue};
use std::cell::Cell;
use std::collections::BTreeSet;
use std::fs;
use std::io;
use std::os::fd::AsRawFd;
use std::path::{Path, PathBuf};
use std::rc::Rc;
use std::time::Duration;

/// When what was appended to a [`Log`] goes to the disk.
///
/// ```
/// use fairexec_rt::fs::{Fsync, Log};
/// use fairexec_rt::{Executor, Queue};
/// use std::{env::temp_dir, fs::remove_dir_all, io, process, time::Duration};
///
/// Executor::builder().run(|_| async {
///     let folder = temp_dir().join(format!("fairexec-rt-fsync-{}", process::id()));
///     let (log, _) = Log::open(Queue::FIRST, &folder, Fsync::Every(Duration::from_secs(1)), |_| {}).await?;
///     assert!(log.is_empty());
///     log.append(&[b"forty-two"]);
///     // This waits for nothing, and that for the disk.
///     log.safe().await?;
///     log.sync().await?;
///     remove_dir_all(folder)?;
///     io::Result::Ok(())
/// })?;
/// # Ok::<(), fairexec_rt::Error>(())
/// ```
#[derive(Clone, Copy, PartialEq, Eq, Debug)]
pub enum Fsync {
    /// Before [`Log::safe`] ends.
    Always,
    /// So much time after it was written, at most. Until then the system has it.
    Every(Duration),
    /// When the system likes.
    Never,
}

/// What a compaction appends goes to the disk behind so many bytes.
const SYNCED: u64 = 4 << 20;

/// The number of a file of a log, and whether it has what a compaction left: then it stands for all files up to that number.
type Name = (u64, bool);

fn path(folder: &Path, (number, is_base): Name) -> PathBuf {
    folder.join(format!("{number}{}", if is_base { ".base" } else { "" }))
}

fn names(folder: &Path) -> io::Result<BTreeSet<Name>> {
    let name = |it: fs::DirEntry| {
        let name = it.file_name().into_string().ok()?;
        let number = name.strip_suffix(".base");
        Some((number.unwrap_or(&name).parse().ok()?, number.is_some()))
    };
    Ok(fs::read_dir(folder)?.flatten().filter_map(name).collect())
}

/// The names that count, without those that a compaction has replaced, whose files are removed.
fn tidy(folder: &Path) -> io::Result<BTreeSet<Name>> {
    let mut names = names(folder)?;
    let base = names.iter().rev().find(|it| it.1).copied().unwrap_or_default();
    let kept = names.split_off(&base);
    names.into_iter().try_for_each(|it| fs::remove_file(path(folder, it)))?;
    Ok(kept)
}

/// Keeps other logs out of a folder, those of other processes too, until this is dropped or its process ends.
fn lock(folder: &Path) -> io::Result<fs::File> {
    let file = fs::OpenOptions::new().create(true).truncate(false).write(true).open(folder.join("lock"))?;
    // SAFETY: the descriptor is the file's, which is open.
    if unsafe { libc::flock(file.as_raw_fd(), libc::LOCK_EX | libc::LOCK_NB) } == 0 {
        return Ok(file);
    }
    match io::Error::last_os_error() {
        error if error.kind() == io::ErrorKind::WouldBlock => Err(io::Error::new(error.kind(), "another log has this folder")),
        error => Err(error),
    }
}

struct Files {
    folder: PathBuf,
    // It is held, and nothing else.
    _lock: fs::File,
    appender: Appender,
    // The greatest number that a file has.
    number: Cell<u64>,
    is_compacting: Cell<bool>,
}

/// A folder with records. Tasks of one core append to them. They are written in a task of its own: what is appended while a write goes on goes out
/// together, and has one `fsync`. A record that a crash left torn is cut off at the next start, with all behind it, and none before it is lost.
///
/// A record has 8 bytes more than what it tells: its length, and a sum that finds what was torn, and nothing that somebody forged.
///
/// ```
/// use fairexec_rt::fs::{Fsync, Log};
/// use fairexec_rt::{Executor, Queue};
///
/// let folder = std::env::temp_dir().join(format!("fairexec-rt-log-{}", std::process::id()));
/// let at = folder.clone();
/// Executor::builder().run(move |_| {
///     let folder = at.clone();
///     async move {
///         let (log, _) = Log::open(Queue::FIRST, &folder, Fsync::Always, |_| {}).await.unwrap();
///         log.append(&[b"forty-", b"two"]);
///         log.append(&[b"more"]);
///         log.safe().await.unwrap();
///         // A crash tears what is written.
///         let file = std::fs::OpenOptions::new().write(true).open(folder.join("1")).unwrap();
///         file.set_len(log.len() - 1).unwrap();
///         drop(log);
///         let mut records = Vec::new();
///         let (log, torn) = Log::open(Queue::FIRST, &folder, Fsync::Always, |it| records.push(it.to_vec())).await.unwrap();
///         assert_eq!((records, torn, log.len()), (vec![b"forty-two".to_vec()], 11, 17));
///     }
/// })?;
/// std::fs::remove_dir_all(folder).unwrap();
/// # Ok::<(), fairexec_rt::Error>(())
/// ```
#[derive(Clone)]
pub struct Log(Rc<Files>);

impl Log {
    /// The log in a folder, which is made if it isn't there, with those above it. Each record goes to `each`, in its order. How many bytes were cut
    /// off is told. What is appended is written by tasks of this queue.
    ///
    /// A folder has one log at a time, and a lock on its file `lock` keeps others out, as when a server is started twice.
    ///
    /// # Errors
    ///
    /// `WouldBlock` while another log has the folder. Else as the system answers.
    pub async fn open(queue: Queue, folder: impl AsRef<Path>, fsync: Fsync, mut each: impl FnMut(&[u8])) -> io::Result<(Log, u64)> {
        let folder = folder.as_ref().to_owned();
        let of = folder.clone();
        let names = unblock(move || {
            fs::create_dir_all(&of)?;
            let lock = lock(&of)?;
            io::Result::Ok((lock, tidy(&of)?))
        });
        let (mut last, mut bytes, mut torn) = (None, 0, 0);
        let (_lock, names) = names.await?;
        for name in names {
            let (appender, cut) = Appender::open(queue, &path(&folder, name), fsync, &mut each).await?;
            (bytes, torn) = (bytes + appender.len(), torn + cut);
            last = Some((name, appender));
        }
        let (number, appender) = match last {
            Some(((number, false), appender)) => (number, appender),
            last => {
                let number = last.map_or(0, |it| it.0 .0) + 1;
                (number, Appender::create(queue, &path(&folder, (number, false)), fsync).await?)
            }
        };
        appender.set_before(bytes - appender.len());
        Ok((Log(Rc::new(Files { folder, _lock, appender, number: Cell::new(number), is_compacting: Cell::new(false) })), torn))
    }

    /// Appends a record of these parts. It is written behind this run.
    ///
    /// # Panics
    ///
    /// Outside a task, and for 4 GiB or more.
    pub fn append(&self, parts: &[&[u8]]) {
        self.0.appender.append(parts);
    }

    /// Waits until all that was appended is on the disk, if the log has [`Fsync::Always`]. Else it waits for nothing.
    ///
    /// # Errors
    ///
    /// As the system answered the first write that failed. Nothing is written behind that.
    pub async fn safe(&self) -> io::Result<()> {
        self.0.appender.safe().await
    }

    /// Waits until all that was appended is on the disk.
    ///
    /// # Errors
    ///
    /// As `safe`.
    pub async fn sync(&self) -> io::Result<()> {
        self.0.appender.sync().await
    }

    /// How many bytes its files have, with what isn't written yet.
    pub fn len(&self) -> u64 {
        self.0.appender.before() + self.0.appender.len()
    }

    /// Whether there are none.
    pub fn is_empty(&self) -> bool {
        self.len() == 0
    }

    /// A compaction, if none goes on and it pays: the bytes that were appended since the last one are more than what that left and `spare` together.
    pub fn compaction(&self, spare: u64) -> Option<Compaction> {
        let pays = self.0.appender.len() > self.0.appender.before() + spare;
        (pays && !self.0.is_compacting.replace(true)).then(|| Compaction(self.clone()))
    }
}

/// The right to compact a log. To drop it leaves the log as it is.
///
/// ```
/// use fairexec_rt::fs::{Fsync, Log};
/// use fairexec_rt::{Executor, Queue};
///
/// let folder = std::env::temp_dir().join(format!("fairexec-rt-compaction-{}", std::process::id()));
/// let at = folder.clone();
/// Executor::builder().queue("requests", 1000).queue("compaction", 100).run(move |_| {
///     let folder = at.clone();
///     async move {
///         let (log, _) = Log::open(Queue::FIRST, &folder, Fsync::Never, |_| {}).await.unwrap();
///         let mut sum = 0_u64;
///         for it in 0..100 {
///             sum += it;
///             log.append(&[&it.to_le_bytes()]);
///         }
///         let compacts = log.compaction(1000).unwrap();
///         let mut compacts = compacts.begin(Queue::new(1)).await.unwrap();
///         compacts.append(&[&sum.to_le_bytes()]);
///         compacts.step().await.unwrap();
///         compacts.end().await.unwrap();
///         assert_eq!(log.len(), 16);
///         drop(log);
///         let mut told = 0;
///         Log::open(Queue::FIRST, &folder, Fsync::Never, |it| told += u64::from_le_bytes(it.try_into().unwrap())).await.unwrap();
///         assert_eq!(told, sum);
///     }
/// })?;
/// std::fs::remove_dir_all(folder).unwrap();
/// # Ok::<(), fairexec_rt::Error>(())
/// ```
pub struct Compaction(Log);

impl Drop for Compaction {
    fn drop(&mut self) {
        self.0 .0.is_compacting.set(false);
    }
}

impl Compaction {
    /// Begins it, in a file that tasks of this queue write. What is appended to the log from then on is read behind what the compaction is told. The
    /// compaction may have the same already, so a record that is read twice must do what it does once. What the compaction is told is looked up when
    /// this has ended: what was looked up before may lack records that the compaction replaces.
    ///
    /// # Errors
    ///
    /// As [`Log::safe`], and as the system answers.
    pub async fn begin(self, queue: Queue) -> io::Result<Compacting> {
        let files = &self.0 .0;
        // No number comes again, even if this is dropped while it waits.
        let number = files.number.replace(files.number.get() + 1);
        files.appender.rotate(&path(&files.folder, (number + 1, false))).await?;
        let base = Appender::create(queue, &files.folder.join("new"), Fsync::Never).await?;
        Ok(Compacting { compaction: self, base, synced: 0, number })
    }
}

/// A compaction that goes on: see [`Compaction`]. To drop it leaves what was appended where it is.
///
/// ```
/// use fairexec_rt::fs::{Compacting, Fsync, Log};
/// use fairexec_rt::{Executor, Queue};
/// use std::{env::temp_dir, fs::remove_dir_all, io, process};
///
/// /// What is left is these numbers.
/// async fn compact(mut compacting: Compacting, numbers: Vec<u32>) -> io::Result<()> {
///     for it in numbers {
///         compacting.append(&[&it.to_le_bytes()]);
///         compacting.step().await?;
///     }
///     compacting.end().await
/// }
/// Executor::builder().run(|_| async {
///     let folder = temp_dir().join(format!("fairexec-rt-compacting-{}", process::id()));
///     let (log, _) = Log::open(Queue::FIRST, &folder, Fsync::Never, |_| {}).await?;
///     log.append(&[&[7; 1000]]);
///     let compaction = log.compaction(100).expect("it pays");
///     compact(compaction.begin(Queue::FIRST).await?, vec![1, 2, 3]).await?;
///     assert_eq!(log.len(), 3 * 12);
///     remove_dir_all(folder)?;
///     io::Result::Ok(())
/// })?;
/// # Ok::<(), fairexec_rt::Error>(())
/// ```
pub struct Compacting {
    compaction: Compaction,
    base: Appender,
    // So many of its bytes are on the disk.
    synced: u64,
    // It stands for all files up to this number.
    number: u64,
}

impl Compacting {
    /// Appends a record of these parts.
    ///
    /// # Panics
    ///
    /// As [`Log::append`].
    pub fn append(&self, parts: &[&[u8]]) {
        self.base.append(parts);
    }

    /// Lets others run between two records: as [`yield_if_needed`], and behind each 4 MiB it waits for the disk.
    ///
    /// # Errors
    ///
    /// As [`Log::safe`].
    pub async fn step(&mut self) -> io::Result<()> {
        if self.base.len() > self.synced + SYNCED {
            self.base.sync().await?;
            self.synced = self.base.len();
        }
        yield_if_needed().await;
        Ok(())
    }

    /// Puts what was appended to it in the place of what was appended to the log before it began.
    ///
    /// # Errors
    ///
    /// As [`Log::safe`], and as the system answers. Then the next start finds what was there before, or this, and each time all behind it.
    pub async fn end(self) -> io::Result<()> {
        self.base.sync().await?;
        let (files, number) = (&self.compaction.0 .0, self.number);
        let folder = files.folder.clone();
        let ends = unblock(move || {
            fs::rename(folder.join("new"), path(&folder, (number, true)))?;
            fs::File::open(&folder)?.sync_all()?;
            tidy(&folder).map(drop)
        });
        ends.await?;
        files.appender.set_before(self.base.len());
        Ok(())
    }
}
