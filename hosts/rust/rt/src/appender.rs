//! A file of records, to which tasks append, and a task that writes it.

use crate::fs::{unblock, File, Fsync};
use crate::{chan, sleep, spawn_local, stopping, yield_if_needed, Queue};
use futures_lite::future;
use std::cell::RefCell;
use std::fs;
use std::io;
use std::mem::{replace, take};
use std::path::Path;
use std::rc::Rc;
use std::time::{Duration, Instant};

/// So many bytes are read at once, or more if a record is longer.
const READ: u64 = 1 << 20;
/// While something that was written isn't on the disk, the next write waits for so long, so that more goes out together.
const GATHERS: Duration = Duration::from_millis(5);

struct State {
    queue: Queue,
    fsync: Fsync,
    file: File,
    // Bytes of the file that were written, and with them those that will be.
    written: u64,
    len: u64,
    pending: Vec<u8>,
    // Bytes of the files before it.
    before: u64,
    // The file that takes what is appended from now on.
    next: Option<File>,
    // Whether somebody wants all of it on the disk, whatever `fsync` says.
    is_forced: bool,
    // They are dropped once what was appended before them is safe.
    waiting: Vec<chan::Sender<()>>,
    is_writing: bool,
    failed: Option<(io::ErrorKind, String)>,
}

/// What the writer takes at once. Who waits for it is told by its drop.
struct Part {
    file: File,
    at: u64,
    bytes: Vec<u8>,
    is_forced: bool,
    _waiting: Vec<chan::Sender<()>>,
}

/// The end of a file of records.
#[derive(Clone)]
pub(crate) struct Appender(Rc<RefCell<State>>);

fn sum(bytes: &[u8]) -> u32 {
    bytes.iter().fold(0x811c_9dc5, |sum: u32, byte| (sum ^ u32::from(*byte)).wrapping_mul(0x0100_0193))
}

/// The first record of these bytes, and what is behind it, if it is whole: its length, its sum and itself.
fn first(bytes: &[u8]) -> Option<(&[u8], &[u8])> {
    let (length, rest) = bytes.split_first_chunk()?;
    let (told, rest) = rest.split_first_chunk()?;
    let (record, rest) = rest.split_at_checked(u32::from_le_bytes(*length) as usize)?;
    (sum(record) == u32::from_le_bytes(*told)).then_some((record, rest))
}

/// Makes an empty file, whose name is on the disk, too.
async fn create(path: &Path) -> io::Result<File> {
    let path = path.to_owned();
    let made = unblock(move || {
        let file = fs::File::create(&path)?;
        fs::File::open(path.parent().expect("it is in the folder of a log"))?.sync_all()?;
        Ok(file)
    });
    made.await.map(|it: fs::File| it.into())
}

impl Appender {
    fn new(queue: Queue, fsync: Fsync, file: File, len: u64) -> Appender {
        let (pending, waiting) = (Vec::new(), Vec::new());
        let (is_forced, is_writing) = (false, false);
        let state = State { queue, fsync, file, written: len, len, pending, before: 0, next: None, is_forced, waiting, is_writing, failed: None };
        Appender(Rc::new(RefCell::new(state)))
    }

    /// In a new file, or in one that is emptied.
    pub(crate) async fn create(queue: Queue, path: &Path, fsync: Fsync) -> io::Result<Appender> {
        Ok(Appender::new(queue, fsync, create(path).await?, 0))
    }

    /// Behind the records of a file, each of which goes to `each`. How many bytes were cut off behind the last whole one is told.
    pub(crate) async fn open(queue: Queue, path: &Path, fsync: Fsync, each: &mut impl FnMut(&[u8])) -> io::Result<(Appender, u64)> {
        let mut options = fs::OpenOptions::new();
        options.read(true).write(true);
        let file = File::open_with(options, path).await?;
        // What was read and isn't a whole record, and where it ends.
        let (mut bytes, mut end) = (Vec::new(), 0);
        loop {
            let more = file.read_at(end, end + READ.max(bytes.len() as u64)).await?;
            if more.is_empty() {
                break;
            }
            end += more.len() as u64;
            bytes.extend_from_slice(&more);
            let mut rest = bytes.as_slice();
            while let Some((record, behind)) = first(rest) {
                each(record);
                rest = behind;
                yield_if_needed().await;
            }
            bytes = rest.to_vec();
        }
        let torn = bytes.len() as u64;
        if torn > 0 {
            file.set_len(end - torn).await?;
            file.sync_data().await?;
        }
        Ok((Appender::new(queue, fsync, file, end - torn), torn))
    }

    /// Appends a record of these parts.
    pub(crate) fn append(&self, parts: &[&[u8]]) {
        let mut state = self.0.borrow_mut();
        // Who waits for it is told.
        if state.failed.is_some() {
            return;
        }
        let from = state.pending.len();
        state.pending.extend_from_slice(&[0; 8]);
        parts.iter().for_each(|it| state.pending.extend_from_slice(it));
        let record = &state.pending[from + 8..];
        let (length, sum) = (u32::try_from(record.len()).expect("a record has less than 4 GiB"), sum(record));
        state.pending[from..from + 4].copy_from_slice(&length.to_le_bytes());
        state.pending[from + 4..from + 8].copy_from_slice(&sum.to_le_bytes());
        state.len += 8 + u64::from(length);
        self.start(&mut state);
    }

    /// Waits until all that was appended is as safe as `fsync` says.
    pub(crate) async fn safe(&self) -> io::Result<()> {
        self.wait(false, None).await
    }

    /// Waits until all that was appended is on the disk.
    pub(crate) async fn sync(&self) -> io::Result<()> {
        self.wait(true, None).await
    }

    /// Goes on in a new file: when this ends, all that was appended before is on the disk.
    pub(crate) async fn rotate(&self, path: &Path) -> io::Result<()> {
        let file = create(path).await?;
        self.wait(true, Some(file)).await
    }

    /// Bytes of its file, with those that aren't written yet.
    pub(crate) fn len(&self) -> u64 {
        self.0.borrow().len
    }

    /// Bytes of the files before it.
    pub(crate) fn before(&self) -> u64 {
        self.0.borrow().before
    }

    pub(crate) fn set_before(&self, before: u64) {
        self.0.borrow_mut().before = before;
    }

    async fn wait(&self, is_forced: bool, next: Option<File>) -> io::Result<()> {
        if let Some(safe) = self.waits(is_forced, next) {
            // No message comes: the sender is dropped.
            let _ = safe.recv().await;
        }
        match &self.0.borrow().failed {
            Some((kind, text)) => Err(io::Error::new(*kind, text.clone())),
            None => Ok(()),
        }
    }

    fn waits(&self, is_forced: bool, next: Option<File>) -> Option<chan::Receiver<()>> {
        let mut state = self.0.borrow_mut();
        // What no writer has to do any more is as safe as it has to be.
        let has_to = is_forced || (state.fsync == Fsync::Always && state.is_writing);
        if !has_to || state.failed.is_some() {
            return None;
        }
        let (waits, safe) = chan::local(1);
        state.waiting.push(waits);
        state.is_forced |= is_forced;
        state.next = next.or(state.next.take());
        self.start(&mut state);
        Some(safe)
    }

    /// Starts the writer, unless there is one.
    fn start(&self, state: &mut State) {
        if replace(&mut state.is_writing, true) {
            return;
        }
        let appender = self.clone();
        spawn_local(state.queue, async move {
            let Err(error) = appender.write().await else { return };
            let mut state = appender.0.borrow_mut();
            state.failed = Some((error.kind(), error.to_string()));
            state.pending = Vec::new();
            state.waiting.clear();
        });
    }

    /// What is to be written next. If another file is asked for, what is appended from now on goes there. The writer ends if nothing is to be written
    /// and nobody waits.
    fn next_part(&self, is_dirty: bool) -> Option<Part> {
        let mut state = self.0.borrow_mut();
        state.is_writing = is_dirty || !state.pending.is_empty() || !state.waiting.is_empty();
        if !state.is_writing {
            return None;
        }
        let (bytes, file, at) = (take(&mut state.pending), state.file.clone(), state.written);
        state.written = state.len;
        if let Some(next) = state.next.take() {
            state.before += state.len;
            (state.file, state.written, state.len) = (next, 0, 0);
        }
        Some(Part { file, at, bytes, is_forced: take(&mut state.is_forced), _waiting: take(&mut state.waiting) })
    }

    async fn write(&self) -> io::Result<()> {
        let fsync = self.0.borrow().fsync;
        let (mut is_dirty, mut synced) = (false, Instant::now());
        while let Some(mut part) = self.next_part(is_dirty) {
            if !part.bytes.is_empty() {
                part.file.write_all_at(take(&mut part.bytes), part.at).await?;
                is_dirty = fsync != Fsync::Never;
            }
            let is_due = match fsync {
                Fsync::Every(time) => synced.elapsed() >= time || future::poll_once(stopping()).await.is_some(),
                Fsync::Always | Fsync::Never => true,
            };
            if part.is_forced || (is_dirty && is_due) {
                part.file.sync_data().await?;
                (is_dirty, synced) = (false, Instant::now());
            }
            drop(part);
            if is_dirty {
                sleep(GATHERS).await;
            }
        }
        Ok(())
    }
}
