//! What becomes of the journals.

use crate::shared::lock;
use crate::Error;
use fairexec::linked::{self, Config, Core, Journals, Outside, Verdict};
use std::fs::{create_dir_all, remove_file, write, File};
use std::io::{self, ErrorKind, Write};
use std::path::PathBuf;
use std::sync::{Arc, Mutex};

/// What becomes of the notes that each core makes of what it did.
///
/// A note costs the same in each case, some nanoseconds. `Parts` pays some 50 more for its bytes. Its text takes some 250, which `Last` pays for as
/// many notes as stay, once for each half of the journal that is filled: with the room that it has at first, one note of 32.
///
/// ```
/// use fairexec_rt::{yield_now, Executor, Journal};
///
/// let report = Executor::builder().journal(Journal::Keep).run(|_| yield_now())?;
/// assert!(report.is_sound());
/// let report = Executor::builder().journal(Journal::Last(2)).run(|_| yield_now())?;
/// assert_eq!(report.newest[0].lines().count(), 2);
/// # Ok::<(), fairexec_rt::Error>(())
/// ```
#[derive(Clone, PartialEq, Eq, Debug, Default)]
#[non_exhaustive]
pub enum Journal {
    /// They are forgotten. So a server runs without end.
    #[default]
    Off,
    /// So many of the newest notes of each actor are kept, and told by the [`Report`](crate::Report), for a look after an incident. They are the end of
    /// a journal, which no audit judges.
    Last(usize),
    /// They go in bytes to the files `part0`, `part1` and so on in this folder, one for each core and the last for the outside actor. The file `head`
    /// has what stands before them. `fairexec audit --parts` judges the folder, in memory that stays the same however long the run was.
    ///
    /// A note is in its file a second later, or behind the run of a task that takes longer. The file `end` says that no more comes:
    /// `fairexec audit --follow` ends then. If a core failed or a part couldn't be written, there is none.
    Parts(PathBuf),
    /// They are kept, audited at the end, and told by the [`Report`](crate::Report). The run ends with `JournalFull` once a core made as many notes as
    /// [`Builder::notes`](crate::Builder::notes) says.
    Keep,
}

impl Journal {
    /// What the library does with the notes.
    pub(crate) fn linked(&self) -> linked::Journal {
        match self {
            Journal::Off => linked::Journal::Forget,
            Journal::Last(most) => linked::Journal::Last(u32::try_from(*most).unwrap_or(u32::MAX)),
            Journal::Parts(_) | Journal::Keep => linked::Journal::Keep,
        }
    }

    /// The room of a journal in notes, if nobody says it.
    pub(crate) fn notes(&self, places: u32) -> u32 {
        let few = 4 * places.max(64);
        match self {
            Journal::Off | Journal::Parts(_) => few,
            Journal::Last(most) => u32::try_from(most.saturating_mul(64)).unwrap_or(u32::MAX).clamp(few, MOST_NOTES),
            Journal::Keep => MOST_NOTES,
        }
    }
}

/// A journal has room for so many notes at most if nobody says it.
const MOST_NOTES: u32 = 1 << 20;

struct Part {
    file: File,
    // Why it couldn't be written, if it couldn't.
    failed: Option<io::Error>,
    bytes: u64,
}

/// Takes the notes of an actor, if its journal goes to a file.
#[derive(Clone)]
pub(crate) struct Taker(Arc<Mutex<Part>>);

impl Taker {
    fn new(file: File) -> Taker {
        Taker(Arc::new(Mutex::new(Part { file, failed: None, bytes: 0 })))
    }

    pub(crate) fn take(&self, bytes: &[u8]) {
        let part = &mut *lock(&self.0);
        part.bytes += bytes.len() as u64;
        if let Err(error) = part.file.write_all(bytes) {
            part.failed.get_or_insert(error);
        }
    }

    /// How many bytes it took.
    pub(crate) fn bytes(&self) -> u64 {
        lock(&self.0).bytes
    }

    /// # Errors
    ///
    /// If a part couldn't be written.
    fn end(&self) -> Result<(), Error> {
        lock(&self.0).failed.take().map_or(Ok(()), |error| Err(error.into()))
    }
}

/// The file that says that no more notes come.
const END: &str = "end";

/// Who takes the notes of each actor, or nobody if they go to no file. What stands before them is written.
pub(crate) fn takers(journal: &Journal, config: &Config) -> Result<Vec<Option<Taker>>, Error> {
    let Journal::Parts(folder) = journal else { return Ok(vec![None; config.cores as usize + 1]) };
    create_dir_all(folder)?;
    // That of a run before this one says nothing of what comes now.
    match remove_file(folder.join(END)) {
        Err(error) if error.kind() != ErrorKind::NotFound => return Err(error.into()),
        _ => {}
    }
    let files = parts(journal, config.cores);
    let takers = files[1..].iter().map(|it| Ok(Some(Taker::new(File::create(it)?)))).collect::<Result<_, Error>>()?;
    // Who finds the head finds a file for each actor.
    write(&files[0], config.head())?;
    Ok(takers)
}

/// Tells that no more notes come, once all were taken.
///
/// # Errors
///
/// If a part couldn't be written. Then nothing is told.
pub(crate) fn end(journal: &Journal, takers: &[Option<Taker>]) -> Result<(), Error> {
    takers.iter().flatten().try_for_each(Taker::end)?;
    match journal {
        Journal::Parts(folder) => Ok(write(folder.join(END), "end\n")?),
        Journal::Off | Journal::Last(_) | Journal::Keep => Ok(()),
    }
}

/// The calls of a core and of the outside actor that journals want.
pub(crate) trait Notes {
    fn keep_notes_by(&mut self, takes: impl FnMut(&[u8]) + Send + 'static);
    fn pass_on(&mut self, bytes: &mut Vec<u8>) -> Result<(), fairexec::Error>;
    fn newest(&mut self, most: u64, text: &mut Vec<u8>) -> Result<u64, fairexec::Error>;

    /// From now on this taker has the notes.
    fn keep(&mut self, taker: &Option<Taker>) {
        if let Some(taker) = taker.clone() {
            self.keep_notes_by(move |bytes| taker.take(bytes));
        }
    }

    /// Hands on what the journal has.
    fn hand_on(&mut self, taker: &Option<Taker>) -> Result<(), fairexec::Error> {
        let Some(taker) = taker else { return Ok(()) };
        let mut bytes = Vec::new();
        self.pass_on(&mut bytes)?;
        taker.take(&bytes);
        Ok(())
    }

    /// The newest notes, if this journal keeps them.
    fn newest_of(&mut self, journal: &Journal) -> Result<Option<String>, fairexec::Error> {
        let Journal::Last(most) = journal else { return Ok(None) };
        let mut text = Vec::new();
        self.newest(*most as u64, &mut text)?;
        Ok(Some(String::from_utf8_lossy(&text).into_owned()))
    }
}

impl<J> Notes for Core<J> {
    fn keep_notes_by(&mut self, takes: impl FnMut(&[u8]) + Send + 'static) {
        Core::keep_notes_by(self, takes);
    }

    fn pass_on(&mut self, bytes: &mut Vec<u8>) -> Result<(), fairexec::Error> {
        Core::pass_on(self, bytes)
    }

    fn newest(&mut self, most: u64, text: &mut Vec<u8>) -> Result<u64, fairexec::Error> {
        Core::newest(self, most, text)
    }
}

impl<J> Notes for Outside<J> {
    fn keep_notes_by(&mut self, takes: impl FnMut(&[u8]) + Send + 'static) {
        Outside::keep_notes_by(self, takes);
    }

    fn pass_on(&mut self, bytes: &mut Vec<u8>) -> Result<(), fairexec::Error> {
        Outside::pass_on(self, bytes)
    }

    fn newest(&mut self, most: u64, text: &mut Vec<u8>) -> Result<u64, fairexec::Error> {
        Outside::newest(self, most, text)
    }
}

/// The files of this journal, of so many cores, in their order.
pub(crate) fn parts(journal: &Journal, cores: u32) -> Vec<PathBuf> {
    match journal {
        Journal::Parts(folder) => [folder.join("head")].into_iter().chain((0..=cores).map(|it| folder.join(format!("part{it}")))).collect(),
        Journal::Off | Journal::Last(_) | Journal::Keep => Vec::new(),
    }
}

/// The verdict and the text of journals that were kept.
pub(crate) fn judge(journal: &Journal, mut journals: Journals) -> Result<(Option<Verdict>, Option<String>), Error> {
    match journal {
        Journal::Keep => Ok((Some(journals.audit()?), Some(journals.text()?))),
        Journal::Off | Journal::Last(_) | Journal::Parts(_) => Ok((None, None)),
    }
}
