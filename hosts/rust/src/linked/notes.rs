//! What becomes of the notes that a journal keeps.

use crate::error::{refused, Error};
use crate::raw;
use std::collections::VecDeque;

/// What becomes of the notes of each actor. Who takes them by `keep_notes_by` comes before this.
///
/// A note is made in each case, and it costs the same: some nanoseconds. Its text costs some 250 more.
///
/// ```
/// use fairexec::linked::{Config, House, Job, Journal, NoteCounts};
///
/// let config = Config { notes: 100, journal: Journal::Last(10), ..Config::default() };
/// let (_house, mut cores, mut outside) = House::<Job>::open(&config)?;
/// assert_eq!(outside.note_counts()?, NoteCounts { kept: 0, free: 100 });
/// let mut text = Vec::new();
/// let count = cores[0].newest(10, &mut text)?;
/// assert!(count <= 10);
/// outside.forget()?;
/// # Ok::<(), fairexec::Error>(())
/// ```
#[derive(Clone, Copy, PartialEq, Eq, Debug, Default)]
pub enum Journal {
    /// They are kept, and [`Journals`](super::Journals) has them at the end. A call that finds the journal full is answered `JournalFull`.
    #[default]
    Keep,
    /// They are forgotten before the journal is full. So the house runs without end, and nobody judges it.
    Forget,
    /// The same, and of so many of the newest the text is kept: `newest` tells it, for a look after an incident. It has no audit: what stands before
    /// it is gone. So many notes are turned into text for each half of the journal that is filled, so if that has room for 32 times as many, a note
    /// takes some 16 ns more.
    Last(u32),
}

/// How `pass_on` and `keep_notes_by` write notes.
///
/// ```
/// use fairexec::linked::{Config, Form, House, Step};
///
/// let config = Config { form: Form::Bytes, ..Config::default() };
/// let (_house, mut cores, mut outside) = House::open(&config)?;
/// let ticket = outside.submit(0, 0, 20_u64).map_err(|(error, _)| error)?;
/// while cores[0].round(|job, _| Step::Done(2 * *job))? {}
/// outside.wait_for(&ticket)?;
/// // So far these are the journals.
/// let mut all = config.head().to_vec();
/// cores[0].pass_on(&mut all)?;
/// outside.pass_on(&mut all)?;
/// assert!(all.starts_with(b"fxh1\x01\x01\x40\x00fxp1\x00"));
/// # Ok::<(), fairexec::Error>(())
/// ```
#[derive(Clone, Copy, PartialEq, Eq, Debug, Default)]
pub enum Form {
    /// As text: some 40 bytes and 250 ns a note.
    #[default]
    Text,
    /// As parts of a journal in bytes: some 16 bytes and a fifth of that time. [`Config::head`](super::Config::head), all parts of core 0, and those of each
    /// further actor by its number, are the whole journals.
    Bytes,
}

/// How many notes a journal keeps, and how many more it has room for.
///
/// ```
/// use fairexec::linked::{Config, House, Job};
///
/// let (_house, mut cores, _outside) = House::<Job>::open(&Config { notes: 100, ..Config::default() })?;
/// let counts = cores[0].note_counts()?;
/// assert_eq!(counts.kept + counts.free, 100);
/// # Ok::<(), fairexec::Error>(())
/// ```
#[derive(Clone, Copy, PartialEq, Eq, Debug)]
pub struct NoteCounts {
    /// Notes that it keeps.
    pub kept: u64,
    /// Notes that it has room for, beside these.
    pub free: u64,
}

/// Notes go on once there are so many, if the journal has room for twice as many.
pub(super) const PIECE: u64 = 1024;

/// Whoever takes notes is handed so many at a time, if the journal keeps more.
pub(super) const MOST: u64 = 4096;

/// A line has so many bytes, or a few more. If there is too little room, the library is asked again.
const LINE: u64 = 48;

/// A call of the library copies so many notes at most, as text or in bytes, and so does a call that looks after notes: some 20 µs.
const COPIED_AS_TEXT: u64 = 128;
const COPIED_IN_BYTES: u64 = 256;

/// The counts of the journal of a seat.
pub(super) fn counts(seat: &mut raw::fx_seat) -> Result<NoteCounts, Error> {
    let (mut kept, mut free) = (0, 0);
    // SAFETY: the handle is the caller's alone, and both pointers are to local values.
    refused(unsafe { raw::fx_seat_notes(seat, &mut kept, &mut free) })?;
    Ok(NoteCounts { kept, free })
}

/// Forgets the notes that the journal of a seat keeps. How many they were.
fn forget(seat: &mut raw::fx_seat) -> Result<u64, Error> {
    let mut count = 0;
    // SAFETY: as above.
    refused(unsafe { raw::fx_seat_forget(seat, &mut count) })?;
    Ok(count)
}

/// Puts so many notes at most behind these bytes, from this place on: as text, or as a part if it is told how many notes are gone. How many these are.
fn copy_piece(seat: &mut raw::fx_seat, gone: Option<u64>, from: u64, most: u64, text: &mut Vec<u8>) -> Result<u64, Error> {
    loop {
        let (had, room) = (text.len(), text.capacity() - text.len());
        let (mut count, mut notes) = (0, 0);
        // SAFETY: as above; behind what it has the vector has room for as many bytes as the calls are told.
        let code = unsafe {
            let bytes = text.as_mut_ptr().add(had);
            match gone {
                None => raw::fx_seat_copy(seat, from, most, bytes, room, &mut count, &mut notes),
                Some(gone) => raw::fx_seat_copy_bytes(seat, gone + from, from, most, bytes, room, &mut count, &mut notes),
            }
        };
        match code {
            raw::FX_SHORT => text.reserve(count as usize),
            code => {
                refused(code)?;
                // A part of no notes would be its head and its sums.
                if notes == 0 {
                    return Ok(0);
                }
                // SAFETY: the call wrote so many bytes there.
                unsafe { text.set_len(had + count as usize) };
                #[cfg(test)]
                tests::TEXTS.set(tests::TEXTS.get() + notes);
                return Ok(notes);
            }
        }
    }
}

/// Puts notes that the journal of a seat keeps behind these bytes, from this place on: all, or as many as one call of the library may. How many these
/// are. An error leaves the bytes as they were.
fn copy(seat: &mut raw::fx_seat, gone: Option<u64>, from: u64, text: &mut Vec<u8>, is_short: bool) -> Result<u64, Error> {
    let (had, mut all) = (text.len(), 0);
    let piece = if gone.is_some() { COPIED_IN_BYTES } else { COPIED_AS_TEXT };
    text.reserve((LINE * piece.min(counts(seat)?.kept.saturating_sub(from))) as usize);
    loop {
        match copy_piece(seat, gone, from + all, piece, text) {
            Ok(notes) if notes == piece && !is_short => all += piece,
            Ok(notes) => return Ok(all + notes),
            Err(error) => {
                text.truncate(had);
                return Err(error);
            }
        }
    }
}

/// How far the notes of a journal went on.
pub(super) struct Passed {
    form: Form,
    // Of those that it keeps so many, the oldest, went on already.
    at: u64,
    // So many were kept and are no more.
    gone: u64,
}

impl Passed {
    pub(super) fn new(form: Form) -> Passed {
        Passed { form, at: 0, gone: 0 }
    }

    /// Whether so many that are kept make a piece that didn't go on.
    pub(super) fn has_piece(&self, kept: u64) -> bool {
        kept - self.at >= PIECE
    }

    /// Whether some went on that are kept still.
    pub(super) fn is_between(&self) -> bool {
        self.at > 0
    }

    /// Puts notes that didn't go on behind these bytes: all, or as many as one call of the library may. Once none is left, the journal forgets them.
    /// How many went on.
    pub(super) fn pass_on(&mut self, seat: &mut raw::fx_seat, text: &mut Vec<u8>, is_short: bool) -> Result<u64, Error> {
        let gone = (self.form == Form::Bytes).then_some(self.gone);
        let notes = copy(seat, gone, self.at, text, is_short)?;
        self.at += notes;
        if self.at == counts(seat)?.kept {
            self.forget(seat)?;
        }
        Ok(notes)
    }

    /// Forgets the notes that the journal keeps. How many they were.
    pub(super) fn forget(&mut self, seat: &mut raw::fx_seat) -> Result<u64, Error> {
        self.at = 0;
        let count = forget(seat)?;
        self.gone += count;
        Ok(count)
    }
}

/// Texts of notes, each with their count, the oldest first.
#[derive(Default)]
struct Texts {
    texts: VecDeque<(u64, Vec<u8>)>,
    notes: u64,
}

impl Texts {
    fn push(&mut self, notes: u64, mut text: Vec<u8>) {
        text.shrink_to_fit();
        self.texts.push_back((notes, text));
        self.notes += notes;
    }

    /// Puts later texts behind these, and forgets the first ones as long as the others have so many notes.
    fn append(&mut self, mut later: Texts, most: u64) {
        self.texts.append(&mut later.texts);
        self.notes += later.notes;
        while self.texts.front().is_some_and(|(first, _)| self.notes - first >= most) {
            self.notes -= self.texts.pop_front().map_or(0, |(first, _)| first);
        }
    }

    /// Puts the lines of so many notes, the newest, or of all, behind this text. How many there were.
    fn tell(&self, most: u64, text: &mut Vec<u8>) -> u64 {
        let mut gone = self.notes.saturating_sub(most) as usize;
        for line in self.texts.iter().flat_map(|(_, text)| text.split_inclusive(|byte| *byte == b'\n')) {
            match gone {
                0 => text.extend_from_slice(line),
                _ => gone -= 1,
            }
        }
        self.notes.min(most)
    }
}

/// The text of the newest notes, of which the journal doesn't keep all.
#[derive(Default)]
pub(super) struct Newest {
    // Of those that were forgotten.
    old: Texts,
    // Of those that the journal keeps and that will be the newest when it forgets them, up to this place. They are copied as they are made, so that no
    // call has many to copy.
    next: Texts,
    at: u64,
}

impl Newest {
    /// Copies what will be among so many of the newest once the journal keeps `goal` notes. It keeps so many now.
    pub(super) fn follow(&mut self, seat: &mut raw::fx_seat, most: u64, kept: u64, goal: u64) -> Result<(), Error> {
        let from = self.at.max(goal.saturating_sub(most));
        if kept > from {
            let mut text = Vec::new();
            let notes = copy(seat, None, from, &mut text, true)?;
            self.next.push(notes, text);
            self.at = from + notes;
        }
        Ok(())
    }

    /// Whether some of so many that are kept are to be copied still.
    pub(super) fn is_behind(&self, kept: u64) -> bool {
        self.at > 0 && self.at < kept
    }

    /// Whether one call of the library copies what is left of so many that are kept, if so many of the newest stay.
    pub(super) fn is_near(&self, most: u64, kept: u64) -> bool {
        kept - self.at.max(kept.saturating_sub(most)) <= COPIED_AS_TEXT
    }

    /// Forgets the notes that the journal of a seat keeps, and has the text of so many of the newest from then on.
    pub(super) fn roll(&mut self, seat: &mut raw::fx_seat, passed: &mut Passed, most: u64) -> Result<(), Error> {
        let from = self.at.max(counts(seat)?.kept.saturating_sub(most));
        let mut text = Vec::new();
        let notes = copy(seat, None, from, &mut text, false)?;
        passed.forget(seat)?;
        let mut next = std::mem::take(&mut self.next);
        next.push(notes, text);
        self.at = 0;
        self.old.append(next, most);
        Ok(())
    }

    /// Puts the text of so many of the newest notes behind this text, of those that are kept and of those before them. How many there were.
    pub(super) fn tell(&self, seat: &mut raw::fx_seat, most: u64, text: &mut Vec<u8>) -> Result<u64, Error> {
        let kept = counts(seat)?.kept;
        let (had, new) = (text.len(), kept.min(most));
        let old = self.old.tell(most - new, text);
        if let Err(error) = copy(seat, None, kept - new, text, false) {
            text.truncate(had);
            return Err(error);
        }
        Ok(old + new)
    }
}

#[cfg(test)]
mod tests {
    use super::{Journal, Texts, COPIED_AS_TEXT};
    use crate::error::Error;
    use crate::linked::{Config, Core, House, Step};
    use std::cell::Cell;

    thread_local! {
        // Notes that this thread had turned into text.
        pub(super) static TEXTS: Cell<u64> = const { Cell::new(0) };
    }

    /// So many notes at most one call of the core turned into text, and all calls together, while it ran so many jobs.
    fn texts_of(journal: Journal, jobs: u64) -> Result<(u64, u64, Core<u64>), Error> {
        let (_house, mut cores, mut outside) = House::open(&Config { notes: 1 << 14, journal, ..Config::default() })?;
        outside.keep_notes_by(|_| {});
        let (mut core, mut most, mut all) = (cores.remove(0), 0, 0);
        if journal == Journal::Keep {
            core.keep_notes_by(|_| {});
        }
        core.set_clock(|| 0);
        for job in 0..jobs {
            let ticket = outside.submit(0, 0, job).map_err(|(error, _)| error)?;
            TEXTS.set(0);
            core.deliver()?;
            let delivered = TEXTS.replace(0);
            core.run_turn(|job, _| Step::Done(*job))?;
            let ran = TEXTS.get();
            most = most.max(delivered).max(ran);
            all += delivered + ran;
            drop(outside.wait_for(&ticket)?);
        }
        Ok((most, all, core))
    }

    // Each job is four notes.
    #[test]
    fn no_call_turns_many_notes_into_text() -> Result<(), Error> {
        let (most, all, _core) = texts_of(Journal::Forget, 8000)?;
        assert_eq!((most, all), (0, 0));
        let (most, all, _core) = texts_of(Journal::Keep, 8000)?;
        assert!(most == COPIED_AS_TEXT && (29_952..=32_000).contains(&all), "{most}, {all}");
        // All of them stay, half of the room, and next to none.
        for last in [1 << 20, 1 << 13, 5000, 1000, 5] {
            let (most, all, mut core) = texts_of(Journal::Last(last), 8000)?;
            assert!(most <= COPIED_AS_TEXT, "{most} of {last}");
            // The journal was filled to its half less than four times.
            assert!(all <= 4 * (u64::from(last).min(1 << 13) + 2048), "{all} of {last}");
            let mut text = Vec::new();
            let newest = core.newest(u64::from(last), &mut text)?;
            assert_eq!(newest, u64::from(last).min(32_000));
            assert!(text.ends_with(b"0 done 1>0#8000 0 = 7999\n"));
            let names: Vec<u64> = String::from_utf8_lossy(&text).lines().filter_map(|it| it.strip_prefix("0 done 1>0#")?.split(' ').next()?.parse().ok()).collect();
            assert!(names.windows(2).all(|it| it[1] == it[0] + 1) && names.len() as u64 >= newest / 4);
        }
        Ok(())
    }

    #[test]
    fn the_newest_lines_are_the_last() {
        for most in [0, 1, 2, 3, 7, 10, 100] {
            let (mut texts, mut all) = (Texts::default(), Vec::new());
            for number in 0..60 {
                let lines: Vec<String> = (0..number % 4).map(|it| format!("note {number} {it}\n")).collect();
                let mut later = Texts::default();
                later.push(lines.len() as u64, lines.concat().into_bytes());
                texts.append(later, most);
                all.extend(lines);
                let (mut told, first) = (b"before\n".to_vec(), all.len().saturating_sub(most as usize));
                assert_eq!(texts.tell(most, &mut told), (all.len() - first) as u64);
                assert_eq!(String::from_utf8(told).expect("it is ASCII"), format!("before\n{}", all[first..].concat()));
                assert!(texts.notes < most + 4);
            }
        }
    }
}
