//! How a house opens, and how it ends.

use super::actor::Actor;
use super::core::Core;
use super::lanes::Lanes;
use super::notes::{Form, Journal};
use super::outside::Outside;
use super::seat::Seat;
use crate::core::check_version;
use crate::error::{refused, Error};
use crate::raw;
use std::marker::PhantomData;
use std::sync::Arc;

/// What a house is opened with.
///
/// ```
/// use fairexec::linked::{Config, House, Job};
///
/// let (_house, cores, _outside) = House::<Job>::open(&Config { cores: 2, places: 256, ..Config::default() })?;
/// assert_eq!(cores.len(), 2);
/// # Ok::<(), fairexec::Error>(())
/// ```
#[derive(Clone, Copy, PartialEq, Eq, Debug)]
pub struct Config {
    /// 1 to 16.
    pub cores: u32,
    /// Submissions that may be outstanding from one actor to one core, 1 to 1024. If there is more than one place, a core keeps one of the link to
    /// itself for orders that are no jobs, so that it can always wake its own.
    pub places: u32,
    /// Runs that one turn of a queue may have, 1 to 64.
    pub burst: u32,
    /// Notes that the journal of each actor has room for, at most 2^24.
    pub notes: u32,
    /// What becomes of them.
    pub journal: Journal,
    /// How they are passed on.
    pub form: Form,
}

impl Config {
    /// What stands before the parts of all actors if they are passed on in bytes: `fxh1`, the count of the cores, the burst, and the places.
    pub fn head(&self) -> [u8; 8] {
        let [low, high, ..] = self.places.to_le_bytes();
        [b'f', b'x', b'h', b'1', self.cores as u8, self.burst as u8, low, high]
    }
}

impl Default for Config {
    fn default() -> Config {
        Config { cores: 1, places: 64, burst: 1, notes: 1 << 20, journal: Journal::Keep, form: Form::Text }
    }
}

/// The handle of a house. It is freed as it is dropped.
struct Handle(raw::fx_house);

impl Drop for Handle {
    fn drop(&mut self) {
        // SAFETY: nobody uses the handle any more.
        unsafe { raw::fx_house_free(&mut self.0) };
    }
}

/// A house whose actors were taken. It takes them back at its end.
///
/// It stays on its thread, since the library asks for more than `Send` does.
///
/// ```
/// use fairexec::linked::{Config, House, Outcome, Step};
/// use fairexec::Mode;
///
/// let (house, mut cores, mut outside) = House::open(&Config::default())?;
/// let ticket = outside.submit(0, 0, 20_u64).map_err(|(error, _)| error)?;
/// while cores[0].round(|job, _| Step::Done(2 * *job))? {}
/// assert_eq!(outside.wait_for(&ticket)?, Outcome::Done(40));
/// outside.close_all(Mode::Finish)?;
/// cores[0].run(|_, _| Step::Done(0))?;
/// assert!(house.end(cores, outside).map_err(|(error, ..)| error)?.audit()?.is_sound);
/// # Ok::<(), fairexec::Error>(())
/// ```
pub struct House<J> {
    handle: Handle,
    lanes: Arc<Lanes<J>>,
    jobs: PhantomData<J>,
}

/// A house, its cores by their numbers, and its outside actor.
pub type Opened<J> = (House<J>, Vec<Core<J>>, Outside<J>);

/// What a house comes to at its end, or what comes back if it can't end.
pub type Ended<J> = Result<Journals, (Error, House<J>, Vec<Core<J>>, Outside<J>)>;

impl<J> House<J> {
    /// Opens a house. Each core and the outside actor may go to a thread, if the jobs are `Send`.
    ///
    /// # Errors
    ///
    /// `BadNumber`, `NoMemory`.
    ///
    /// # Panics
    ///
    /// If the library that was linked has another version than these declarations.
    pub fn open(config: &Config) -> Result<Opened<J>, Error> {
        check_version();
        let Config { cores, places, burst, notes, journal, form } = *config;
        let asked = raw::fx_config { size: size_of::<raw::fx_config>() as u32, cores, places, burst, notes };
        let mut handle = Handle(raw::fx_house { at: std::ptr::null_mut() });
        // SAFETY: the handle is empty, and both pointers are to local values.
        refused(unsafe { raw::fx_house_open(&mut handle.0, &asked) })?;
        let lanes = Arc::new(Lanes::new(cores, places));
        let mut actors = (0..=cores)
            .map(|_| Seat::take(&mut handle.0, journal, form).map(|(number, seat)| Actor::new(number, seat, Arc::clone(&lanes))))
            .collect::<Result<Vec<_>, _>>()?;
        // The outside actor comes first, and then the cores from the greatest number on.
        actors.reverse();
        let outside = Outside { actor: actors.pop().expect("each house has an outside actor") };
        let cores = actors.into_iter().map(Core::new).collect();
        Ok((House { handle, lanes, jobs: PhantomData }, cores, outside))
    }

    /// Ends the house: all cores are drained, and come back in any order.
    ///
    /// # Errors
    ///
    /// `NoActor` if they aren't the cores of this house, each once, or the actor is another house's; `NotDrained`. Then nothing changes.
    ///
    /// Else the first code of `fx_house_end` that isn't `FX_OK`, such as `NoMemory`. Then the actors before that have ended: a call on one of them
    /// is answered `Ended`, and `stats` panics. The house ends with the others if this is called again with all of them.
    pub fn end(mut self, mut cores: Vec<Core<J>>, mut outside: Outside<J>) -> Ended<J> {
        cores.sort_by_key(Core::number);
        let actors = || cores.iter().map(|core| &core.actor).chain([&outside.actor]);
        if actors().count() as u32 != self.lanes.cores() + 1 || !actors().all(|actor| Arc::ptr_eq(&actor.lanes, &self.lanes)) {
            return Err((Error::NoActor, self, cores, outside));
        }
        if !cores.iter_mut().all(|core| core.actor.seat.has_ended() || core.is_drained()) {
            return Err((Error::NotDrained, self, cores, outside));
        }
        cores.iter_mut().filter(|it| !it.actor.seat.has_ended()).for_each(Core::show_stats);
        let told = cores.iter_mut().map(|core| &mut core.actor.seat).chain([&mut outside.actor.seat]).try_for_each(|it| it.end(&mut self.handle.0));
        match told {
            Ok(()) => Ok(Journals { handle: self.handle }),
            Err(error) => Err((error, self, cores, outside)),
        }
    }
}

/// What an audit found.
///
/// ```
/// use fairexec::linked::{Config, House, Job};
/// use fairexec::Mode;
///
/// let (house, mut cores, outside) = House::<Job>::open(&Config::default())?;
/// cores[0].close(Mode::Finish)?;
/// cores[0].run_jobs()?;
/// let mut journals = house.end(cores, outside).map_err(|(error, ..)| error)?;
/// let verdict = journals.audit()?;
/// assert_eq!((verdict.is_sound, verdict.rule), (true, 0));
/// # Ok::<(), fairexec::Error>(())
/// ```
#[must_use]
#[derive(Clone, Copy, PartialEq, Eq, Debug)]
pub struct Verdict {
    /// Whether the journals are sound.
    pub is_sound: bool,
    /// The first rule that is broken, 1 to 5, if one is.
    pub rule: u32,
    /// In the journal of this actor.
    pub actor: u32,
    /// At this note of it, from 1, or 0 if no single note is at fault.
    pub line: u64,
}

/// The journals of a house that has ended.
///
/// ```
/// use fairexec::linked::{Config, House, Job};
/// use fairexec::Mode;
///
/// let (house, mut cores, outside) = House::<Job>::open(&Config::default())?;
/// cores[0].close(Mode::Finish)?;
/// cores[0].run_jobs()?;
/// let mut journals = house.end(cores, outside).map_err(|(error, ..)| error)?;
/// assert!(journals.audit()?.is_sound);
/// assert!(journals.text()?.starts_with("journal 1\ncores 1 cap 64\n"));
/// # Ok::<(), fairexec::Error>(())
/// ```
pub struct Journals {
    handle: Handle,
}

impl Journals {
    /// Audits them.
    ///
    /// # Errors
    ///
    /// `PassedOn` if an actor passed notes on, so that they aren't here; `NoMemory`.
    pub fn audit(&mut self) -> Result<Verdict, Error> {
        let mut verdict = raw::fx_verdict { size: size_of::<raw::fx_verdict>() as u32, ..raw::fx_verdict::default() };
        // SAFETY: the handle is of this house alone, and the verdict is a local value.
        refused(unsafe { raw::fx_house_audit(&mut self.handle.0, &mut verdict) })?;
        Ok(Verdict { is_sound: verdict.sound == 1, rule: verdict.rule, actor: verdict.actor, line: verdict.line })
    }

    /// Their text: that of the notes that were kept.
    ///
    /// # Errors
    ///
    /// `NoMemory`.
    pub fn text(&mut self) -> Result<String, Error> {
        let mut text = Vec::new();
        let mut part = vec![0; 1 << 16];
        loop {
            let mut count = 0;
            // SAFETY: as above; the part has room for as many bytes as it is told to have.
            refused(unsafe { raw::fx_house_text(&mut self.handle.0, text.len() as u64, part.as_mut_ptr(), part.len(), &mut count) })?;
            text.extend_from_slice(&part[..count as usize]);
            if (count as usize) < part.len() {
                return Ok(String::from_utf8(text).expect("a journal is ASCII"));
            }
        }
    }
}

#[cfg(test)]
mod tests {
    use super::{Config, House, Opened};
    use crate::error::Error;
    use crate::core::Mode;

    /// A house of three cores that are drained.
    fn drained() -> Result<Opened<u64>, Error> {
        let (house, mut cores, outside) = House::open(&Config { cores: 3, places: 4, notes: 64, ..Config::default() })?;
        for core in &mut cores {
            core.close(Mode::Finish)?;
            core.deliver()?;
        }
        Ok((house, cores, outside))
    }

    #[test]
    fn the_first_code_that_refuses_an_end_is_answered() -> Result<(), Error> {
        let (house, mut cores, outside) = drained()?;
        // Core 1 ends nowhere, so its journal is missed behind that of core 0.
        let (mut other, others, _outside) = drained()?;
        let lost = &mut cores[1].actor.seat;
        others.into_iter().next().map(|mut first| first.actor.seat.end(&mut other.handle.0)).expect("three cores")?;
        lost.end(&mut other.handle.0)?;
        let (error, house, mut cores, outside) = house.end(cores, outside).err().expect("core 1 is missed");
        assert_eq!((error, cores.len()), (Error::NoActor, 3));
        assert_eq!(cores[0].close(Mode::Return), Err(Error::Ended));
        assert_eq!(cores[0].deliver(), Err(Error::Ended));
        assert!(!cores[0].is_drained() && cores[2].is_drained());
        let (error, ..) = house.end(cores, outside).err().expect("core 1 is missed");
        assert_eq!(error, Error::NoActor);
        Ok(())
    }

    #[test]
    fn a_house_ends_with_what_has_not_ended() -> Result<(), Error> {
        let (mut house, mut cores, outside) = drained()?;
        // As an end leaves it that found no memory behind core 1.
        for core in &mut cores[..2] {
            core.actor.seat.end(&mut house.handle.0)?;
        }
        assert!(house.end(cores, outside).map_err(|(error, ..)| error)?.audit()?.is_sound);
        Ok(())
    }
}
