//! What becomes of the notes of a house.

use fairexec::linked::{Config, Core, Form, House, Journal, NoteCounts, Opened, Outcome, Outside, Step};
use fairexec::{Error, Mode};
use std::sync::{Arc, Mutex};

/// Runs so many jobs, one after another, on a core whose clock stands still.
fn run_jobs(core: &mut Core<u64>, outside: &mut Outside<u64>, jobs: u64) -> Result<(), Error> {
    core.set_clock(|| 0);
    for job in 0..jobs {
        let ticket = outside.submit(0, 0, job).map_err(|(error, _)| error)?;
        while core.round(|job, _| Step::Done(*job))? {}
        assert_eq!(outside.wait_for(&ticket)?, Outcome::Done(job));
    }
    Ok(())
}

#[test]
fn a_house_runs_without_end_if_its_notes_are_forgotten() -> Result<(), Error> {
    for (journal, notes) in [Journal::Forget, Journal::Last(5), Journal::Last(700)].into_iter().flat_map(|it| [12, 1 << 11, 1 << 13].map(|notes| (it, notes))) {
        let (house, mut cores, mut outside): Opened<u64> = House::open(&Config { places: 4, notes, journal, ..Config::default() })?;
        run_jobs(&mut cores[0], &mut outside, 1500)?;
        let mut text = b"before\n".to_vec();
        let most = if let Journal::Last(most) = journal { u64::from(most) } else { 5 };
        let count = cores[0].newest(most, &mut text)?;
        let all = String::from_utf8(text).expect("a journal is ASCII");
        let lines: Vec<_> = all.lines().collect();
        assert_eq!(lines.len() as u64, 1 + count);
        // The newest stay in their order: four are of each job.
        if let Journal::Last(_) = journal {
            let job_of = |back: usize| 1500 - back as u64 / 4;
            assert_eq!(count, most);
            assert!(lines.iter().rev().enumerate().take(most as usize).all(|(back, line)| line.contains(&format!(" 1>0#{}", job_of(back))) || line.contains(" pick q0")));
        }
        assert!(count == 0 || lines.last() == Some(&"0 done 1>0#1500 0 = 1499"));
        cores[0].close(Mode::Finish)?;
        while cores[0].round(|job, _| Step::Done(*job))? {}
        assert_eq!(house.end(cores, outside).map_err(|(error, ..)| error)?.audit().err(), Some(Error::PassedOn));
    }
    Ok(())
}

#[test]
fn notes_go_on_before_a_long_journal_is_full() -> Result<(), Error> {
    let (_house, mut cores, mut outside): Opened<u64> = House::open(&Config { places: 4, notes: 1 << 12, ..Config::default() })?;
    let parts = Arc::new(Mutex::new(Vec::new()));
    let takes = Arc::clone(&parts);
    cores[0].keep_notes_by(move |part| takes.lock().expect("no panic").push(part.iter().filter(|byte| **byte == b'\n').count()));
    outside.keep_notes_by(|_| {});
    run_jobs(&mut cores[0], &mut outside, 4000)?;
    let parts = parts.lock().expect("no panic").clone();
    assert!(parts.len() >= 8 && parts.iter().all(|count| *count < 2048), "{parts:?}");
    let counts = cores[0].note_counts()?;
    assert_eq!((counts.kept as usize + parts.iter().sum::<usize>(), counts.kept + counts.free), (16_000, 1 << 12));
    assert_eq!((cores[0].forget()?, cores[0].note_counts()?), (counts.kept, NoteCounts { kept: 0, free: 1 << 12 }));
    Ok(())
}

/// The actor, how many notes came before, and how many notes there are, of each part.
fn heads_of(bytes: &[u8]) -> Vec<(u8, u64, u64)> {
    let (mut rest, mut heads) = (bytes, Vec::new());
    while !rest.is_empty() {
        assert_eq!(&rest[..4], b"fxp1");
        let [before, count, size] = [5, 13, 21].map(|at| u64::from_le_bytes(rest[at..at + 8].try_into().expect("8 bytes")));
        let (part, after) = rest.split_at(29 + size as usize);
        let (mut first, mut second) = (0_u64, 0_u64);
        for byte in part {
            first += u64::from(*byte);
            second += first;
        }
        assert_eq!(after[..16], [first.to_le_bytes(), second.to_le_bytes()].concat()[..]);
        heads.push((part[4], before, count));
        rest = &after[16..];
    }
    heads
}

// Each part goes on where the one before ended, and what was forgotten in between is missing.
#[test]
fn parts_in_bytes_say_how_many_notes_came_before() -> Result<(), Error> {
    let config = Config { places: 4, notes: 1 << 12, form: Form::Bytes, ..Config::default() };
    let (house, mut cores, mut outside): Opened<u64> = House::open(&config)?;
    assert_eq!(&config.head(), b"fxh1\x01\x01\x04\x00");
    outside.keep_notes_by(|_| {});
    let mut none = Vec::new();
    cores[0].pass_on(&mut none)?;
    assert!(none.is_empty());
    run_jobs(&mut cores[0], &mut outside, 100)?;
    let mut first = Vec::new();
    cores[0].pass_on(&mut first)?;
    assert_eq!(heads_of(&first), [(0, 0, 256), (0, 256, 144)]);
    run_jobs(&mut cores[0], &mut outside, 10)?;
    assert_eq!(cores[0].forget()?, 40);
    let parts = Arc::new(Mutex::new(Vec::new()));
    let takes = Arc::clone(&parts);
    cores[0].keep_notes_by(move |part| takes.lock().expect("no panic").extend_from_slice(part));
    run_jobs(&mut cores[0], &mut outside, 4000)?;
    let mut all = parts.lock().expect("no panic").clone();
    assert!(all.len() > 4 * 4096);
    cores[0].pass_on(&mut all)?;
    let mut found = 440;
    for (actor, before, count) in heads_of(&all) {
        assert!((actor, before) == (0, found) && count > 0);
        found += count;
    }
    assert_eq!(found, 16_440);
    cores[0].close(Mode::Finish)?;
    while cores[0].round(|job, _| Step::Done(*job))? {}
    assert!(house.end(cores, outside).is_ok());
    Ok(())
}

// The newest notes are told as text, and those that were forgotten before are counted.
#[test]
fn the_newest_notes_of_a_house_in_bytes_are_text() -> Result<(), Error> {
    let config = Config { places: 4, notes: 12, journal: Journal::Last(5), form: Form::Bytes, ..Config::default() };
    let (_house, mut cores, mut outside): Opened<u64> = House::open(&config)?;
    run_jobs(&mut cores[0], &mut outside, 101)?;
    let (mut text, mut part) = (Vec::new(), Vec::new());
    assert_eq!(cores[0].newest(1, &mut text)?, 1);
    assert_eq!(String::from_utf8_lossy(&text), "0 done 1>0#101 0 = 100\n");
    cores[0].pass_on(&mut part)?;
    let heads = heads_of(&part);
    assert!(matches!(heads[..], [(0, before, count)] if count > 0 && before + count == 404), "{heads:?}");
    Ok(())
}

/// Lines that were taken: those since the last look, the most of one call, and all of them.
#[derive(Default)]
struct Lines {
    now: usize,
    most: usize,
    all: Vec<u8>,
}

// The journal has many notes when somebody is named who takes them.
#[test]
fn no_call_hands_on_many_notes() -> Result<(), Error> {
    let (house, mut cores, mut outside): Opened<u64> = House::open(&Config { places: 4, notes: 1 << 16, ..Config::default() })?;
    run_jobs(&mut cores[0], &mut outside, 12_000)?;
    let lines = Arc::new(Mutex::new(Lines::default()));
    let takes = Arc::clone(&lines);
    cores[0].keep_notes_by(move |part| {
        let lines = &mut *takes.lock().expect("no panic");
        lines.now += part.iter().filter(|byte| **byte == b'\n').count();
        lines.most = lines.most.max(lines.now);
        lines.all.extend_from_slice(part);
    });
    assert_eq!(cores[0].note_counts()?.kept, 48_000);
    for job in 0..2000 {
        let ticket = outside.submit(0, 0, job).map_err(|(error, _)| error)?;
        for _ in 0..2 {
            cores[0].deliver()?;
            lines.lock().expect("no panic").now = 0;
            cores[0].run_turn(|job, _| Step::Done(*job))?;
            lines.lock().expect("no panic").now = 0;
        }
        assert_eq!(outside.wait_for(&ticket)?, Outcome::Done(job));
    }
    assert!((256..=4096).contains(&lines.lock().expect("no panic").most));
    assert!(cores[0].note_counts()?.kept < 2048);
    // No note is lost, and none goes out twice.
    cores[0].pass_on(&mut lines.lock().expect("no panic").all)?;
    let text = String::from_utf8(std::mem::take(&mut lines.lock().expect("no panic").all)).expect("a journal is ASCII");
    let done: Vec<_> = text.lines().filter_map(|line| line.strip_prefix("0 done 1>0#")?.split(' ').next()?.parse().ok()).collect();
    assert_eq!((text.lines().count(), done), (56_000, (1..=14_000).collect::<Vec<u64>>()));
    cores[0].close(Mode::Finish)?;
    while cores[0].round(|job, _| Step::Done(*job))? {}
    assert!(house.end(cores, outside).is_ok());
    Ok(())
}

// An end comes in between: what is left goes out before it.
#[test]
fn a_house_ends_while_its_notes_go_on() -> Result<(), Error> {
    let (house, mut cores, mut outside): Opened<u64> = House::open(&Config { places: 4, notes: 1 << 16, ..Config::default() })?;
    run_jobs(&mut cores[0], &mut outside, 12_000)?;
    let count = Arc::new(Mutex::new(0));
    let takes = Arc::clone(&count);
    cores[0].keep_notes_by(move |part| *takes.lock().expect("no panic") += part.iter().filter(|byte| **byte == b'\n').count());
    cores[0].close(Mode::Finish)?;
    while *count.lock().expect("no panic") == 0 {
        cores[0].deliver()?;
    }
    while cores[0].round(|job, _| Step::Done(*job))? {}
    assert!(*count.lock().expect("no panic") <= 4096);
    let text = house.end(cores, outside).map_err(|(error, ..)| error)?.text()?;
    let kept = text.lines().filter(|line| line.starts_with("0 ")).count();
    assert_eq!((*count.lock().expect("no panic"), kept), (48_003, 0));
    Ok(())
}

#[test]
fn a_journal_that_is_kept_is_whole() -> Result<(), Error> {
    let (house, mut cores, mut outside): Opened<u64> = House::open(&Config { places: 4, ..Config::default() })?;
    run_jobs(&mut cores[0], &mut outside, 1000)?;
    let (mut newest, mut none) = (Vec::new(), Vec::new());
    assert_eq!((cores[0].newest(2, &mut newest)?, cores[0].newest(0, &mut none)?), (2, 0));
    assert_eq!(String::from_utf8_lossy(&newest), "0 start 1>0#1000\n0 done 1>0#1000 0 = 999\n");
    cores[0].close(Mode::Finish)?;
    while cores[0].round(|job, _| Step::Done(*job))? {}
    assert!(house.end(cores, outside).map_err(|(error, ..)| error)?.audit()?.is_sound);
    Ok(())
}
