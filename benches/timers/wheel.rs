// A hashed hierarchical wheel of the design that tokio's has: six levels of 64 slots each, with ticks of a millisecond. A slot is a list, and a word of
// each level tells which of its slots hold any timer. A timer moves to a lower level when the slot that holds it begins.
use crate::Timers;

const LEVELS: usize = 6;

/// Nanoseconds of a tick.
const TICK: u64 = 1_000_000;

/// No timer.
const NONE: u32 = u32::MAX;

/// The list of those that have fired and weren't taken out, behind all slots.
const FIRED: usize = 64 * LEVELS;

/// A timer that isn't set is in no list.
const NOWHERE: usize = FIRED + 1;

#[derive(Clone, Copy)]
struct Entry {
    tick: u64,
    before: u32,
    behind: u32,
    list: usize,
}

pub struct Wheel {
    now: u64,
    occupied: [u64; LEVELS],
    firsts: [u32; FIRED + 1],
    entries: Vec<Entry>,
}

/// The level whose slots tell two ticks apart.
fn level_of(now: u64, tick: u64) -> usize {
    let bits = 63 - ((now ^ tick) | 63).leading_zeros() as usize;
    (bits / 6).min(LEVELS - 1)
}

impl Wheel {
    fn push(&mut self, key: u32, list: usize) {
        let first = std::mem::replace(&mut self.firsts[list], key);
        let entry = &mut self.entries[key as usize];
        (entry.before, entry.behind, entry.list) = (NONE, first, list);
        if first != NONE {
            self.entries[first as usize].before = key;
        }
        if list < FIRED {
            self.occupied[list / 64] |= 1 << (list % 64);
        }
    }

    /// Puts a timer into the slot of its tick, or to those that have fired.
    fn file(&mut self, key: u32, tick: u64) {
        let list = if tick <= self.now {
            FIRED
        } else {
            let level = level_of(self.now, tick);
            64 * level + (tick >> (6 * level)) as usize % 64
        };
        self.push(key, list);
    }

    /// The slot that begins next, if any holds a timer, and its first tick.
    fn next_slot(&self) -> Option<(usize, u64)> {
        let level = self.occupied.iter().position(|it| *it != 0)?;
        let here = (self.now >> (6 * level)) % 64;
        let slot = (u64::from(self.occupied[level].rotate_right(here as u32).trailing_zeros()) + here) % 64;
        let around = 1 << (6 * level + 6);
        let tick = (self.now & !(around - 1)) + (slot << (6 * level));
        Some((64 * level + slot as usize, if tick <= self.now { tick + around } else { tick }))
    }

    /// Time comes to this slot: its timers fire, or move to a lower level.
    fn begin(&mut self, list: usize, tick: u64) {
        self.now = tick;
        self.occupied[list / 64] &= !(1 << (list % 64));
        let mut key = std::mem::replace(&mut self.firsts[list], NONE);
        while key != NONE {
            let Entry { tick, behind, .. } = self.entries[key as usize];
            self.file(key, tick);
            key = behind;
        }
    }
}

impl Timers for Wheel {
    fn open(places: usize) -> Self {
        let entry = Entry { tick: 0, before: NONE, behind: NONE, list: NOWHERE };
        Wheel { now: 0, occupied: [0; LEVELS], firsts: [NONE; FIRED + 1], entries: vec![entry; places] }
    }

    fn set(&mut self, key: u32, time: u64) {
        let tick = time.div_ceil(TICK);
        self.entries[key as usize].tick = tick;
        self.file(key, tick);
    }

    fn forget(&mut self, key: u32) {
        let Entry { before, behind, list, .. } = self.entries[key as usize];
        if behind != NONE {
            self.entries[behind as usize].before = before;
        }
        if before != NONE {
            self.entries[before as usize].behind = behind;
        } else {
            self.firsts[list] = behind;
            if behind == NONE && list < FIRED {
                self.occupied[list / 64] &= !(1 << (list % 64));
            }
        }
        self.entries[key as usize].list = NOWHERE;
    }

    fn next(&self) -> Option<u64> {
        if self.firsts[FIRED] != NONE {
            return Some(self.now * TICK);
        }
        Some(self.next_slot()?.1 * TICK)
    }

    fn take_due(&mut self, now: u64) -> Option<u32> {
        while self.firsts[FIRED] == NONE {
            match self.next_slot() {
                Some((list, tick)) if tick <= now / TICK => self.begin(list, tick),
                _ => return None,
            }
        }
        let key = self.firsts[FIRED];
        self.forget(key);
        Some(key)
    }
}
