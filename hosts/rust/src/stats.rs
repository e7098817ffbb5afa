//! The counts of a core and of its queues.

use crate::core::Mode;
use crate::raw;

/// The counts of a core.
#[derive(Clone, Copy, PartialEq, Eq, Debug)]
pub struct CoreStats {
    /// Queues, 1 to 256.
    pub queues: u32,
    /// How many jobs the core has room for.
    pub room: u64,
    /// Jobs inside, parked ones and one that runs counted too.
    pub held: u64,
    /// Turns, those that handed a job back counted too.
    pub turns: u64,
    /// The greatest virtual runtime at which a queue was picked.
    pub floor: u128,
    /// Whether a job runs.
    pub is_running: bool,
    /// How the core was closed, if it was.
    pub closed: Option<Mode>,
}

/// The counts of a queue. Times are nanoseconds.
#[derive(Clone, Copy, PartialEq, Eq, Debug)]
pub struct QueueStats {
    /// 1 to 10000.
    pub shares: u32,
    /// Turns of this queue, those that handed a job back counted too.
    pub picks: u64,
    /// Jobs inside that don't run, parked ones counted too.
    pub waiting: u64,
    /// Jobs that are done.
    pub done: u64,
    /// Jobs that a turn handed back.
    pub back: u64,
    /// The sum of the times of its runs, each as it counts.
    pub time: u128,
    /// Its virtual runtime.
    pub virtual_runtime: u128,
}

fn wide(low: u64, high: u64) -> u128 {
    u128::from(low) | u128::from(high) << 64
}

impl CoreStats {
    /// What the library writes to.
    pub(crate) fn asked() -> raw::fx_core_stats {
        raw::fx_core_stats { size: size_of::<raw::fx_core_stats>() as u32, ..raw::fx_core_stats::default() }
    }

    pub(crate) fn of(stats: &raw::fx_core_stats) -> CoreStats {
        CoreStats {
            queues: stats.queues,
            room: stats.room,
            held: stats.held,
            turns: stats.turns,
            floor: wide(stats.floor_low, stats.floor_high),
            is_running: stats.running == 1,
            closed: match stats.closed {
                0 => None,
                1 => Some(Mode::Finish),
                _ => Some(Mode::Return),
            },
        }
    }
}

impl QueueStats {
    /// What the library writes to.
    pub(crate) fn asked() -> raw::fx_queue_stats {
        raw::fx_queue_stats { size: size_of::<raw::fx_queue_stats>() as u32, ..raw::fx_queue_stats::default() }
    }

    pub(crate) fn of(stats: &raw::fx_queue_stats) -> QueueStats {
        QueueStats {
            shares: stats.shares,
            picks: stats.picks,
            waiting: stats.waiting,
            done: stats.done,
            back: stats.back,
            time: wide(stats.time_low, stats.time_high),
            virtual_runtime: wide(stats.virtual_low, stats.virtual_high),
        }
    }
}
