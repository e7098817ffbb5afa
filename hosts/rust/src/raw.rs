//! The declarations of hosts/c/fairexec.h, which tests/hosts compares with these. That header tells what each call does.

#![allow(missing_docs, non_camel_case_types)]

use std::ffi::c_void;

pub const FX_VERSION: u32 = 1;

pub const FX_OK: u32 = 0;
pub const FX_START: u32 = 1;
pub const FX_RESUME: u32 = 2;
pub const FX_DONE: u32 = 3;
pub const FX_BACK: u32 = 4;
pub const FX_IDLE: u32 = 5;
pub const FX_SPENT: u32 = 6;
pub const FX_BUSY: u32 = 7;
pub const FX_NO_JOB: u32 = 8;
pub const FX_FULL: u32 = 9;
pub const FX_NO_MEMORY: u32 = 10;
pub const FX_BAD_SHARES: u32 = 11;
pub const FX_EMPTY: u32 = 12;
pub const FX_NO_QUEUE: u32 = 13;
pub const FX_CLOSED: u32 = 14;
pub const FX_TOO_MANY: u32 = 15;
pub const FX_BAD_NUMBER: u32 = 16;
pub const FX_OCCUPIED: u32 = 17;
pub const FX_PARKED: u32 = 18;
pub const FX_ABSENT: u32 = 19;
pub const FX_JOURNAL_FULL: u32 = 20;
pub const FX_UNKNOWN_CORE: u32 = 21;
pub const FX_NO_ACTOR: u32 = 22;
pub const FX_UNKNOWN: u32 = 23;
pub const FX_GONE: u32 = 24;
pub const FX_PENDING: u32 = 25;
pub const FX_OPEN: u32 = 26;
pub const FX_SHUT: u32 = 27;
pub const FX_NOT_DRAINED: u32 = 28;
pub const FX_MIXED: u32 = 29;
pub const FX_SHORT: u32 = 30;
pub const FX_PASSED_ON: u32 = 31;
pub const FX_NULL: u32 = 32;

pub const FX_STEP_YIELD: u32 = 0;
pub const FX_STEP_DONE: u32 = 1;
pub const FX_STEP_PARK: u32 = 2;

pub const FX_MODE_FINISH: u32 = 0;
pub const FX_MODE_RETURN: u32 = 1;

pub const FX_NEVER: u64 = u64::MAX;

pub const FX_KIND_DONE: u32 = 0;
pub const FX_KIND_BACK: u32 = 1;
pub const FX_KIND_ANSWER: u32 = 2;

pub const FX_REASON_NO_QUEUE: u32 = 0;
pub const FX_REASON_QUEUE_CLOSED: u32 = 1;
pub const FX_REASON_CORE_CLOSING: u32 = 2;
pub const FX_REASON_QUEUE_RETURNED: u32 = 3;
pub const FX_REASON_CORE_RETURNED: u32 = 4;

pub const FX_ANSWER_CREATED: u32 = 0;
pub const FX_ANSWER_TOO_MANY: u32 = 1;
pub const FX_ANSWER_NO_MEMORY: u32 = 2;
pub const FX_ANSWER_CORE_CLOSING: u32 = 3;
pub const FX_ANSWER_SHARES_SET: u32 = 4;
pub const FX_ANSWER_NO_QUEUE: u32 = 5;
pub const FX_ANSWER_CLOSED: u32 = 6;
pub const FX_ANSWER_ALREADY_CLOSED: u32 = 7;
pub const FX_ANSWER_WOKEN: u32 = 8;
pub const FX_ANSWER_NO_JOB: u32 = 9;

#[repr(C)]
pub struct fx_core {
    pub at: *mut c_void,
}

#[repr(C)]
#[derive(Clone, Copy, Default)]
pub struct fx_core_stats {
    pub size: u32,
    pub queues: u32,
    pub room: u64,
    pub held: u64,
    pub turns: u64,
    pub floor_low: u64,
    pub floor_high: u64,
    pub running: u32,
    pub closed: u32,
}

#[repr(C)]
#[derive(Clone, Copy, Default)]
pub struct fx_queue_stats {
    pub size: u32,
    pub shares: u32,
    pub picks: u64,
    pub waiting: u64,
    pub done: u64,
    pub back: u64,
    pub time_low: u64,
    pub time_high: u64,
    pub virtual_low: u64,
    pub virtual_high: u64,
}

#[repr(C)]
pub struct fx_house {
    pub at: *mut c_void,
}

#[repr(C)]
pub struct fx_seat {
    pub at: *mut c_void,
}

#[repr(C)]
pub struct fx_timers {
    pub at: *mut c_void,
}

#[repr(C)]
#[derive(Clone, Copy, Default)]
pub struct fx_config {
    pub size: u32,
    pub cores: u32,
    pub places: u32,
    pub burst: u32,
    pub notes: u32,
}

#[repr(C)]
#[derive(Clone, Copy, Default, PartialEq, Eq, Debug)]
pub struct fx_name {
    pub number: u64,
    pub from: u32,
    pub to: u32,
}

#[repr(C)]
#[derive(Clone, Copy, Default)]
pub struct fx_turn {
    pub size: u32,
    pub queue: u32,
    pub name: fx_name,
    pub job: u64,
    pub reason: u32,
    pub zero: u32,
}

#[repr(C)]
#[derive(Clone, Copy, Default)]
pub struct fx_outcome {
    pub size: u32,
    pub kind: u32,
    pub why: u32,
    pub queue: u32,
    pub answer: u64,
    pub job: u64,
}

#[repr(C)]
#[derive(Clone, Copy, Default)]
pub struct fx_verdict {
    pub size: u32,
    pub sound: u32,
    pub rule: u32,
    pub actor: u32,
    pub line: u64,
}

#[link(name = "fairexec", kind = "static")]
extern "C" {
    pub fn fx_version() -> u32;
    pub fn fx_open(core: *mut fx_core, jobs: u32) -> u32;
    pub fn fx_free(core: *mut fx_core) -> u32;
    pub fn fx_create(core: *mut fx_core, shares: u32, queue: *mut u32) -> u32;
    pub fn fx_set_shares(core: *mut fx_core, queue: u32, shares: u32) -> u32;
    pub fn fx_submit(core: *mut fx_core, queue: u32, job: u64) -> u32;
    pub fn fx_submit_numbered(core: *mut fx_core, queue: u32, job: u64, order: *mut u64) -> u32;
    pub fn fx_wake(core: *mut fx_core, order: u64) -> u32;
    pub fn fx_next(core: *mut fx_core, job: *mut u64) -> u32;
    pub fn fx_settle(core: *mut fx_core, step: u32, spent: u64) -> u32;
    pub fn fx_close_queue(core: *mut fx_core, queue: u32, mode: u32) -> u32;
    pub fn fx_close(core: *mut fx_core, mode: u32) -> u32;
    pub fn fx_stats(core: *mut fx_core, stats: *mut fx_core_stats) -> u32;
    pub fn fx_stats_of_queue(core: *mut fx_core, queue: u32, stats: *mut fx_queue_stats) -> u32;
    pub fn fx_house_open(house: *mut fx_house, config: *const fx_config) -> u32;
    pub fn fx_house_take(house: *mut fx_house, seat: *mut fx_seat, actor: *mut u32) -> u32;
    pub fn fx_house_end(house: *mut fx_house, seat: *mut fx_seat) -> u32;
    pub fn fx_house_audit(house: *mut fx_house, verdict: *mut fx_verdict) -> u32;
    pub fn fx_house_text(house: *mut fx_house, from: u64, bytes: *mut u8, room: usize, count: *mut u64) -> u32;
    pub fn fx_house_free(house: *mut fx_house) -> u32;
    pub fn fx_seat_free(seat: *mut fx_seat) -> u32;
    pub fn fx_seat_next(seat: *mut fx_seat, turn: *mut fx_turn) -> u32;
    pub fn fx_seat_settle(seat: *mut fx_seat, step: u32, answer: u64, spent: u64) -> u32;
    pub fn fx_seat_step(seat: *mut fx_seat, step: u32, answer: u64, spent: u64, turn: *mut fx_turn) -> u32;
    pub fn fx_seat_deliver(seat: *mut fx_seat, sender: u32) -> u32;
    pub fn fx_seat_collect(seat: *mut fx_seat, core: u32, count: *mut u64) -> u32;
    pub fn fx_seat_came(seat: *mut fx_seat, place: u64, name: *mut fx_name) -> u32;
    pub fn fx_seat_submit(seat: *mut fx_seat, to: u32, queue: u32, job: u64, name: *mut fx_name) -> u32;
    pub fn fx_seat_create(seat: *mut fx_seat, to: u32, shares: u32, name: *mut fx_name) -> u32;
    pub fn fx_seat_set_shares(seat: *mut fx_seat, to: u32, queue: u32, shares: u32, name: *mut fx_name) -> u32;
    pub fn fx_seat_close_queue(seat: *mut fx_seat, to: u32, queue: u32, mode: u32, name: *mut fx_name) -> u32;
    pub fn fx_seat_close_core(seat: *mut fx_seat, to: u32, mode: u32, name: *mut fx_name) -> u32;
    pub fn fx_seat_wake(seat: *mut fx_seat, job: *const fx_name, name: *mut fx_name) -> u32;
    pub fn fx_seat_redeem(seat: *mut fx_seat, name: *const fx_name, outcome: *mut fx_outcome) -> u32;
    pub fn fx_seat_detach(seat: *mut fx_seat, name: *const fx_name) -> u32;
    pub fn fx_seat_pass_on(seat: *mut fx_seat, bytes: *mut u8, room: usize, count: *mut u64) -> u32;
    pub fn fx_seat_notes(seat: *mut fx_seat, kept: *mut u64, free_notes: *mut u64) -> u32;
    pub fn fx_seat_copy(seat: *mut fx_seat, from: u64, most: u64, bytes: *mut u8, room: usize, count: *mut u64, notes: *mut u64) -> u32;
    pub fn fx_seat_copy_bytes(seat: *mut fx_seat, before: u64, from: u64, most: u64, bytes: *mut u8, room: usize, count: *mut u64, notes: *mut u64) -> u32;
    pub fn fx_seat_forget(seat: *mut fx_seat, count: *mut u64) -> u32;
    pub fn fx_seat_close(seat: *mut fx_seat, mode: u32) -> u32;
    pub fn fx_seat_shut(seat: *mut fx_seat, sender: u32) -> u32;
    pub fn fx_seat_drained(seat: *mut fx_seat) -> u32;
    pub fn fx_seat_shows(seat: *mut fx_seat) -> u32;
    pub fn fx_seat_stats(seat: *mut fx_seat, stats: *mut fx_core_stats) -> u32;
    pub fn fx_seat_stats_of_queue(seat: *mut fx_seat, queue: u32, stats: *mut fx_queue_stats) -> u32;
    pub fn fx_timers_open(timers: *mut fx_timers, jobs: u32) -> u32;
    pub fn fx_timers_free(timers: *mut fx_timers) -> u32;
    pub fn fx_next_time(timers: *mut fx_timers, time: *mut u64) -> u32;
    pub fn fx_settle_until(core: *mut fx_core, timers: *mut fx_timers, step: u32, spent: u64, time: u64) -> u32;
    pub fn fx_seat_settle_until(seat: *mut fx_seat, timers: *mut fx_timers, step: u32, answer: u64, spent: u64, time: u64) -> u32;
    pub fn fx_wake_due(core: *mut fx_core, timers: *mut fx_timers, now: u64) -> u32;
    pub fn fx_seat_wake_due(seat: *mut fx_seat, timers: *mut fx_timers, now: u64) -> u32;
}
