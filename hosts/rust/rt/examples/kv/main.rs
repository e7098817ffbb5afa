//! A key-value server that speaks the Redis protocol. Keys are sharded over the cores, and each core has a log of its own.
//!
//!     kv [--port 6379] [--cores 2] [--pin FIRST] [--dir FOLDER] [--fsync always|everysec|no] [--idle SECONDS] [--journal NOTES|FOLDER]
//!        [--background TASKS]
//!
//! Without --dir nothing is kept. Logs are compacted in a queue of their own. The parts of MSET, DEL and FLUSHALL on different cores aren't one step.
//! --background starts tasks on each core that compute without end, to measure what they leave to requests.

#[path = "../../compare/src/background.rs"]
mod background;
mod log;
mod resp;
mod shard;

use fairexec_rt::fs::Fsync;
use fairexec_rt::net::{Reads, TcpListener, TcpStream};
use fairexec_rt::{spawn_local, stats, submit, yield_if_needed, Call, Executor, Here, JoinHandle, Journal, Pin, Queue};
use futures_lite::AsyncWriteExt;
use resp::{number, parse};
use shard::{bulk, error, key_of, now, tell, text, Answer, Entry, Key, Shard, NO_NUMBER};
use std::{cell::RefCell, io, iter::once, path::PathBuf, rc::Rc, time::Duration};

const REQUESTS: Queue = Queue::FIRST;
const COMPACTION: Queue = Queue::new(1);
/// So many commands of a pipeline are under way at once.
const BATCH: usize = 128;
const COMMANDS: &str = "PING ECHO GET SET DEL EXISTS INCR MGET MSET EXPIRE TTL DBSIZE SCAN FLUSHALL CONFIG CLIENT";

thread_local!(static SHARD: Rc<RefCell<Shard>> = Rc::default());

/// The shard of this core.
fn shard() -> Rc<RefCell<Shard>> {
    SHARD.with(Rc::clone)
}

/// A command that was begun, on this core or another one, or its parts, and whether these have one answer: the sum of their numbers, or that of the first.
enum Does {
    Here(Answer),
    There(Call<Answer>),
    All(Vec<Does>, bool),
}

/// Begins a part of a command on a core.
fn on_core(here: &Here, core: u64, does: impl FnOnce(&mut Shard) -> Answer + Send + 'static) -> Does {
    if core == u64::from(here.core()) {
        return Does::Here(does(&mut shard().borrow_mut()));
    }
    Does::There(submit(core as u32, REQUESTS, || {
        let answer = does(&mut shard().borrow_mut());
        log::safe(answer)
    }))
}

/// The core of a hash: each has as many hashes, and those of one core follow each other.
fn core_of(here: &Here, hash: u64) -> u64 {
    ((hash >> 32) * u64::from(here.cores())) >> 32
}

/// Begins a part of a command on the core of a key.
fn on_key(here: &Here, key: &[u8], does: impl FnOnce(&mut Shard, Key) -> Answer + Send + 'static) -> Does {
    let key = key_of(key);
    on_core(here, core_of(here, key.0), |it| does(it, key))
}

fn info() -> Answer {
    let mut told = format!("# Server\r\nredis_version:7.0.0\r\nserver:fairexec-rt kv\r\nbackground_bytes:{}\r\n# Queues\r\n", background::bytes());
    for (core, it) in stats().iter().flat_map(|core| core.queues.iter().map(|it| (core.core, it))) {
        told += &format!("core{core}_{}:shares={},picks={},ms={}\r\n", it.name, it.shares, it.picks, it.time.as_millis());
    }
    text(bulk(told.as_bytes()))
}

fn command(here: &Here, words: &[&[u8]]) -> Does {
    let each = |keys: &[&[u8]], does: fn(&mut Shard, Key) -> Answer| Does::All(keys.iter().map(|key| on_key(here, key, does)).collect(), true);
    let on_all = |does: fn(&mut Shard) -> Answer| Does::All((0..u64::from(here.cores())).map(|core| on_core(here, core, does)).collect(), true);
    let name = words[0].to_ascii_uppercase();
    match (name.as_slice(), &words[1..]) {
        (b"PING", []) => Does::Here(text(b"+PONG\r\n")),
        (b"PING" | b"ECHO", [it]) => Does::Here(text(bulk(it))),
        (b"GET", [key]) => on_key(here, key, Shard::value),
        (b"MGET", keys @ [_, ..]) => {
            let count = Does::Here(text(format!("*{}\r\n", keys.len()).into_bytes()));
            Does::All(once(count).chain(keys.iter().map(|key| on_key(here, key, Shard::value))).collect(), false)
        }
        (b"DEL", keys @ [_, ..]) => each(keys, Shard::delete),
        (b"EXISTS", keys @ [_, ..]) => each(keys, |it, key| Answer::Int(it.get(&key).is_some().into())),
        (b"INCR", [key]) => on_key(here, key, Shard::increase),
        (b"TTL", [key]) => on_key(here, key, Shard::left),
        (b"DBSIZE", []) => on_all(|it| Answer::Int(it.entries.len() as i64)),
        (b"FLUSHALL", [] | [_]) => on_all(Shard::flush),
        (b"SET", [key, value]) => put(here, key, value),
        (b"SET", [key, value, options @ ..]) => set(here, key, value, options).unwrap_or_else(|| Does::Here(error("syntax error"))),
        (b"MSET", all @ [_, ..]) if all.len() % 2 == 0 => Does::All(all.chunks(2).map(|it| put(here, it[0], it[1])).collect(), true),
        (b"EXPIRE", [key, it]) => number(it).map_or(Does::Here(error(NO_NUMBER)), |it| on_key(here, key, move |to, key| to.expire(key, it))),
        (b"SCAN", [cursor, options @ ..]) => scan(here, cursor, options).unwrap_or_else(|| Does::Here(error("invalid cursor"))),
        (b"INFO", _) => Does::Here(info()),
        (b"CONFIG", [get, name]) if get.eq_ignore_ascii_case(b"GET") => Does::Here(text([b"*2\r\n", bulk(name).as_slice(), &bulk(b"")].concat())),
        (b"CLIENT", [_, ..]) | (b"QUIT", _) => Does::Here(text(b"+OK\r\n")),
        (name, _) if COMMANDS.split(' ').any(|it| it.as_bytes() == name) => {
            Does::Here(error(&format!("wrong number of arguments for '{}' command", name.to_ascii_lowercase().escape_ascii())))
        }
        (name, _) => Does::Here(error(&format!("unknown command '{}'", name[..name.len().min(64)].escape_ascii()))),
    }
}

fn put(here: &Here, key: &[u8], value: &[u8]) -> Does {
    let entry = Entry { value: value.to_vec(), expires: 0 };
    on_key(here, key, |it, key| it.put(key, entry))
}

fn set(here: &Here, key: &[u8], value: &[u8], options: &[&[u8]]) -> Option<Does> {
    let (mut expires, mut is_new, mut options) = (0, false, options.iter());
    while let Some(option) = options.next() {
        match option.to_ascii_uppercase().as_slice() {
            b"NX" => is_new = true,
            b"EX" => expires = now() + number::<u64>(options.next()?).filter(|it| (1..1 << 40).contains(it))? * 1000,
            _ => return None,
        }
    }
    let entry = Entry { value: value.to_vec(), expires };
    Some(on_key(here, key, move |it, key| if is_new && it.get(&key).is_some() { Answer::Value(None) } else { it.put(key, entry) }))
}

/// A cursor is a hash, and 0 is the end.
fn scan(here: &Here, cursor: &[u8], options: &[&[u8]]) -> Option<Does> {
    let cursor = number(cursor)?;
    let count = options.chunks(2).find(|it| it.len() == 2 && it[0].eq_ignore_ascii_case(b"COUNT")).map_or(Some(10), |it| number(it[1]))?;
    let (core, cores) = (core_of(here, cursor), u64::from(here.cores()));
    let next_core = if core + 1 < cores { ((core + 1) << 32).div_ceil(cores) << 32 } else { 0 };
    Some(on_core(here, core, move |it| it.scan(cursor, count, next_core)))
}

/// Puts the answers of a command's parts behind what was answered before.
async fn tell_all(parts: Vec<Does>, is_one: bool, out: &mut Vec<u8>) -> io::Result<()> {
    let mut sum = None;
    for (place, part) in parts.into_iter().enumerate() {
        let answer = match part {
            Does::Here(answer) => answer,
            Does::There(call) => call.await?,
            Does::All(..) => unreachable!("a part has no parts"),
        };
        match answer {
            Answer::Int(count) => sum = Some(sum.unwrap_or(0) + count),
            _ if is_one && place > 0 => {}
            answer => tell(answer, out),
        }
    }
    sum.into_iter().for_each(|it| tell(Answer::Int(it), out));
    Ok(())
}

/// Begins the commands that are there whole, in their order. How many bytes they have, and whether the connection ends.
fn begin(here: &Here, input: &[u8], batch: &mut Vec<Does>) -> (usize, bool) {
    let (mut rest, mut ends) = (input, false);
    while batch.len() < BATCH && !ends {
        match parse(rest) {
            Ok(None) => break,
            Ok(Some((words, behind))) => {
                (rest, ends) = (behind, words.first().is_some_and(|it| it.eq_ignore_ascii_case(b"QUIT")));
                batch.extend((!words.is_empty()).then(|| command(here, &words)));
            }
            Err(text) => (ends, _) = (true, batch.push(Does::Here(error(text)))),
        }
    }
    (input.len() - rest.len(), ends)
}

async fn serve(here: Here, mut stream: TcpStream, idle: Option<Duration>) -> io::Result<()> {
    let (mut reads, mut input, mut batch, mut out) = (Reads::new(idle), Vec::new(), Vec::new(), Vec::new());
    while reads.read(&stream, &mut input).await? {
        loop {
            let (taken, ends) = begin(&here, &input, &mut batch);
            input.drain(..taken);
            for does in batch.drain(..) {
                match does {
                    Does::Here(answer) => tell(answer, &mut out),
                    Does::There(call) => tell(call.await?, &mut out),
                    Does::All(parts, is_one) => tell_all(parts, is_one, &mut out).await?,
                }
            }
            log::safe(()).await;
            stream.write_all(&out).await?;
            out.clear();
            match (ends, taken == 0 || input.is_empty()) {
                (true, _) => return Ok(()),
                (_, true) => break,
                _ => yield_if_needed().await,
            }
        }
        // A connection that waits keeps little room.
        input.shrink_to(1 << 16);
    }
    Ok(())
}

/// What each core does.
async fn run(here: Here, port: u16, idle: Option<Duration>, folder: Option<PathBuf>, fsync: Fsync, background: u32) {
    if let Some(folder) = folder {
        shard().replace(log::or_exit(log::open(&folder, &here, fsync).await));
    }
    // A core that accepts calls the others, which have opened their shards then.
    here.barrier().await;
    let computes: Vec<_> = (0..background).map(|_| spawn_local(COMPACTION, background::compute(yield_if_needed))).collect();
    let listener = TcpListener::reuse_port(("127.0.0.1", port)).unwrap_or_else(|error| panic!("port {port}: {error}"));
    while let Some(stream) = listener.accept_until_stop().await {
        // A client that hangs up in the middle is no fault of the server.
        spawn_local(REQUESTS, serve(here.clone(), stream, idle));
    }
    computes.into_iter().for_each(JoinHandle::abort);
}

const FLAGS: [&str; 8] = ["--port", "--cores", "--pin", "--dir", "--fsync", "--idle", "--journal", "--background"];

fn main() -> Result<(), fairexec_rt::Error> {
    let usage = |of: &str| -> ! {
        eprintln!("kv: what is {of}? Each of {} has a value", FLAGS.join(" "));
        std::process::exit(2)
    };
    let words: Vec<String> = std::env::args().skip(1).collect();
    if let Some(wrong) = words.chunks(2).find(|it| it.len() < 2 || !FLAGS.contains(&it[0].as_str())) {
        usage(&wrong[0]);
    }
    let flag = |name| words.chunks(2).find(|it| it[0] == name).map(|it| it[1].as_str());
    let count = |name| flag(name).map(|it| it.parse::<u32>().unwrap_or_else(|_| usage(name)));
    let (port, idle) = (count("--port").unwrap_or(6379) as u16, count("--idle").map(|it| Duration::from_secs(it.into())));
    let fsync = [("always", Fsync::Always), ("everysec", Fsync::Every(Duration::from_secs(1))), ("no", Fsync::Never)];
    let fsync = fsync.into_iter().find(|it| it.0 == flag("--fsync").unwrap_or("everysec")).unwrap_or_else(|| usage("--fsync")).1;
    let (folder, background) = (flag("--dir").map(PathBuf::from), count("--background").unwrap_or(0));
    let journal = flag("--journal").map_or(Journal::Off, |it| it.parse().map_or(Journal::Parts(it.into()), Journal::Last));
    let pin = count("--pin").map_or(Pin::No, |it| Pin::From(it as usize));
    let server = Executor::builder().cores(count("--cores").unwrap_or(2)).pin(pin).journal(journal).stop_on_signals(Duration::from_secs(10));
    // Many requests go together in a long run, which only delays what has fewer shares.
    let server = server.queue("requests", 1000).slice(Duration::from_micros(100)).queue("compaction", 100).slice(background::slice());
    // A task of the background looks this often for requests, and for calls and answers of other cores each time around.
    let server = server.reactor_every(Duration::from_micros(8)).round(Duration::from_micros(4));
    let report = server.run(|here| run(here, port, idle, folder.clone(), fsync, background))?;
    eprintln!("kv: {} turns", report.cores.iter().map(|it| it.turns).sum::<u64>());
    Ok(())
}
