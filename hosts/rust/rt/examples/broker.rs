//! A broker of messages: topics with groups, at least once. A message that a consumer took and doesn't acknowledge comes again when its lease is over.
//!
//!     broker [--port 7071] [--cores 2] [--lease MILLISECONDS] [--dir FOLDER]
//!
//! A client sends lines, and each is answered by one line:
//!
//! | Line | Answer |
//! |---|---|
//! | `PUB topic text` | `OK number` |
//! | `JOIN topic group` | `OK`: the group has each message from then on |
//! | `TAKE topic group` | `MSG number text`, once there is one that nobody else of the group holds |
//! | `ACK topic group number` | `OK`, or `GONE` if the lease was over |
//! | `LEFT topic group` | `OK waiting held` |
//!
//! A topic belongs to one core. At SIGTERM there are no more clients and messages, and those that are connected have as long as a lease to
//! acknowledge what they hold. Then what nobody acknowledged goes to the folder, and is there at the next start. Until then nothing is on a disk.

use fairexec_rt::fs::unblock;
use fairexec_rt::net::{TcpListener, TcpStream};
use fairexec_rt::{sleep, spawn_local, stop, submit, CallError, Executor, Here, Queue};
use futures_lite::{io::BufReader, AsyncBufReadExt, AsyncReadExt, AsyncWriteExt};
use std::cell::RefCell;
use std::collections::{BTreeMap, HashMap, VecDeque};
use std::future::poll_fn;
use std::io::{self, Write};
use std::path::PathBuf;
use std::rc::Rc;
use std::sync::atomic::{AtomicBool, AtomicU32, Ordering::SeqCst};
use std::task::{Poll, Waker};
use std::time::{Duration, Instant};

const MESSAGES: Queue = Queue::FIRST;
/// A line has so many bytes at most.
const LINE: u64 = 1 << 16;

#[derive(Default)]
struct Group {
    waiting: VecDeque<u64>,
    // By the message, when its lease is over.
    held: BTreeMap<u64, Instant>,
    takers: Vec<Waker>,
}

impl Group {
    /// All that wait look again: one of them may have hung up.
    fn wake(&mut self) {
        self.takers.drain(..).for_each(Waker::wake);
    }
}

#[derive(Default)]
struct Topic {
    last: u64,
    // By the message: its text, and how many groups haven't acknowledged it.
    texts: HashMap<u64, (Rc<str>, usize)>,
    groups: HashMap<String, Group>,
}

/// Whether the broker stops: no message comes in, and none goes out.
static STOPS: AtomicBool = AtomicBool::new(false);
/// Cores that have kept what they have.
static KEPT: AtomicU32 = AtomicU32::new(0);

thread_local!(static TOPICS: RefCell<HashMap<String, Topic>> = RefCell::default());

fn topic<R>(name: &str, call: impl FnOnce(&mut Topic) -> R) -> R {
    TOPICS.with_borrow_mut(|it| {
        if !it.contains_key(name) {
            it.insert(name.to_owned(), Topic::default());
        }
        call(it.get_mut(name).expect("it was put there"))
    })
}

fn publish(name: &str, text: &str) -> String {
    // What comes behind this look isn't kept.
    if STOPS.load(SeqCst) {
        return "ERR the broker stops".to_owned();
    }
    topic(name, |it| {
        it.last += 1;
        if !it.groups.is_empty() {
            it.texts.insert(it.last, (text.into(), it.groups.len()));
        }
        for group in it.groups.values_mut() {
            group.waiting.push_back(it.last);
            group.wake();
        }
        format!("OK {}", it.last)
    })
}

/// The next message of a group, and its lease: a task of its own puts the message back when that is over.
async fn take(name: String, group: String, lease: Duration) -> String {
    let (number, text) = poll_fn(|cx| {
        topic(&name, |it| {
            let Some(group) = it.groups.get_mut(&group).filter(|_| !STOPS.load(SeqCst)) else { return Poll::Ready((0, "".into())) };
            match group.waiting.pop_front() {
                Some(number) => {
                    group.held.insert(number, Instant::now() + lease);
                    Poll::Ready((number, Rc::clone(&it.texts[&number].0)))
                }
                None => {
                    group.takers.push(cx.waker().clone());
                    Poll::Pending
                }
            }
        })
    })
    .await;
    if number == 0 {
        return "ERR there is no such group, or the broker stops".to_owned();
    }
    spawn_local(MESSAGES, async move {
        sleep(lease).await;
        topic(&name, |it| {
            let Some(group) = it.groups.get_mut(&group) else { return };
            // It may have been acknowledged, and taken again since.
            if group.held.get(&number).is_some_and(|until| *until <= Instant::now()) {
                group.held.remove(&number);
                group.waiting.push_front(number);
                group.wake();
            }
        });
    });
    format!("MSG {number} {text}")
}

fn acknowledge(name: &str, group: &str, number: u64) -> String {
    topic(name, |it| {
        if it.groups.get_mut(group).and_then(|it| it.held.remove(&number)).is_none() {
            return "GONE".to_owned();
        }
        if let Some((_, left)) = it.texts.get_mut(&number) {
            *left -= 1;
            if *left == 0 {
                it.texts.remove(&number);
            }
        }
        "OK".to_owned()
    })
}

/// Whether this core holds messages that somebody may still acknowledge.
fn holds_some() -> bool {
    TOPICS.with_borrow(|it| it.values().flat_map(|it| it.groups.values()).any(|it| !it.held.is_empty()))
}

/// What a line is answered, by the core of its topic.
async fn answer(here: &Here, line: &str, lease: Duration) -> Result<String, CallError> {
    let mut words = line.splitn(4, ' ').map(str::to_owned);
    let (Some(name), Some(topic_name)) = (words.next(), words.next()) else { return Ok("ERR what?".to_owned()) };
    let rest: Vec<String> = words.collect();
    let core = topic_name.bytes().map(u32::from).sum::<u32>() % here.cores();
    let text = line.splitn(3, ' ').nth(2).unwrap_or("").to_owned();
    match (name.as_str(), rest.as_slice()) {
        ("PUB", [_, ..]) => submit(core, MESSAGES, move || async move { publish(&topic_name, &text) }).await,
        ("JOIN", [group]) => {
            let group = group.clone();
            let join = move || async move {
                topic(&topic_name, |it| _ = it.groups.entry(group).or_default());
                "OK".to_owned()
            };
            submit(core, MESSAGES, join).await
        }
        ("TAKE", [group]) => {
            let group = group.clone();
            // A client that hung up meanwhile is handed a message all the same, which comes again when its lease is over.
            submit(core, MESSAGES, move || take(topic_name, group, lease)).await
        }
        ("ACK", [group, number]) => {
            let (group, number) = (group.clone(), number.parse().unwrap_or(0));
            submit(core, MESSAGES, move || async move { acknowledge(&topic_name, &group, number) }).await
        }
        ("LEFT", [group]) => {
            let group = group.clone();
            let left = move || async move { topic(&topic_name, |it| it.groups.get(&group).map_or((0, 0), |it| (it.waiting.len(), it.held.len()))) };
            submit(core, MESSAGES, left).await.map(|(waiting, held)| format!("OK {waiting} {held}"))
        }
        _ => Ok("ERR what?".to_owned()),
    }
}

async fn serve(here: Here, stream: TcpStream, lease: Duration) -> io::Result<()> {
    let mut lines = BufReader::new(&stream);
    let mut line = String::new();
    loop {
        line.clear();
        if AsyncReadExt::take(&mut lines, LINE).read_line(&mut line).await? == 0 {
            return Ok(());
        }
        let told = answer(&here, line.trim_end(), lease).await?;
        (&stream).write_all(format!("{told}\n").as_bytes()).await?;
    }
}

/// What this core has, as lines that `read` knows.
fn written() -> String {
    TOPICS.with_borrow(|topics| {
        let mut text = String::new();
        for (name, topic) in topics {
            text += &format!("TOPIC {name} {}\n", topic.last);
            topic.texts.iter().for_each(|(number, (it, _))| text += &format!("TEXT {name} {number} {it}\n"));
            for (group, it) in &topic.groups {
                text += &format!("JOIN {name} {group}\n");
                let left = it.held.keys().chain(&it.waiting);
                left.for_each(|number| text += &format!("WAITS {name} {number} {group}\n"));
            }
        }
        text
    })
}

fn read(text: &str) {
    for line in text.lines() {
        let words: Vec<&str> = line.splitn(4, ' ').collect();
        let [kind, name, rest @ ..] = words.as_slice() else { continue };
        topic(name, |it| match (*kind, rest) {
            ("TOPIC", [last]) => it.last = last.parse().unwrap_or(0),
            ("TEXT", [number, text]) => drop(it.texts.insert(number.parse().unwrap_or(0), ((*text).into(), 0))),
            ("JOIN", [group]) => _ = it.groups.entry((*group).to_owned()).or_default(),
            ("WAITS", [number, group]) => {
                let number = number.parse().unwrap_or(0);
                it.groups.entry((*group).to_owned()).or_default().waiting.push_back(number);
                it.texts.entry(number).and_modify(|(_, left)| *left += 1);
            }
            _ => {}
        });
    }
}

/// Puts what this core has to a file, which is whole or not there.
async fn keep(path: PathBuf) -> io::Result<()> {
    let text = written();
    unblock(move || {
        let new = path.with_extension("new");
        let mut file = std::fs::File::create(&new)?;
        file.write_all(text.as_bytes())?;
        file.sync_all()?;
        std::fs::rename(new, path)
    })
    .await
}

async fn begin(here: Here, port: u16, lease: Duration, folder: Option<PathBuf>) {
    let path = folder.map(|it| it.join(format!("topics-{}-of-{}", here.core(), here.cores())));
    if let Some(path) = path.clone().filter(|it| it.exists()) {
        read(&std::fs::read_to_string(&path).unwrap_or_else(|error| panic!("{}: {error}", path.display())));
    }
    // A client asks any core for any topic, so none is heard before all have theirs.
    here.barrier().await;
    let listener = TcpListener::reuse_port(("127.0.0.1", port)).unwrap_or_else(|error| panic!("port {port}: {error}"));
    while let Some(stream) = listener.accept_until_stop().await {
        drop(spawn_local(MESSAGES, serve(here.clone(), stream, lease)));
    }
    STOPS.store(true, SeqCst);
    while holds_some() {
        sleep(Duration::from_millis(5)).await;
    }
    if let Some(path) = path {
        keep(path.clone()).await.unwrap_or_else(|error| eprintln!("broker: {}: {error}", path.display()));
    }
    // Nobody holds a message, so no client has a reason to stay.
    if KEPT.fetch_add(1, SeqCst) + 1 == here.cores() {
        stop(Duration::ZERO);
    }
}

fn main() {
    let mut words = std::env::args().skip(1);
    let (mut port, mut cores, mut lease, mut folder) = (7071, 2, 5000, None);
    while let (Some(word), value) = (words.next(), words.next()) {
        let number = value.as_ref().and_then(|it| it.parse::<u32>().ok());
        match (word.as_str(), number, value) {
            ("--port", Some(it), _) => port = it as u16,
            ("--cores", Some(it), _) => cores = it,
            ("--lease", Some(it), _) => lease = it,
            ("--dir", _, Some(it)) => folder = Some(PathBuf::from(it)),
            _ => {
                eprintln!("broker: [--port N] [--cores N] [--lease MILLISECONDS] [--dir FOLDER]");
                std::process::exit(2);
            }
        }
    }
    let lease = Duration::from_millis(lease.into());
    // A lease that is taken just before the stop is over before the grace is.
    let server = Executor::builder().cores(cores).queue("messages", 1000).stop_on_signals(2 * lease + Duration::from_secs(5));
    if let Err(error) = server.run(|here| begin(here, port, lease, folder.clone())) {
        eprintln!("broker: {error}");
        std::process::exit(1);
    }
}
