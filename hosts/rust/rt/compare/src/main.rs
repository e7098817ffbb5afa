//! The example kv on tokio, as far as GET, SET and PING go: a runtime of one thread a core, keys sharded over them, and calls by channels. What reads
//! commands, keeps the entries and writes answers is the example's own, without a log.
//!
//!     compare [--port 6379] [--cores 2] [--background TASKS]

mod background;
#[path = "../../examples/kv/resp.rs"]
#[allow(dead_code)]
mod resp;
#[path = "../../examples/kv/shard.rs"]
#[allow(dead_code)]
mod shard;

/// No log is kept.
mod log {
    pub const DELETED: u64 = u64::MAX;
    pub const ALL_DELETED: u64 = u64::MAX - 1;
    pub enum Log {}

    pub fn append(log: &Log, _expires: u64, _key: &[u8], _value: &[u8]) {
        match *log {}
    }
}

use shard::{bulk, error, key_of, tell, text, Answer, Entry, Key, Shard};
use socket2::{Domain, Protocol, Socket, Type};
use std::cell::{Cell, RefCell};
use std::io;
use std::net::SocketAddr;
use std::rc::Rc;
use std::sync::{Arc, LazyLock};
use std::time::{Duration, Instant};
use tokio::io::{AsyncReadExt, AsyncWriteExt};
use tokio::net::{TcpListener, TcpStream};
use tokio::runtime::Builder;
use tokio::sync::{mpsc, oneshot};
use tokio::task::{spawn_local, LocalSet};

/// A part of a command, and who is told its answer.
enum Op {
    Get(Key),
    Set(Key, Entry),
}

type Asked = (Op, oneshot::Sender<Answer>);

fn apply(shard: &RefCell<Shard>, op: Op) -> Answer {
    match op {
        Op::Get(key) => shard.borrow_mut().value(key),
        Op::Set(key, entry) => shard.borrow_mut().put(key, entry),
    }
}

struct Here {
    core: usize,
    shard: Rc<RefCell<Shard>>,
    others: Arc<[mpsc::UnboundedSender<Asked>]>,
}

enum Does {
    Here(Answer),
    There(oneshot::Receiver<Answer>),
}

fn command(here: &Here, words: &[&[u8]]) -> Does {
    let name = words[0].to_ascii_uppercase();
    let (hash, op) = match (name.as_slice(), &words[1..]) {
        (b"GET", [key]) => {
            let key = key_of(key);
            (key.0, Op::Get(key))
        }
        (b"SET", [key, value]) => {
            let (entry, key) = (Entry { value: value.to_vec(), expires: 0 }, key_of(key));
            (key.0, Op::Set(key, entry))
        }
        (b"PING", _) => return Does::Here(text(b"+PONG\r\n")),
        (b"CONFIG", [_, name]) => return Does::Here(text([b"*2\r\n", bulk(name).as_slice(), &bulk(b"")].concat())),
        (b"INFO", _) => return Does::Here(text(bulk(format!("background_bytes:{}\r\n", background::bytes()).as_bytes()))),
        _ => return Does::Here(error("unknown command")),
    };
    let core = (((hash >> 32) * here.others.len() as u64) >> 32) as usize;
    if core == here.core {
        return Does::Here(apply(&here.shard, op));
    }
    let (answer, asked) = oneshot::channel();
    // The other end lives as long as the process.
    let _ = here.others[core].send((op, answer));
    Does::There(asked)
}

async fn serve(here: Rc<Here>, mut stream: TcpStream) -> io::Result<()> {
    stream.set_nodelay(true)?;
    let (mut input, mut out) = (Vec::with_capacity(1 << 12), Vec::new());
    loop {
        let (mut batch, mut rest) = (Vec::new(), input.as_slice());
        while batch.len() < 128 {
            let Some((words, behind)) = resp::parse(rest).map_err(io::Error::other)? else { break };
            rest = behind;
            batch.push(command(&here, &words));
        }
        let taken = input.len() - rest.len();
        input.drain(..taken);
        if batch.is_empty() {
            if stream.read_buf(&mut input).await? == 0 {
                return Ok(());
            }
            continue;
        }
        for does in batch {
            match does {
                Does::Here(answer) => tell(answer, &mut out),
                Does::There(asked) => tell(asked.await.map_err(io::Error::other)?, &mut out),
            }
        }
        stream.write_all(&out).await?;
        out.clear();
    }
}

fn listen(port: u16) -> io::Result<TcpListener> {
    let address = SocketAddr::from(([127, 0, 0, 1], port));
    let socket = Socket::new(Domain::IPV4, Type::STREAM.nonblocking(), Some(Protocol::TCP))?;
    socket.set_reuse_address(true)?;
    socket.set_reuse_port(true)?;
    socket.bind(&address.into())?;
    socket.listen(1024)?;
    TcpListener::from_std(socket.into())
}

/// Slices of a task that computes are as long as those of the example.
static SLICE: LazyLock<Duration> = LazyLock::new(background::slice);

thread_local!(static BEGAN: Cell<Option<Instant>> = const { Cell::new(None) });

async fn yield_if_needed() {
    if BEGAN.get().is_none_or(|it| it.elapsed() >= *SLICE) {
        tokio::task::yield_now().await;
        BEGAN.set(Some(Instant::now()));
    }
}

async fn core(here: Here, mut asked: mpsc::UnboundedReceiver<Asked>, port: u16, background: usize) {
    let here = Rc::new(here);
    let shard = Rc::clone(&here.shard);
    spawn_local(async move {
        while let Some((op, answer)) = asked.recv().await {
            let _ = answer.send(apply(&shard, op));
        }
    });
    (0..background).for_each(|_| drop(spawn_local(background::compute(yield_if_needed))));
    let listener = listen(port).expect("the port is free");
    while let Ok((stream, _)) = listener.accept().await {
        spawn_local(serve(Rc::clone(&here), stream));
    }
}

fn main() {
    let words: Vec<String> = std::env::args().collect();
    let value = |name: &str, or: usize| words.iter().position(|it| it == name).map_or(or, |at| words[at + 1].parse().expect("a number"));
    let (port, cores, background) = (value("--port", 6379) as u16, value("--cores", 2), value("--background", 0));
    let (others, asked): (Vec<_>, Vec<_>) = (0..cores).map(|_| mpsc::unbounded_channel()).unzip();
    let others: Arc<[_]> = others.into();
    let threads: Vec<_> = asked
        .into_iter()
        .enumerate()
        .map(|(number, asked)| {
            let others = Arc::clone(&others);
            std::thread::spawn(move || {
                let here = Here { core: number, shard: Rc::default(), others };
                let runtime = Builder::new_current_thread().enable_io().build().expect("a runtime");
                LocalSet::new().block_on(&runtime, core(here, asked, port, background));
            })
        })
        .collect();
    threads.into_iter().for_each(|it| it.join().expect("a core runs on"));
}
