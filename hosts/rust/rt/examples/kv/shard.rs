//! The keys of one core, and what commands do to them.

use crate::log::{append, Log, ALL_DELETED, DELETED};
use crate::resp::number;
use std::{borrow::Cow, collections::BTreeMap, io::Write, time::SystemTime};

/// Milliseconds since 1970.
pub fn now() -> u64 {
    SystemTime::now().duration_since(SystemTime::UNIX_EPOCH).map_or(0, |it| it.as_millis() as u64)
}

/// What a client is told: a number, which may be summed up, a value if there is one, or text of the protocol.
pub enum Answer {
    Int(i64),
    Value(Option<Vec<u8>>),
    Text(Cow<'static, [u8]>),
}

pub fn text(text: impl Into<Cow<'static, [u8]>>) -> Answer {
    Answer::Text(text.into())
}

pub const NO_NUMBER: &str = "value is not an integer or out of range";
pub fn error(why: &str) -> Answer {
    text(format!("-ERR {why}\r\n").into_bytes())
}

pub fn bulk(bytes: &[u8]) -> Vec<u8> {
    [format!("${}\r\n", bytes.len()).as_bytes(), bytes, b"\r\n"].concat()
}

/// Puts an answer behind what was answered before.
pub fn tell(answer: Answer, out: &mut Vec<u8>) {
    match answer {
        Answer::Int(count) => _ = write!(out, ":{count}\r\n"),
        Answer::Value(None) => out.extend_from_slice(b"$-1\r\n"),
        Answer::Value(Some(it)) => {
            _ = write!(out, "${}\r\n", it.len());
            out.extend_from_slice(&it);
            out.extend_from_slice(b"\r\n");
        }
        Answer::Text(text) => out.extend_from_slice(&text),
    }
}

/// A key behind its hash, by which keys are in order: SCAN and the compaction go on behind any key.
pub type Key = (u64, Vec<u8>);

pub fn key_of(bytes: &[u8]) -> Key {
    let hash = bytes.iter().fold(0xcbf2_9ce4_8422_2325_u64, |hash, byte| (hash ^ u64::from(*byte)).wrapping_mul(0x100_0000_01b3));
    ((hash ^ (hash >> 32)).wrapping_mul(0x9e37_79b9_7f4a_7c15), bytes.to_vec())
}

pub struct Entry {
    pub value: Vec<u8>,
    // When it is gone, or 0.
    pub expires: u64,
}

fn is_over(entry: &Entry) -> bool {
    entry.expires != 0 && entry.expires <= now()
}

#[derive(Default)]
pub struct Shard {
    pub entries: BTreeMap<Key, Entry>,
    pub log: Option<Log>,
}

impl Shard {
    /// The entry of a key, if its time isn't over.
    pub fn get(&mut self, key: &Key) -> Option<&mut Entry> {
        if is_over(self.entries.get(key)?) {
            self.entries.remove(key);
        }
        self.entries.get_mut(key)
    }

    /// Gives a key this value, in the log, too.
    pub fn put(&mut self, key: Key, entry: Entry) -> Answer {
        self.log.iter().for_each(|it| append(it, entry.expires, &key.1, &entry.value));
        self.entries.insert(key, entry);
        text(b"+OK\r\n")
    }

    pub fn value(&mut self, key: Key) -> Answer {
        Answer::Value(self.entries.get(&key).filter(|it| !is_over(it)).map(|it| it.value.clone()))
    }

    pub fn delete(&mut self, key: Key) -> Answer {
        let was_there = self.get(&key).is_some();
        if was_there {
            self.entries.remove(&key);
            self.log.iter().for_each(|it| append(it, DELETED, &key.1, &[]));
        }
        Answer::Int(was_there.into())
    }

    pub fn increase(&mut self, key: Key) -> Answer {
        let (count, expires) = self.get(&key).map_or((Some(0), 0), |it| (number::<i64>(&it.value), it.expires));
        let Some(count) = count.and_then(|it| it.checked_add(1)) else { return error(NO_NUMBER) };
        self.put(key, Entry { value: count.to_string().into_bytes(), expires });
        Answer::Int(count)
    }

    pub fn expire(&mut self, key: Key, seconds: i64) -> Answer {
        let Some(value) = self.get(&key).map(|it| std::mem::take(&mut it.value)) else { return Answer::Int(0) };
        self.put(key, Entry { value, expires: now().saturating_add_signed(seconds.saturating_mul(1000)).max(1) });
        Answer::Int(1)
    }

    pub fn left(&mut self, key: Key) -> Answer {
        let left = |it: &mut Entry| if it.expires == 0 { -1 } else { it.expires.saturating_sub(now()).div_ceil(1000) as i64 };
        Answer::Int(self.get(&key).map_or(-2, left))
    }

    pub fn flush(&mut self) -> Answer {
        self.entries.clear();
        self.log.iter().for_each(|it| append(it, ALL_DELETED, &[], &[]));
        text(b"+OK\r\n")
    }

    /// Keys from a hash on, and the hash of the next one, or that of the next core if there is none.
    pub fn scan(&self, from: u64, count: usize, next_core: u64) -> Answer {
        let mut all = self.entries.range((from, Vec::new())..).filter(|it| !is_over(it.1)).map(|it| it.0);
        let keys: Vec<_> = all.by_ref().take(count.clamp(1, 1000)).map(|it| bulk(&it.1)).collect();
        let next = bulk(all.next().map_or(next_core, |it| it.0).to_string().as_bytes());
        text([b"*2\r\n", next.as_slice(), format!("*{}\r\n", keys.len()).as_bytes(), &keys.concat()].concat())
    }
}
