//! What the log of a core has. A record tells what one key has from then on: when it is gone in 8 bytes (all ones: it is deleted; one less: all keys
//! are), the length of the key in 4, key and value.

use crate::shard::{key_of, now, Entry, Shard};
use crate::{shard, COMPACTION, REQUESTS};
pub use fairexec_rt::fs::{Compaction, Fsync, Log};
use fairexec_rt::{spawn_local, Here};
use std::ops::Bound::{Excluded, Unbounded};
use std::{fs, future::Future, io, path::Path, process};

pub const DELETED: u64 = u64::MAX;
pub const ALL_DELETED: u64 = u64::MAX - 1;
/// A log is compacted once it has twice the bytes that it had behind the last time, and so many more.
const SPARE: u64 = 4 << 20;

/// A log that can't be read or written ends the server: it would lose what it answers.
pub fn or_exit<T>(told: io::Result<T>) -> T {
    told.unwrap_or_else(|error| {
        eprintln!("kv: the log: {error}");
        process::exit(1)
    })
}

/// Does what a record says.
fn replay(shard: &mut Shard, record: &[u8]) -> Option<()> {
    let (expires, rest) = record.split_first_chunk()?;
    let (length, rest) = rest.split_first_chunk()?;
    let (key, value) = rest.split_at_checked(u32::from_le_bytes(*length) as usize)?;
    match u64::from_le_bytes(*expires) {
        ALL_DELETED => shard.entries.clear(),
        expires if expires == DELETED || (1..=now()).contains(&expires) => drop(shard.entries.remove(&key_of(key))),
        expires => drop(shard.entries.insert(key_of(key), Entry { value: value.to_vec(), expires })),
    }
    Some(())
}

/// Reads a shard from its log. What a crash left torn is cut off.
pub async fn open(folder: &Path, here: &Here, fsync: Fsync) -> io::Result<Shard> {
    let (mut shard, of) = (Shard::default(), format!("of-{}", here.cores()));
    fs::create_dir_all(folder)?;
    if let Some(other) = fs::read_dir(folder)?.flatten().find(|it| it.file_name() != of.as_str()) {
        return Err(io::Error::other(format!("{} is of another number of cores", other.path().display())));
    }
    let folder = folder.join(of).join(here.core().to_string());
    let (log, torn) = Log::open(REQUESTS, folder, fsync, |it| _ = replay(&mut shard, it)).await?;
    if torn > 0 {
        eprintln!("kv: core {}: a torn tail of {torn} bytes is cut off behind {}", here.core(), log.len());
    }
    shard.log = Some(log);
    Ok(shard)
}

pub fn append(log: &Log, expires: u64, key: &[u8], value: &[u8]) {
    log.append(&[&expires.to_le_bytes(), &(key.len() as u32).to_le_bytes(), key, value]);
    if let Some(it) = log.compaction(SPARE) {
        spawn_local(COMPACTION, async { or_exit(compact(it).await) });
    }
}

/// Waits until all that was appended is as safe as it has to be before this is answered. A call to another core carries this future, so it is small: a
/// block has the answer once, where an `async fn` has it twice, and what waits is in a box.
pub fn safe<T>(answer: T) -> impl Future<Output = T> {
    let log = shard().borrow().log.clone();
    async move {
        if let Some(log) = log {
            or_exit(Box::pin(async move { log.safe().await }).await);
        }
        answer
    }
}

/// Tells what each key has, in the place of all that was appended before.
async fn compact(compaction: Compaction) -> io::Result<()> {
    let mut new = compaction.begin(COMPACTION).await?;
    let mut next = Some((0, Vec::new()));
    while let Some(last) = next {
        next = shard().borrow().entries.range((Excluded(last), Unbounded)).next().map(|(key, it)| {
            new.append(&[&it.expires.to_le_bytes(), &(key.1.len() as u32).to_le_bytes(), &key.1, &it.value]);
            key.clone()
        });
        new.step().await?;
    }
    new.end().await
}
