//! A log whose writes fail. The limit is that of the process, so this test stands alone.

use fairexec_rt::fs::{Fsync, Log};
use fairexec_rt::{Executor, Queue};

const LIMIT: u64 = 1 << 16;

/// Files of this process have so many bytes at most, and a write behind that fails.
fn set_limit() {
    // SAFETY: the calls read a local value, and change no memory.
    unsafe {
        libc::signal(libc::SIGXFSZ, libc::SIG_IGN);
        assert_eq!(libc::setrlimit(libc::RLIMIT_FSIZE, &libc::rlimit { rlim_cur: LIMIT, rlim_max: LIMIT }), 0);
    }
}

#[test]
fn a_write_that_fails_is_told_to_all_who_wait() {
    set_limit();
    let folder = std::env::temp_dir().join(format!("fairexec-rt-full-{}", std::process::id()));
    let at = folder.clone();
    let told = Executor::builder().run(move |_| {
        let folder = at.clone();
        async move {
            let (log, _) = Log::open(Queue::FIRST, &folder, Fsync::Always, |_| {}).await.unwrap();
            log.append(&[&[1; 1000]]);
            log.safe().await.unwrap();
            log.append(&[&[2; LIMIT as usize]]);
            let told = log.safe().await.unwrap_err();
            assert!(told.to_string().contains("File too large"), "{told}");
            // Nothing is written behind it, though there would be room.
            log.append(&[&[3; 10]]);
            assert!(log.safe().await.is_err());
            assert!(log.sync().await.is_err());
            drop(log);
            let mut records = Vec::new();
            let (log, torn) = Log::open(Queue::FIRST, &folder, Fsync::Always, |it| records.push(it.to_vec())).await.unwrap();
            assert_eq!((records, torn > 0, log.len()), (vec![vec![1; 1000]], true, 1008));
        }
    });
    told.unwrap();
    std::fs::remove_dir_all(folder).unwrap();
}
