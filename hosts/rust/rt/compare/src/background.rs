//! What tasks of the background do while requests are measured, the same on both sides: they sum up bytes without end.

use std::future::Future;
use std::sync::atomic::{AtomicU64, Ordering};
use std::time::Duration;

static BYTES: AtomicU64 = AtomicU64::new(0);

/// How many bytes all tasks have summed up.
pub fn bytes() -> u64 {
    BYTES.load(Ordering::Relaxed)
}

/// How long a slice of such a task is: 2 microseconds, or as many as the environment's SLICE says.
pub fn slice() -> Duration {
    Duration::from_micros(std::env::var("SLICE").ok().and_then(|it| it.parse().ok()).unwrap_or(2))
}

/// One task. It lets others run where `yields` does so, which is asked behind each KiB.
pub async fn compute<F: Future<Output = ()>>(yields: impl Fn() -> F) {
    let bytes = vec![1_u8; 1 << 16];
    loop {
        let mut sum = 0;
        for part in bytes.chunks(1 << 10) {
            sum += part.iter().map(|it| u64::from(*std::hint::black_box(it))).sum::<u64>();
            yields().await;
        }
        BYTES.fetch_add(sum, Ordering::Relaxed);
    }
}
