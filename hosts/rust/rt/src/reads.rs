//! What a server reads of a connection.

use crate::{sleep, stopping, Sleep, Stopping};
use futures_io::AsyncRead;
use std::cell::RefCell;
use std::future::{poll_fn, Future};
use std::io;
use std::pin::Pin;
use std::task::{Context, Poll};
use std::time::{Duration, Instant};

thread_local!(static ROOM: RefCell<Vec<u8>> = RefCell::new(vec![0; 1 << 16]));

/// The reads of a server's connection. They end when nothing came for a time, and once the executor stops. The time begins when a read waits: what
/// the server does between two reads doesn't count.
///
/// ```
/// use fairexec_rt::net::{Reads, UnixStream};
/// use fairexec_rt::Executor;
/// use futures_lite::AsyncWriteExt;
/// use std::{io, time::Duration};
///
/// Executor::builder().run(|_| async {
///     let (mut client, stream) = UnixStream::pair()?;
///     let (mut reads, mut bytes) = (Reads::new(Some(Duration::from_millis(200))), Vec::new());
///     client.write_all(b"some").await?;
///     assert!(reads.read(&stream, &mut bytes).await? && bytes == b"some");
///     // Nothing comes any more.
///     assert!(!reads.read(&stream, &mut bytes).await?);
///     io::Result::Ok(())
/// })?;
/// # Ok::<(), fairexec_rt::Error>(())
/// ```
pub struct Reads {
    stop: Stopping,
    // Since when reads wait, if nothing came since then, and what ends the wait.
    idle: Option<(Duration, Option<Instant>, Sleep)>,
}

impl Reads {
    /// Reads that end when nothing came for so long, if that is given.
    pub fn new(idle: Option<Duration>) -> Reads {
        Reads { stop: stopping(), idle: idle.map(|it| (it, None, sleep(it))) }
    }

    /// Puts what comes next behind these bytes, at most 64 KiB. False at the end of the connection, of the time or of the executor. Bytes that are
    /// there are read first, also after a stop. A read that is dropped loses nothing.
    ///
    /// # Errors
    ///
    /// As the system answers.
    pub async fn read<S>(&mut self, stream: &S, bytes: &mut Vec<u8>) -> io::Result<bool>
    where
        for<'a> &'a S: AsyncRead,
    {
        poll_fn(|cx| {
            let mut stream = stream;
            let count = ROOM.with_borrow_mut(|room| {
                let count = Pin::new(&mut stream).poll_read(cx, room);
                if let Poll::Ready(Ok(count)) = count {
                    bytes.extend_from_slice(&room[..count]);
                }
                count
            });
            match count {
                Poll::Ready(told) => {
                    self.idle.iter_mut().for_each(|it| it.1 = None);
                    Poll::Ready(told.map(|count| count > 0))
                }
                Poll::Pending if Pin::new(&mut self.stop).poll(cx).is_ready() || self.is_over(cx) => Poll::Ready(Ok(false)),
                Poll::Pending => Poll::Pending,
            }
        })
        .await
    }

    /// Whether nothing came for so long. A timer that is due because something came meanwhile is set anew, so a read sets none.
    fn is_over(&mut self, cx: &mut Context<'_>) -> bool {
        let Some((longest, since, sleep)) = &mut self.idle else { return false };
        let since = since.get_or_insert_with(Instant::now);
        while Pin::new(&mut *sleep).poll(cx).is_ready() {
            let left = longest.saturating_sub(since.elapsed());
            if left.is_zero() {
                return true;
            }
            sleep.reset(left);
        }
        false
    }
}
