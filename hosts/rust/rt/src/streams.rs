//! What connections of both kinds have alike.

use crate::reactor::Registered;
use crate::{sleep, stopping};
use futures_lite::future;
use std::future::{poll_fn, Future};
use std::io;
use std::os::fd::AsRawFd;
use std::time::Duration;

/// The next connection, or none once the executor stops.
pub(crate) async fn until_stop<S, F: Future<Output = io::Result<S>>>(accept: impl Fn() -> F) -> Option<S> {
    let accepted = async {
        loop {
            match accept().await {
                Ok(stream) => return Some(stream),
                Err(_) => sleep(Duration::from_millis(20)).await,
            }
        }
    };
    let stops = async {
        stopping().await;
        None
    };
    future::or(stops, accepted).await
}

/// A socket whose connection is being made ends with what became of it.
pub(crate) async fn connected<T: AsRawFd>(socket: &Registered<T>, error: impl Fn(&T) -> io::Result<Option<io::Error>>) -> io::Result<()> {
    let mut has_waited = false;
    poll_fn(|cx| socket.poll_writable(cx, &mut has_waited)).await?;
    match error(socket.get())? {
        Some(error) => Err(error),
        None => Ok(()),
    }
}

/// Whether a connection is being made.
pub(crate) fn is_begun(error: &io::Error) -> bool {
    error.raw_os_error() == Some(libc::EINPROGRESS)
}

/// The reads and writes of a stream, by the stream and by a reference to it.
macro_rules! streams {
    ($stream:ident) => {
        impl AsyncRead for &$stream {
            fn poll_read(self: Pin<&mut Self>, cx: &mut Context<'_>, to: &mut [u8]) -> Poll<io::Result<usize>> {
                self.0.poll_read_with(cx, to.len(), |mut it| it.read(to))
            }
        }

        impl AsyncWrite for &$stream {
            fn poll_write(self: Pin<&mut Self>, cx: &mut Context<'_>, bytes: &[u8]) -> Poll<io::Result<usize>> {
                self.0.poll_with(cx, Side::Write, |mut it| it.write(bytes))
            }

            fn poll_write_vectored(self: Pin<&mut Self>, cx: &mut Context<'_>, bytes: &[IoSlice<'_>]) -> Poll<io::Result<usize>> {
                self.0.poll_with(cx, Side::Write, |mut it| it.write_vectored(bytes))
            }

            fn poll_flush(self: Pin<&mut Self>, _: &mut Context<'_>) -> Poll<io::Result<()>> {
                Poll::Ready(Ok(()))
            }

            fn poll_close(self: Pin<&mut Self>, _: &mut Context<'_>) -> Poll<io::Result<()>> {
                Poll::Ready(self.shutdown(Shutdown::Write))
            }
        }

        impl AsyncRead for $stream {
            fn poll_read(self: Pin<&mut Self>, cx: &mut Context<'_>, to: &mut [u8]) -> Poll<io::Result<usize>> {
                Pin::new(&mut &*self).poll_read(cx, to)
            }
        }

        impl AsyncWrite for $stream {
            fn poll_write(self: Pin<&mut Self>, cx: &mut Context<'_>, bytes: &[u8]) -> Poll<io::Result<usize>> {
                Pin::new(&mut &*self).poll_write(cx, bytes)
            }

            fn poll_write_vectored(self: Pin<&mut Self>, cx: &mut Context<'_>, bytes: &[IoSlice<'_>]) -> Poll<io::Result<usize>> {
                Pin::new(&mut &*self).poll_write_vectored(cx, bytes)
            }

            fn poll_flush(self: Pin<&mut Self>, cx: &mut Context<'_>) -> Poll<io::Result<()>> {
                Pin::new(&mut &*self).poll_flush(cx)
            }

            fn poll_close(self: Pin<&mut Self>, cx: &mut Context<'_>) -> Poll<io::Result<()>> {
                Pin::new(&mut &*self).poll_close(cx)
            }
        }

        impl $stream {
            /// Ends reads, writes or both.
            ///
            /// # Errors
            ///
            /// As the system answers.
            pub fn shutdown(&self, how: Shutdown) -> io::Result<()> {
                self.0.get().shutdown(how)
            }
        }
    };
}
pub(crate) use streams;
