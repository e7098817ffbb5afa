//! Sockets by a path.

use crate::reactor::{Registered, Side};
use crate::streams::{connected, is_begun, streams, until_stop};
use futures_io::{AsyncRead, AsyncWrite};
use socket2::{Domain, SockAddr, Socket, Type};
use std::future::poll_fn;
use std::io::{self, IoSlice, Read, Write};
use std::net::Shutdown;
use std::os::unix::net as unix;
use std::path::Path;
use std::pin::Pin;
use std::task::{Context, Poll};

/// A socket that accepts connections by a path.
///
/// ```
/// use fairexec_rt::net::{UnixListener, UnixStream};
/// use fairexec_rt::{spawn_local, Executor, Queue};
/// use futures_lite::{AsyncReadExt, AsyncWriteExt};
/// use std::{env::temp_dir, fs::remove_file, io, process};
///
/// Executor::builder().run(|_| async {
///     let path = temp_dir().join(format!("fairexec-rt-{}", process::id()));
///     let listener = UnixListener::bind(&path)?;
///     let accepts = spawn_local(Queue::FIRST, async move { listener.accept().await?.write_all(b"by a path").await });
///     let mut text = String::new();
///     UnixStream::connect(&path).await?.read_to_string(&mut text).await?;
///     assert_eq!(text, "by a path");
///     remove_file(path)?;
///     accepts.await?
/// })?;
/// # Ok::<(), fairexec_rt::Error>(())
/// ```
pub struct UnixListener(Registered<unix::UnixListener>);

impl UnixListener {
    /// Listens at a path, where no file is.
    ///
    /// # Errors
    ///
    /// As the system answers.
    pub fn bind(path: impl AsRef<Path>) -> io::Result<UnixListener> {
        UnixListener::from_std(unix::UnixListener::bind(path)?)
    }

    /// A socket that listens already.
    ///
    /// # Errors
    ///
    /// As the system answers.
    pub fn from_std(socket: unix::UnixListener) -> io::Result<UnixListener> {
        socket.set_nonblocking(true)?;
        Registered::new(socket).map(UnixListener)
    }

    /// The next connection.
    ///
    /// # Errors
    ///
    /// As the system answers.
    pub async fn accept(&self) -> io::Result<UnixStream> {
        let (socket, _) = poll_fn(|cx| self.0.poll_with(cx, Side::Read, unix::UnixListener::accept)).await?;
        UnixStream::from_std(socket)
    }

    /// As [`TcpListener::accept_until_stop`](crate::net::TcpListener::accept_until_stop).
    ///
    /// ```
    /// use fairexec_rt::{net::UnixListener, spawn_local, stop, Executor, Queue};
    /// use std::{os::unix::net, time::Duration};
    ///
    /// let path = std::env::temp_dir().join(format!("fairexec-rt-until-{}", std::process::id()));
    /// let socket = net::UnixListener::bind(&path).unwrap();
    /// Executor::builder().run(|_| {
    ///     let listener = UnixListener::from_std(socket.try_clone().unwrap()).unwrap();
    ///     async move {
    ///         spawn_local(Queue::FIRST, async { stop(Duration::from_secs(1)) });
    ///         assert!(listener.accept_until_stop().await.is_none());
    ///     }
    /// })?;
    /// std::fs::remove_file(path).unwrap();
    /// # Ok::<(), fairexec_rt::Error>(())
    /// ```
    pub async fn accept_until_stop(&self) -> Option<UnixStream> {
        until_stop(|| self.accept()).await
    }
}

/// A connection by a path.
///
/// ```
/// use fairexec_rt::{net::UnixStream, submit, Executor, Queue};
/// use futures_lite::{AsyncReadExt, AsyncWriteExt};
/// use std::io;
///
/// Executor::builder().cores(2).run(|here| async move {
///     let (mut ours, theirs) = UnixStream::pair()?;
///     let theirs = theirs.into_std();
///     let sends = submit(1 - here.core(), Queue::FIRST, || async move { UnixStream::from_std(theirs)?.write_all(b"42").await });
///     let mut text = String::new();
///     ours.read_to_string(&mut text).await?;
///     assert_eq!(text, "42");
///     sends.await?
/// })?;
/// # Ok::<(), fairexec_rt::Error>(())
/// ```
pub struct UnixStream(Registered<unix::UnixStream>);

streams!(UnixStream);

impl UnixStream {
    /// Connects to who listens at a path.
    ///
    /// # Errors
    ///
    /// As the system answers; `WouldBlock` if as many connections wait there as may.
    pub async fn connect(path: impl AsRef<Path>) -> io::Result<UnixStream> {
        let socket = Socket::new(Domain::UNIX, Type::STREAM.nonblocking().cloexec(), None)?;
        if let Err(error) = socket.connect(&SockAddr::unix(path)?) {
            if !is_begun(&error) {
                return Err(error);
            }
        }
        let stream = Registered::new(socket.into())?;
        connected(&stream, unix::UnixStream::take_error).await?;
        Ok(UnixStream(stream))
    }

    /// Two ends of one connection.
    ///
    /// # Errors
    ///
    /// As the system answers.
    pub fn pair() -> io::Result<(UnixStream, UnixStream)> {
        let (one, other) = unix::UnixStream::pair()?;
        Ok((UnixStream::from_std(one)?, UnixStream::from_std(other)?))
    }

    /// A connection that comes from elsewhere.
    ///
    /// # Errors
    ///
    /// As the system answers.
    pub fn from_std(socket: unix::UnixStream) -> io::Result<UnixStream> {
        socket.set_nonblocking(true)?;
        Registered::new(socket).map(UnixStream)
    }

    /// The connection without this core's reactor, for `from_std` on another one. It doesn't block.
    pub fn into_std(self) -> unix::UnixStream {
        self.0.take_out()
    }
}
