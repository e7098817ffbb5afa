//! Sockets, which read and write as `futures-io` says. A socket stays on the core that it was made on. [`TcpStream::into_std`] takes it out of the
//! reactor, and `from_std` puts it into that of another core.

pub use crate::reads::Reads;
pub use crate::unix::{UnixListener, UnixStream};

use crate::reactor::{Registered, Side};
use crate::streams::{connected, is_begun, streams, until_stop};
use futures_io::{AsyncRead, AsyncWrite};
use socket2::{Domain, Protocol, Socket, Type};
use std::future::poll_fn;
use std::io::{self, IoSlice, Read, Write};
use std::net::{Shutdown, SocketAddr, ToSocketAddrs};
use std::pin::Pin;
use std::task::{Context, Poll};

/// Connections that wait to be accepted.
const BACKLOG: i32 = 1024;

/// A socket that accepts TCP connections.
///
/// ```
/// use fairexec_rt::net::{TcpListener, TcpStream};
/// use fairexec_rt::{spawn_local, stop, Executor, Queue};
/// use futures_lite::{io, AsyncReadExt, AsyncWriteExt};
/// use std::time::Duration;
///
/// Executor::builder().run(|_| async {
///     let listener = TcpListener::bind("127.0.0.1:0").unwrap();
///     let address = listener.local_addr().unwrap();
///     let accepts = spawn_local(Queue::FIRST, async move {
///         while let Some(stream) = listener.accept_until_stop().await {
///             spawn_local(Queue::FIRST, async move { io::copy(&stream, &mut &stream).await });
///         }
///     });
///     let (mut client, mut text) = (TcpStream::connect(address).await.unwrap(), String::new());
///     client.write_all(b"echo").await.unwrap();
///     client.close().await.unwrap();
///     client.read_to_string(&mut text).await.unwrap();
///     assert_eq!(text, "echo");
///     stop(Duration::from_secs(1));
///     accepts.await.unwrap();
/// })?;
/// # Ok::<(), fairexec_rt::Error>(())
/// ```
pub struct TcpListener(Registered<std::net::TcpListener>);

impl TcpListener {
    /// Listens at an address. Another process may have listened there just before.
    ///
    /// # Errors
    ///
    /// As the system answers.
    pub fn bind(address: impl ToSocketAddrs) -> io::Result<TcpListener> {
        TcpListener::listen(address, false)
    }

    /// The same on each core that wants to: the system gives each connection to one of them. Another process of the same user isn't refused, and gets
    /// some of the connections.
    ///
    /// # Errors
    ///
    /// As `bind`.
    pub fn reuse_port(address: impl ToSocketAddrs) -> io::Result<TcpListener> {
        TcpListener::listen(address, true)
    }

    fn listen(address: impl ToSocketAddrs, is_shared: bool) -> io::Result<TcpListener> {
        let mut last = io::Error::from(io::ErrorKind::AddrNotAvailable);
        for address in address.to_socket_addrs()? {
            match listen_at(address, is_shared) {
                Ok(socket) => return Registered::new(socket.into()).map(TcpListener),
                Err(error) => last = error,
            }
        }
        Err(last)
    }

    /// The next connection. It is of this core; `into_std` hands it on. Its writes go out at once (`TCP_NODELAY`).
    ///
    /// # Errors
    ///
    /// As the system answers, as when the process has no file left. A server waits a little and goes on.
    pub async fn accept(&self) -> io::Result<(TcpStream, SocketAddr)> {
        let (socket, address) = poll_fn(|cx| self.0.poll_with(cx, Side::Read, std::net::TcpListener::accept)).await?;
        let stream = TcpStream::from_std(socket)?;
        stream.set_nodelay(true)?;
        Ok((stream, address))
    }

    /// The next connection, or none once the executor [stops](crate::stop()). If the system has none to give, as when the process has no file left,
    /// it is asked again a little later.
    pub async fn accept_until_stop(&self) -> Option<TcpStream> {
        until_stop(|| async { Ok(self.accept().await?.0) }).await
    }

    /// Where it listens.
    ///
    /// # Errors
    ///
    /// As the system answers.
    pub fn local_addr(&self) -> io::Result<SocketAddr> {
        self.0.get().local_addr()
    }

    /// A socket that listens already, as one that the process was started with.
    ///
    /// # Errors
    ///
    /// As the system answers.
    ///
    /// ```
    /// use fairexec_rt::{net::TcpListener, Executor};
    ///
    /// let socket = std::net::TcpListener::bind("127.0.0.1:0").unwrap();
    /// Executor::builder().cores(2).run(|_| {
    ///     // Both cores accept at one socket.
    ///     let socket = socket.try_clone();
    ///     async { TcpListener::from_std(socket?)?.local_addr().map(drop) }
    /// })?;
    /// # Ok::<(), fairexec_rt::Error>(())
    /// ```
    pub fn from_std(socket: std::net::TcpListener) -> io::Result<TcpListener> {
        socket.set_nonblocking(true)?;
        Registered::new(socket).map(TcpListener)
    }
}

fn listen_at(address: SocketAddr, is_shared: bool) -> io::Result<Socket> {
    let socket = Socket::new(Domain::for_address(address), Type::STREAM.nonblocking().cloexec(), Some(Protocol::TCP))?;
    socket.set_reuse_address(true)?;
    socket.set_reuse_port(is_shared)?;
    socket.bind(&address.into())?;
    socket.listen(BACKLOG)?;
    Ok(socket)
}

/// A TCP connection.
///
/// ```
/// use fairexec_rt::net::{TcpListener, TcpStream};
/// use fairexec_rt::{submit, Executor, Queue};
/// use futures_lite::{AsyncReadExt, AsyncWriteExt};
/// use std::{io, net::Shutdown};
///
/// // Each core listens at a port of its own, and the other core serves what it accepts.
/// Executor::builder().cores(2).run(|here| async move {
///     let listener = TcpListener::reuse_port("127.0.0.1:0")?;
///     let mut client = TcpStream::connect(listener.local_addr()?).await?;
///     let (accepted, address) = listener.accept().await?;
///     assert_eq!((address, accepted.peer_addr()?), (client.local_addr()?, address));
///     accepted.set_nodelay(false)?;
///     let accepted = accepted.into_std();
///     let served = submit(1 - here.core(), Queue::FIRST, || async move {
///         TcpStream::from_std(accepted)?.write_all(b"from the other core").await
///     });
///     client.shutdown(Shutdown::Write)?;
///     let mut text = String::new();
///     client.read_to_string(&mut text).await?;
///     assert_eq!(text, "from the other core");
///     served.await?
/// })?;
/// # Ok::<(), fairexec_rt::Error>(())
/// ```
pub struct TcpStream(Registered<std::net::TcpStream>);

streams!(TcpStream);

impl TcpStream {
    /// Connects to the first of these addresses that answers. A name is looked up by the system, which holds the core meanwhile.
    ///
    /// # Errors
    ///
    /// As the system answers for the last address.
    pub async fn connect(address: impl ToSocketAddrs) -> io::Result<TcpStream> {
        let mut last = io::Error::from(io::ErrorKind::AddrNotAvailable);
        for address in address.to_socket_addrs()? {
            match TcpStream::connect_to(address).await {
                Ok(stream) => return Ok(stream),
                Err(error) => last = error,
            }
        }
        Err(last)
    }

    async fn connect_to(address: SocketAddr) -> io::Result<TcpStream> {
        let socket = Socket::new(Domain::for_address(address), Type::STREAM.nonblocking().cloexec(), Some(Protocol::TCP))?;
        if let Err(error) = socket.connect(&address.into()) {
            if !is_begun(&error) {
                return Err(error);
            }
        }
        let stream = Registered::new(socket.into())?;
        connected(&stream, std::net::TcpStream::take_error).await?;
        let stream = TcpStream(stream);
        stream.set_nodelay(true)?;
        Ok(stream)
    }

    /// A connection that comes from elsewhere.
    ///
    /// # Errors
    ///
    /// As the system answers.
    pub fn from_std(socket: std::net::TcpStream) -> io::Result<TcpStream> {
        socket.set_nonblocking(true)?;
        Registered::new(socket).map(TcpStream)
    }

    /// The connection without this core's reactor, for `from_std` on another one. It doesn't block.
    pub fn into_std(self) -> std::net::TcpStream {
        self.0.take_out()
    }

    /// Whether writes go out at once.
    ///
    /// # Errors
    ///
    /// As the system answers.
    pub fn set_nodelay(&self, is_set: bool) -> io::Result<()> {
        self.0.get().set_nodelay(is_set)
    }

    /// The address of the other end.
    ///
    /// # Errors
    ///
    /// As the system answers.
    pub fn peer_addr(&self) -> io::Result<SocketAddr> {
        self.0.get().peer_addr()
    }

    /// The address of this end.
    ///
    /// # Errors
    ///
    /// As the system answers.
    pub fn local_addr(&self) -> io::Result<SocketAddr> {
        self.0.get().local_addr()
    }
}
