//! Signals, by `signal-hook` and a pipe that the reactor reads.

use crate::net::UnixStream;
use crate::{spawn_local, stop, stopping, Queue};
use futures_lite::{future, AsyncReadExt};
use signal_hook::consts::{SIGINT, SIGTERM};
use std::io;
use std::os::unix::net;
use std::time::Duration;

/// The signals of one number that come to this process.
///
/// ```
/// use fairexec_rt::{signal::{signals, Signals}, spawn_local, Executor, Queue};
/// use std::io;
///
/// async fn read_again_at(mut hangs_up: Signals) -> io::Result<()> {
///     loop {
///         hangs_up.next().await?;
///         println!("the setup is read again");
///     }
/// }
/// Executor::builder().run(|_| async {
///     spawn_local(Queue::FIRST, read_again_at(signals(libc::SIGHUP)?));
///     io::Result::Ok(())
/// })?;
/// # Ok::<(), fairexec_rt::Error>(())
/// ```
///
/// The first one that asks takes the place of what the signal did before, such as to end the process, and it stays so when this is dropped.
pub struct Signals {
    // It is dropped before the pipe that it writes to.
    _caught: Caught,
    pipe: UnixStream,
}

/// The signals of this number, as `libc::SIGHUP`.
///
/// # Errors
///
/// As the system answers, also for a signal that can't be caught.
///
/// # Panics
///
/// Outside a task, and for SIGKILL, SIGSTOP, SIGILL, SIGFPE and SIGSEGV.
///
/// ```
/// use fairexec_rt::{signal::signals, Executor};
///
/// Executor::builder().run(|_| async {
///     let mut hangs_up = signals(libc::SIGHUP).unwrap();
///     std::process::Command::new("kill").args(["-HUP", &std::process::id().to_string()]).status().unwrap();
///     hangs_up.next().await.unwrap();
/// })?;
/// # Ok::<(), fairexec_rt::Error>(())
/// ```
pub fn signals(number: i32) -> io::Result<Signals> {
    Signals::of(caught(number)?)
}

/// A signal that is caught as long as this stands.
struct Caught(signal_hook::SigId);

impl Drop for Caught {
    fn drop(&mut self) {
        signal_hook::low_level::unregister(self.0);
    }
}

/// Catches a signal, on any thread. Each is told by this end of a pipe.
fn caught(number: i32) -> io::Result<(Caught, net::UnixStream)> {
    let (pipe, end) = net::UnixStream::pair()?;
    end.set_nonblocking(true)?;
    let id = signal_hook::low_level::pipe::register(number, end)?;
    Ok((Caught(id), pipe))
}

impl Signals {
    fn of((caught, pipe): (Caught, net::UnixStream)) -> io::Result<Signals> {
        Ok(Signals { _caught: caught, pipe: UnixStream::from_std(pipe)? })
    }

    /// The next signal. Several that come at once may be one.
    ///
    /// # Errors
    ///
    /// As the system answers.
    pub async fn next(&mut self) -> io::Result<()> {
        let mut bytes = [0; 64];
        match self.pipe.read(&mut bytes).await? {
            0 => Err(io::ErrorKind::UnexpectedEof.into()),
            _ => Ok(()),
        }
    }
}

/// SIGTERM and SIGINT, caught before a core runs: then none of them ends the process while the executor starts.
pub(crate) struct Stops {
    caught: [(Caught, net::UnixStream); 2],
    grace: Duration,
}

impl Stops {
    pub(crate) fn new(grace: Duration) -> io::Result<Stops> {
        Ok(Stops { caught: [caught(SIGTERM)?, caught(SIGINT)?], grace })
    }

    /// Stops the executor of this core at the first one.
    pub(crate) fn watch(self) -> io::Result<()> {
        let [terminated, interrupted] = self.caught.map(Signals::of);
        let (mut terminated, mut interrupted) = (terminated?, interrupted?);
        spawn_local(Queue::FIRST, async move {
            let told = future::or(terminated.next(), interrupted.next());
            if future::or(async { told.await.is_ok() }, async {
                stopping().await;
                false
            })
            .await
            {
                stop(self.grace);
            }
        })
        .detach();
        Ok(())
    }
}
