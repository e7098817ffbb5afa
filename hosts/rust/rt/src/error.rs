//! Why a run of the executor failed.

use std::fmt;
use std::io;

/// Why [`Builder::run`](crate::Builder::run) failed.
///
/// ```
/// use fairexec_rt::{Error, Executor};
///
/// let told = Executor::builder().cores(17).run(|_| async {}).unwrap_err();
/// assert!(matches!(&told, Error::Setup(text) if *text == told.to_string()));
/// ```
#[derive(Debug)]
#[non_exhaustive]
pub enum Error {
    /// The library refused a call. `JournalFull` comes of a journal that is kept: it has room for so many notes and no more.
    Library(fairexec::Error),
    /// The reactor, a signal's pipe, a pin or a part of the journal failed.
    Io(io::Error),
    /// The builder was told what can't be: the text says which.
    Setup(String),
    /// A future of `run` came to this.
    Begin(Box<dyn std::error::Error + Send + Sync>),
}

impl fmt::Display for Error {
    fn fmt(&self, f: &mut fmt::Formatter<'_>) -> fmt::Result {
        match self {
            Error::Library(error) => write!(f, "the library: {error}"),
            Error::Io(error) => write!(f, "input and output: {error}"),
            Error::Setup(text) => f.write_str(text),
            Error::Begin(error) => error.fmt(f),
        }
    }
}

impl std::error::Error for Error {
    fn source(&self) -> Option<&(dyn std::error::Error + 'static)> {
        match self {
            Error::Library(error) => Some(error),
            Error::Io(error) => Some(error),
            Error::Setup(_) => None,
            Error::Begin(error) => error.source(),
        }
    }
}

impl From<fairexec::Error> for Error {
    fn from(error: fairexec::Error) -> Error {
        Error::Library(error)
    }
}

impl From<io::Error> for Error {
    fn from(error: io::Error) -> Error {
        Error::Io(error)
    }
}
