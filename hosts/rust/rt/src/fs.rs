//! Files, over the threads of `blocking`. A task that waits for a file holds no core.

use std::fs;
use std::io;
use std::os::unix::fs::FileExt;
use std::path::Path;
use std::sync::Arc;

pub use crate::log::{Compacting, Compaction, Fsync, Log};
pub use blocking::unblock;

/// An open file. Each call reads or writes at a place that it names, so several may go on at once.
///
/// ```
/// use fairexec_rt::{fs::File, Executor};
/// use std::{fs::OpenOptions, io};
///
/// Executor::builder().run(|_| async {
///     let path = std::env::temp_dir().join(format!("fairexec-rt-{}", std::process::id()));
///     let file = File::create(&path).await?;
///     assert!(file.is_empty().await?);
///     file.write_all_at(b"forty-two".to_vec(), 0).await?;
///     file.set_len(5).await?;
///     file.sync_data().await?;
///     let file = File::open(&path).await?;
///     assert_eq!((file.read_at(3, 100).await?, file.len().await?), (b"ty".to_vec(), 5));
///     let mut options = OpenOptions::new();
///     options.create_new(true).write(true);
///     assert!(File::open_with(options, &path).await.is_err());
///     std::fs::remove_file(&path)?;
///     io::Result::Ok(())
/// })?;
/// # Ok::<(), fairexec_rt::Error>(())
/// ```
#[derive(Clone, Debug)]
pub struct File(Arc<fs::File>);

impl From<fs::File> for File {
    fn from(file: fs::File) -> File {
        File(Arc::new(file))
    }
}

impl File {
    /// Opens a file to read it.
    ///
    /// # Errors
    ///
    /// As the system answers, and so for each call below.
    pub async fn open(path: impl AsRef<Path>) -> io::Result<File> {
        let mut options = fs::OpenOptions::new();
        options.read(true);
        File::open_with(options, path).await
    }

    /// Makes a file, or empties one that is there, to read and write it.
    ///
    /// # Errors
    ///
    /// As `open`.
    pub async fn create(path: impl AsRef<Path>) -> io::Result<File> {
        let mut options = fs::OpenOptions::new();
        options.read(true).write(true).create(true).truncate(true);
        File::open_with(options, path).await
    }

    /// Opens a file as these options say.
    ///
    /// # Errors
    ///
    /// As `open`.
    pub async fn open_with(options: fs::OpenOptions, path: impl AsRef<Path>) -> io::Result<File> {
        let path = path.as_ref().to_owned();
        unblock(move || options.open(path)).await.map(File::from)
    }

    /// The bytes from one place to another, or fewer at the end of the file.
    ///
    /// # Errors
    ///
    /// As `open`.
    pub async fn read_at(&self, from: u64, to: u64) -> io::Result<Vec<u8>> {
        let file = Arc::clone(&self.0);
        unblock(move || {
            let mut bytes = vec![0; usize::try_from(to.saturating_sub(from)).map_err(|_| io::ErrorKind::OutOfMemory)?];
            let mut count = 0;
            while count < bytes.len() {
                match file.read_at(&mut bytes[count..], from + count as u64) {
                    Ok(0) => break,
                    Ok(more) => count += more,
                    Err(error) if error.kind() == io::ErrorKind::Interrupted => {}
                    Err(error) => return Err(error),
                }
            }
            bytes.truncate(count);
            Ok(bytes)
        })
        .await
    }

    /// Writes all these bytes at a place, and gives them back.
    ///
    /// # Errors
    ///
    /// As `open`. Some of the bytes may be written then.
    pub async fn write_all_at(&self, bytes: Vec<u8>, at: u64) -> io::Result<Vec<u8>> {
        let file = Arc::clone(&self.0);
        unblock(move || file.write_all_at(&bytes, at).map(|()| bytes)).await
    }

    /// What was written is on the disk when this ends.
    ///
    /// # Errors
    ///
    /// As `open`.
    pub async fn sync_data(&self) -> io::Result<()> {
        let file = Arc::clone(&self.0);
        unblock(move || file.sync_data()).await
    }

    /// Cuts the file off, or fills it up with zeroes.
    ///
    /// # Errors
    ///
    /// As `open`.
    pub async fn set_len(&self, len: u64) -> io::Result<()> {
        let file = Arc::clone(&self.0);
        unblock(move || file.set_len(len)).await
    }

    /// How many bytes the file has.
    ///
    /// # Errors
    ///
    /// As `open`.
    pub async fn len(&self) -> io::Result<u64> {
        let file = Arc::clone(&self.0);
        unblock(move || file.metadata()).await.map(|it| it.len())
    }

    /// Whether it has none.
    ///
    /// # Errors
    ///
    /// As `open`.
    pub async fn is_empty(&self) -> io::Result<bool> {
        Ok(self.len().await? == 0)
    }
}
