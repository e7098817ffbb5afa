//! Channels, which are those of `async-channel`. They don't go by the links of the library, and no journal has what they carry.

pub use async_channel::{Receiver, RecvError, SendError, Sender, TryRecvError, TrySendError};

/// A channel for so many values between tasks of one core. The values needn't be `Send`.
///
/// # Panics
///
/// If there is room for none.
///
/// ```
/// use fairexec_rt::{chan, spawn_local, Executor, Queue};
///
/// Executor::builder().run(|_| async {
///     let (sender, receiver) = chan::local(4);
///     spawn_local(Queue::FIRST, async move { sender.send(std::rc::Rc::new(42)).await }).detach();
///     assert_eq!(*receiver.recv().await.unwrap(), 42);
/// })?;
/// # Ok::<(), fairexec_rt::Error>(())
/// ```
pub fn local<T>(room: usize) -> (Sender<T>, Receiver<T>) {
    async_channel::bounded(room)
}

/// The same for any number of values: a send never waits, and what isn't received takes memory.
///
/// ```
/// use fairexec_rt::{chan, spawn_local, Executor, Queue};
/// use std::rc::Rc;
///
/// Executor::builder().run(|_| async {
///     let (sender, receiver) = chan::local_unbounded();
///     for it in 0..1000 {
///         sender.try_send(Rc::new(it)).unwrap();
///     }
///     let first = spawn_local(Queue::FIRST, async move { receiver.recv().await });
///     assert_eq!(*first.await.unwrap().unwrap(), 0);
/// })?;
/// # Ok::<(), fairexec_rt::Error>(())
/// ```
pub fn local_unbounded<T>() -> (Sender<T>, Receiver<T>) {
    async_channel::unbounded()
}

/// A channel for so many values between any cores and threads: either end may be handed over by [`submit`](crate::submit).
///
/// # Panics
///
/// If there is room for none.
///
/// ```
/// use fairexec_rt::{chan, submit, Executor, Queue};
///
/// Executor::builder().cores(2).run(|here| async move {
///     let (sender, receiver) = chan::across(4);
///     let sum = submit((here.core() + 1) % 2, Queue::FIRST, move || async move {
///         let mut sum = 0;
///         while let Ok(it) = receiver.recv().await {
///             sum += it;
///         }
///         sum
///     });
///     for it in 1..=8 {
///         sender.send(it).await.unwrap();
///     }
///     drop(sender);
///     assert_eq!(sum.await, Ok(36));
/// })?;
/// # Ok::<(), fairexec_rt::Error>(())
/// ```
pub fn across<T: Send>(room: usize) -> (Sender<T>, Receiver<T>) {
    async_channel::bounded(room)
}

/// The same for any number of values: a send never waits, so a thread that is no core may make it.
///
/// ```
/// use fairexec_rt::{chan, Executor};
///
/// Executor::builder().cores(2).run(|_| async {
///     let (sender, receiver) = chan::across_unbounded();
///     let thread = std::thread::spawn(move || (1..=100).try_for_each(|it| sender.try_send(it)));
///     let mut sum = 0;
///     while let Ok(it) = receiver.recv().await {
///         sum += it;
///     }
///     assert_eq!(sum, 5050);
///     thread.join().unwrap().unwrap();
/// })?;
/// # Ok::<(), fairexec_rt::Error>(())
/// ```
pub fn across_unbounded<T: Send>() -> (Sender<T>, Receiver<T>) {
    async_channel::unbounded()
}
