//! Sockets, signals and files.

use fairexec_rt::net::{Reads, TcpListener, TcpStream, UnixListener, UnixStream};
use fairexec_rt::{chan, fs, signal, sleep, spawn_local, stop, stopping, submit, timeout, yield_if_needed, Executor, Journal, Queue};
use futures_lite::{future, AsyncReadExt, AsyncWriteExt};
use std::cell::Cell;
use std::io::Write;
use std::os::unix::net::UnixStream as StdStream;
use std::rc::Rc;
use std::thread;
use std::time::{Duration, Instant};

/// Sends back what comes.
async fn echo(mut stream: TcpStream) {
    let mut bytes = [0; 1024];
    while let Ok(count @ 1..) = stream.read(&mut bytes).await {
        if stream.write_all(&bytes[..count]).await.is_err() {
            return;
        }
    }
}

#[test]
fn clients_on_two_cores_are_served() {
    let report = Executor::builder()
        .cores(2)
        .journal(Journal::Keep)
        .notes(1 << 22)
        .run(|here| async move {
            let (core, listener) = (here.core(), TcpListener::bind(("127.0.0.1", 0)).unwrap());
            let address = listener.local_addr().unwrap();
            spawn_local(Queue::FIRST, async move {
                loop {
                    let (stream, _) = listener.accept().await.unwrap();
                    spawn_local(Queue::FIRST, echo(stream));
                }
            });
            let clients: Vec<_> = (0..50u8)
                .map(|number| {
                    submit(1 - core, Queue::FIRST, move || async move {
                        let mut stream = TcpStream::connect(address).await.unwrap();
                        for size in [1, 7, 1024, 100_000] {
                            let sent = vec![number; size];
                            let mut got = vec![0; size];
                            // A reference reads while another one writes.
                            let (reads, writes) = (&stream, &stream);
                            let told = future::zip(async { (&*reads).read_exact(&mut got).await }, async { (&*writes).write_all(&sent).await }).await;
                            told.0.unwrap();
                            told.1.unwrap();
                            assert_eq!(got, sent);
                        }
                        stream.close().await.unwrap();
                    })
                })
                .collect();
            for it in clients {
                it.await.unwrap();
            }
        })
        .unwrap();
    assert!(report.is_sound());
}

#[test]
fn a_connection_goes_to_another_core() {
    Executor::builder()
        .cores(2)
        .run(|here| async move {
            if here.core() == 1 {
                return;
            }
            let listener = TcpListener::bind("127.0.0.1:0").unwrap();
            let client = TcpStream::connect(listener.local_addr().unwrap());
            let (mut client, accepted) = future::zip(async { client.await.unwrap() }, async { listener.accept().await.unwrap().0 }).await;
            let accepted = accepted.into_std();
            let served = submit(1, Queue::FIRST, move || async move { echo(TcpStream::from_std(accepted).unwrap()).await });
            client.write_all(b"across").await.unwrap();
            let mut bytes = [0; 6];
            client.read_exact(&mut bytes).await.unwrap();
            assert_eq!(&bytes, b"across");
            drop(client);
            served.await.unwrap();
        })
        .unwrap();
}

#[test]
fn connections_by_a_path_and_refused_ones() {
    let path = std::env::temp_dir().join(format!("fairexec-rt-{}.sock", std::process::id()));
    let at = path.clone();
    Executor::builder()
        .run(move |_| {
            let path = at.clone();
            async move {
                let listener = UnixListener::bind(&path).unwrap();
                spawn_local(Queue::FIRST, async move {
                    let mut stream = listener.accept().await.unwrap();
                    stream.write_all(b"by a path").await.unwrap();
                });
                let mut text = String::new();
                UnixStream::connect(&path).await.unwrap().read_to_string(&mut text).await.unwrap();
                assert_eq!(text, "by a path");
                assert!(UnixListener::bind(&path).is_err());
                // Nobody listens there.
                let taken = TcpListener::bind("127.0.0.1:0").unwrap();
                let address = taken.local_addr().unwrap();
                drop(taken);
                assert!(TcpStream::connect(address).await.is_err());
            }
        })
        .unwrap();
    std::fs::remove_file(path).unwrap();
}

#[test]
fn a_signal_stops_all_cores() {
    Executor::builder()
        .cores(2)
        .stop_on_signals(Duration::from_secs(20))
        .run(|here| async move {
            if here.core() == 1 {
                let mut hangs_up = signal::signals(libc::SIGHUP).unwrap();
                // SAFETY: it sends a signal that is caught to this process.
                unsafe { libc::kill(libc::getpid(), libc::SIGHUP) };
                timeout(Duration::from_secs(10), hangs_up.next()).await.unwrap().unwrap();
                // SAFETY: as above.
                unsafe { libc::kill(libc::getpid(), libc::SIGTERM) };
            }
            timeout(Duration::from_secs(10), stopping()).await.unwrap();
        })
        .unwrap();
}

#[test]
fn channels_carry_values_between_cores() {
    Executor::builder()
        .cores(2)
        .run(|here| async move {
            if here.core() == 1 {
                return;
            }
            let (sender, receiver) = chan::across(4);
            let sum = submit(1, Queue::FIRST, move || async move {
                let mut sum = 0;
                while let Ok(it) = receiver.recv().await {
                    sum += it;
                }
                sum
            });
            for it in 0..1000u64 {
                sender.send(it).await.unwrap();
            }
            drop(sender);
            assert_eq!(sum.await, Ok(499_500));
            assert_eq!(fs::unblock(|| 6 * 7).await, 42);
            stop(Duration::ZERO);
        })
        .unwrap();
}

/// A client waits for answers that take longer than it may be idle, and asks again soon after each. Then it is idle.
#[test]
fn a_slow_answer_isnt_idle() {
    let (idle, slow) = (Duration::from_millis(200), Duration::from_millis(250));
    let run = Executor::builder().run(move |_| async move {
        let (mut client, stream) = UnixStream::pair().unwrap();
        let serves = spawn_local(Queue::FIRST, async move {
            let (mut reads, mut bytes) = (Reads::new(Some(idle)), Vec::new());
            while reads.read(&stream, &mut bytes).await.unwrap() {
                sleep(slow).await;
                (&stream).write_all(&bytes).await.unwrap();
                bytes.clear();
            }
        });
        for it in 0..3 {
            client.write_all(&[it]).await.unwrap();
            let mut told = [7];
            client.read_exact(&mut told).await.unwrap();
            assert_eq!(told, [it]);
            sleep(Duration::from_millis(20)).await;
        }
        assert_eq!(client.read(&mut [0]).await.unwrap(), 0);
        serves.await.unwrap();
    });
    run.unwrap();
}

/// A task of the background whose slice is an hour computes until the requests of its core are done: they wait for a socket, for a call to the other
/// core, and for a call from there.
#[test]
fn what_comes_ends_a_slice() {
    let server = Executor::builder().cores(2).queue("requests", 1000).queue("background", 100).slice(Duration::from_secs(3600));
    let run = server.run(|here| async move {
        if here.core() == 0 {
            return;
        }
        let (mut client, stream) = StdStream::pair().unwrap();
        let mut stream = UnixStream::from_std(stream).unwrap();
        let (is_done, ends) = (Rc::new(Cell::new(false)), Instant::now() + Duration::from_secs(20));
        let computes = spawn_local(Queue::new(1), {
            let is_done = Rc::clone(&is_done);
            async move {
                while !is_done.get() && Instant::now() < ends {
                    yield_if_needed().await;
                }
                is_done.get()
            }
        });
        thread::spawn(move || {
            thread::sleep(Duration::from_millis(20));
            client.write_all(b"a").unwrap();
        });
        stream.read_exact(&mut [0]).await.unwrap();
        let told = submit(0, Queue::FIRST, || async { submit(1, Queue::FIRST, || async { 42 }).await });
        assert_eq!(told.await, Ok(Ok(42)));
        is_done.set(true);
        assert!(computes.await.unwrap());
    });
    run.unwrap();
}
