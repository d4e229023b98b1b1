//! Two clients wait for reads that a filter holds below another one, which shifts bytes on their way up. A third client detaches that one: both reads are drained
//! of it, and come to their clients as the file has them.

use crate::peer::{Step, exchange, follow, is_done, send, take, taken};
use crate::server::{Filters, goes_well};
use fm_cli::Front;
use std::alloc::Global;
use std::net::{Net, TcpListener, TcpStream};
use std::os::unix::net::UnixStream;
use std::thread;
use std::time::{Clock, Duration};

/// How many milliseconds the server has to carry the reads down to where they are held.
const REST: u64 = 300;

/// How many milliseconds a reply is waited for that may not come yet, and how often the file is flushed then.
const PATIENCE: u64 = 30;

const FLUSHES: u32 = 1_000;

/// The third client's: the file has `b` where it writes `a`.
const BEGINS: [Step; 6] = [
    (0, &["load", "shift"], 0, 0, b""),
    (0, &["attach", "0", "0", "s", "200"], 0, 0, b""),
    (0, &["load", "hold"], 0, 1, b""),
    (0, &["attach", "1", "0", "h", "100"], 0, 1, b""),
    (0, &["create", "0", "new", "x"], 0, 0, b""),
    (0, &["write", "0", "0", "61"], 0, 1, b""),
];

// A client that has asked for a read, and waits for it.
fn asks<R>(rt: &R, alloc: Global, at: &Front) -> Option<UnixStream>
where
    R: Net<Listener = TcpListener, Stream = TcpStream> + Clock,
{
    let stream = taken(rt, alloc, at)?;
    let (_, handle, _) = exchange(alloc, &stream, &["create", "0", "existing", "x"])?;
    let handle = format!(in alloc; "{}", handle).ok()?;
    send(alloc, &stream, &["read", handle.as_str(), "0", "1"])?;
    Some(stream)
}

// Flushes until the read has come, which may still have been on its way down. Whether it has come as the file has it.
fn comes(alloc: Global, flusher: &UnixStream, stream: &UnixStream) -> Option<bool> {
    stream.set_read_timeout(Some(Duration::from_millis(PATIENCE))).ok()?;
    for _ in 0..FLUSHES {
        exchange(alloc, flusher, &["flush", "0"])?;
        if let Some((status, information, bytes)) = take(alloc, stream) {
            return Some(status == 0 && information == 1 && bytes.as_slice() == b"b".as_slice());
        }
    }
    None
}

fn drained<R>(rt: &R, alloc: Global, at: &Front) -> Option<bool>
where
    R: Net<Listener = TcpListener, Stream = TcpStream> + Clock,
{
    let mut streams = Vec::new(alloc);
    streams.push(taken(rt, alloc, at)?).ok()?;
    let is_begun = follow(alloc, streams.as_slice(), &BEGINS);
    let one = asks(rt, alloc, at)?;
    let two = asks(rt, alloc, at)?;
    thread::sleep(rt, Duration::from_millis(REST));
    let stream = streams.first()?;
    Some(
        is_begun
            && is_done(alloc, stream, &["detach", "0"])
            && comes(alloc, stream, &one)?
            && comes(alloc, stream, &two)?,
    )
}

#[test]
fn both_are_drained(rt: HostRuntime) {
    assert!(rt; goes_well(&rt, &rt, "drained", Filters::Samples, drained) == Some(true));
}
