//! As many reads as may be there of clients that are gone, by the number. One client stays, and hears by its own connection alone what has become of them: at the
//! end of another one the server would look at them too.

use crate::peer::{Step, exchange, follow, is_done, send, take_places, taken};
use crate::server::{Filters, goes_well};
use fm_cli::Front;
use std::alloc::Global;
use std::net::{Net, TcpListener, TcpStream};
use std::os::unix::net::UnixStream;
use std::thread;
use std::time::{Clock, Duration};

/// How many reads there may be of clients that are gone, and how many clients leave one at a time: 8 times 24 are 192.
const ROUNDS: usize = 8;

const CLIENTS: usize = 24;

/// How often the client that stays asks, ten milliseconds apart.
const ASKS: usize = 1_000;

/// The filter holds reads. The client that stays has two files open.
const STAYS: [Step; 4] = [
    (0, &["load", "hold"], 0, 0, b""),
    (0, &["attach", "0", "0", "h", "100"], 0, 0, b""),
    (0, &["create", "0", "new", "w"], 0, 0, b""),
    (0, &["create", "0", "new", "x"], 0, 1, b""),
];

// Clients that leave a read behind each: the file's handle is the server's to close, and the read is the filter's to let go.
fn leave_reads<R>(rt: &R, alloc: Global, at: &Front) -> Option<()>
where
    R: Net<Listener = TcpListener, Stream = TcpStream> + Clock,
{
    let mut streams = Vec::new(alloc);
    for _ in 0..CLIENTS {
        let stream = taken(rt, alloc, at)?;
        let (_, handle, _) = exchange(alloc, &stream, &["create", "0", "always", "z"])?;
        let handle = format!(in alloc; "{}", handle).ok()?;
        send(alloc, &stream, &["read", handle.as_str(), "0", "1"])?;
        streams.push(stream).ok()?;
    }
    Some(())
}

// Asks until it is answered so.
fn hears<R: Clock>(rt: &R, alloc: Global, stream: &UnixStream, status: u8) -> Option<bool> {
    for _ in 0..ASKS {
        if exchange(alloc, stream, &["list", "0"])?.0 == status {
            return Some(true);
        }
        thread::sleep(rt, Duration::from_millis(10));
    }
    Some(false)
}

// Once 192 are there a listing is refused, and a close isn't. A flush lets them go, and then a listing isn't refused any more.
fn stays<R>(rt: &R, alloc: Global, at: &Front) -> Option<bool>
where
    R: Net<Listener = TcpListener, Stream = TcpStream> + Clock,
{
    let mut streams = Vec::new(alloc);
    streams.push(taken(rt, alloc, at)?).ok()?;
    let is_begun = follow(alloc, streams.as_slice(), &STAYS);
    for _ in 0..ROUNDS {
        leave_reads(rt, alloc, at)?;
    }
    let is_full = hears(rt, alloc, streams.first()?, 29)?;
    take_places(rt, alloc, at, &mut streams)?;
    let stream = streams.first()?;
    Some(
        is_begun
            && is_full
            && is_done(alloc, stream, &["close", "0"])
            && is_done(alloc, stream, &["flush", "1"])
            && hears(rt, alloc, stream, 0)?,
    )
}

#[test]
fn the_192nd_is_the_last(rt: HostRuntime) {
    assert!(rt; goes_well(&rt, &rt, "most-gone", Filters::Samples, stays) == Some(true));
}
