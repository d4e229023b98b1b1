//! Reads that their clients leave behind, until the server has room for little else.

use crate::lines::comes;
use crate::peer::{exchange, follow, is_done, send, taken};
use crate::steps::{FULL, KEEPS};
use fm_cli::Front;
use std::alloc::Global;
use std::net::{Net, TcpListener, TcpStream};
use std::os::unix::net::UnixStream;
use std::time::Clock;

/// How many clients leave a read behind at once, and how often they do so at most.
const CLIENTS: usize = 28;

const ROUNDS: u32 = 40;

/// What the list of the files is then: x and z.
const LISTED: &str = "status 0 info 4 bytes 780a7a0a\n";

// A client opens a file and asks for a read that the filter holds. False if its create is refused, as too many operations are there.
fn ask_to_read(alloc: Global, stream: &UnixStream) -> Option<bool> {
    let (status, handle, _) = exchange(alloc, stream, &["create", "0", "always", "z"])?;
    if status == 29 {
        return Some(false);
    }
    let handle = format!(in alloc; "{}", handle).ok()?;
    send(alloc, stream, &["read", handle.as_str(), "0", "1"])?;
    Some(true)
}

// Clients that leave a read behind each. False if one of them was refused.
fn leave_reads<R>(rt: &R, alloc: Global, at: &Front) -> Option<bool>
where
    R: Net<Listener = TcpListener, Stream = TcpStream> + Clock,
{
    let mut streams = Vec::new(alloc);
    for _ in 0..CLIENTS {
        let stream = taken(rt, alloc, at)?;
        if !ask_to_read(alloc, &stream)? {
            return Some(false);
        }
        streams.push(stream).ok()?;
    }
    Some(true)
}

// The same until one is refused. Whether it came to that.
fn fill<R>(rt: &R, alloc: Global, at: &Front) -> Option<bool>
where
    R: Net<Listener = TcpListener, Stream = TcpStream> + Clock,
{
    for _ in 0..ROUNDS {
        if !leave_reads(rt, alloc, at)? {
            return Some(true);
        }
    }
    Some(false)
}

/// One client stays. It is refused all but what lets the reads go: its flush, or the detach of what holds them, and then there is room for anybody.
pub fn abandoned<R>(rt: &R, alloc: Global, at: &Front, way_out: &[&str]) -> Option<bool>
where
    R: Net<Listener = TcpListener, Stream = TcpStream> + Clock,
{
    let mut streams = Vec::new(alloc);
    streams.push(taken(rt, alloc, at)?).ok()?;
    let is_well = follow(alloc, streams.as_slice(), &KEEPS)
        && fill(rt, alloc, at)?
        && follow(alloc, streams.as_slice(), &FULL)
        && is_done(alloc, streams.first()?, way_out);
    Some(is_well && comes(rt, alloc, at, &["list", "0"], (0, LISTED)))
}
