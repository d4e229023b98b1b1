//! A create whose client is gone before a filter lets it go: the handle that it opens is closed by whoever takes its answer. That is seen by another client, who
//! marks the file for deletion: it goes with its last handle.

use crate::peer::{Step, exchange, follow, is_done, send, take_places, taken};
use crate::server::{Filters, goes_well};
use fm_cli::Front;
use std::alloc::Global;
use std::net::{Net, TcpListener, TcpStream};
use std::os::unix::net::UnixStream;
use std::thread;
use std::time::{Clock, Duration};

/// How often something is looked for, ten milliseconds apart.
const ASKS: usize = 1_000;

/// Filters that hold creates of new files. The client that stays has a file open.
const FLUSHED: [Step; 3] = [
    (0, &["load", "flushed"], 0, 0, b""),
    (0, &["attach", "0", "0", "h", "100"], 0, 0, b""),
    (0, &["create", "0", "always", "y"], 0, 0, b""),
];

const CLEANED_UP: [Step; 2] = [
    (0, &["load", "cleanedup"], 0, 0, b""),
    (0, &["attach", "0", "0", "h", "100"], 0, 0, b""),
];

/// The files that the other connection has open, and the new ones, one a try.
const FILES: [&str; 12] = ["a", "b", "c", "d", "e", "f", "g", "h", "i", "j", "k", "l"];

const NAMES: [&str; 8] = ["p", "q", "r", "s", "t", "u", "v", "w"];

// The number as a word.
fn word(alloc: Global, number: u64) -> Option<String> {
    format!(in alloc; "{}", number).ok()
}

// A client asks for a new file of that name, and is gone. The others that come then take every place, so the server has seen it.
fn leave_create<R>(
    rt: &R,
    alloc: Global,
    at: &Front,
    name: &str,
    streams: &mut Vec<UnixStream>,
) -> Option<()>
where
    R: Net<Listener = TcpListener, Stream = TcpStream> + Clock,
{
    let stream = taken(rt, alloc, at)?;
    send(alloc, &stream, &["create", "0", "new", name])?;
    drop(stream);
    take_places(rt, alloc, at, streams)
}

// Whether the file of that name is there. Its name is one letter.
fn is_there(alloc: Global, stream: &UnixStream, name: &str) -> Option<bool> {
    let (_, _, listed) = exchange(alloc, stream, &["list", "0"])?;
    Some(listed.as_slice().iter().any(|byte| name.as_bytes().first() == Some(byte)))
}

// Asks with these words until the file is there, which may not even have been held yet. Opens it, marks it for deletion, and closes it.
fn delete<R: Clock>(
    rt: &R,
    alloc: Global,
    stream: &UnixStream,
    name: &str,
    words: &[&str],
) -> Option<bool> {
    for _ in 0..ASKS {
        if is_there(alloc, stream, name)? {
            let (_, handle, _) = exchange(alloc, stream, &["create", "0", "existing", name])?;
            let handle = word(alloc, handle)?;
            return Some(
                is_done(alloc, stream, &["setdelete", handle.as_str()])
                    && is_done(alloc, stream, &["close", handle.as_str()]),
            );
        }
        exchange(alloc, stream, words)?;
        thread::sleep(rt, Duration::from_millis(10));
    }
    Some(false)
}

// Whether the file goes, while that is asked again and again.
fn goes<R: Clock>(
    rt: &R,
    alloc: Global,
    stream: &UnixStream,
    name: &str,
    words: &[&str],
) -> Option<bool> {
    for _ in 0..ASKS {
        if !is_there(alloc, stream, name)? {
            return Some(true);
        }
        exchange(alloc, stream, words)?;
        thread::sleep(rt, Duration::from_millis(10));
    }
    Some(false)
}

// Whether the file goes, while other connections come and end.
fn goes_with_others<R>(rt: &R, alloc: Global, at: &Front, name: &str) -> Option<bool>
where
    R: Net<Listener = TcpListener, Stream = TcpStream> + Clock,
{
    for _ in 0..ASKS {
        let other = taken(rt, alloc, at)?;
        if !is_there(alloc, &other, name)? {
            return Some(true);
        }
        drop(other);
        thread::sleep(rt, Duration::from_millis(10));
    }
    Some(false)
}

// A flush lets the create go. Other connections come and end, and the server takes its answer.
fn flushed<R>(rt: &R, alloc: Global, at: &Front) -> Option<bool>
where
    R: Net<Listener = TcpListener, Stream = TcpStream> + Clock,
{
    let mut streams = Vec::new(alloc);
    streams.push(taken(rt, alloc, at)?).ok()?;
    let is_begun = follow(alloc, streams.as_slice(), &FLUSHED);
    leave_create(rt, alloc, at, "x", &mut streams)?;
    streams.truncate(1);
    let stream = streams.first()?;
    Some(
        is_begun
            && is_done(alloc, stream, &["flush", "0"])
            && delete(rt, alloc, stream, "x", &["flush", "0"])?
            && goes_with_others(rt, alloc, at, "x")?,
    )
}

// A detach lets it go. No other connection ends: each detach has the server take the answer of what is done, one that is refused too.
fn detached<R>(rt: &R, alloc: Global, at: &Front) -> Option<bool>
where
    R: Net<Listener = TcpListener, Stream = TcpStream> + Clock,
{
    let mut streams = Vec::new(alloc);
    streams.push(taken(rt, alloc, at)?).ok()?;
    let is_begun = follow(alloc, streams.as_slice(), &FLUSHED);
    leave_create(rt, alloc, at, "x", &mut streams)?;
    let stream = streams.first()?;
    exchange(alloc, stream, &["detach", "0"])?;
    Some(
        is_begun
            && delete(rt, alloc, stream, "x", &["detach", "0"])?
            && goes(rt, alloc, stream, "x", &["detach", "0"])?,
    )
}

// The end of another connection lets it go, as its first handle is closed, and takes its answer after the last: each cleanup goes on once the create has come back.
// The answer may still be on its way for a moment, so there is more than one try.
fn cleaned_up<R>(rt: &R, alloc: Global, at: &Front) -> Option<bool>
where
    R: Net<Listener = TcpListener, Stream = TcpStream> + Clock,
{
    let mut streams = Vec::new(alloc);
    streams.push(taken(rt, alloc, at)?).ok()?;
    let is_begun = follow(alloc, streams.as_slice(), &CLEANED_UP);
    for name in NAMES {
        let other = taken(rt, alloc, at)?;
        for file in FILES {
            exchange(alloc, &other, &["create", "0", "always", file])?;
        }
        streams.push(other).ok()?;
        leave_create(rt, alloc, at, name, &mut streams)?;
        streams.swap_remove(1);
        take_places(rt, alloc, at, &mut streams)?;
        let stream = streams.first()?;
        if delete(rt, alloc, stream, name, &["list", "0"])? && !is_there(alloc, stream, name)? {
            return Some(is_begun);
        }
        streams.truncate(1);
        goes_with_others(rt, alloc, at, name)?;
    }
    Some(false)
}

#[test]
fn a_flush_lets_a_create_go(rt: HostRuntime) {
    assert!(rt; goes_well(&rt, &rt, "flushed-create", Filters::Holders, flushed) == Some(true));
}

#[test]
fn a_detach_lets_a_create_go(rt: HostRuntime) {
    assert!(rt; goes_well(&rt, &rt, "detached-create", Filters::Holders, detached) == Some(true));
}

#[test]
fn the_end_of_a_connection_lets_a_create_go(rt: HostRuntime) {
    assert!(rt; goes_well(&rt, &rt, "ended-create", Filters::Single, cleaned_up) == Some(true));
}
