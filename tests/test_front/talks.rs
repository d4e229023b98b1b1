//! What clients do with a server until it ends.

use crate::abandoned::abandoned;
use crate::lines::{DONE, Line, ask, ask_all, comes, wait_for_server};
use crate::peer::{exchange, follow, is_done, send, take, taken};
use crate::steps::{BEGINS, CLOSES, ENDS, HOLDS, OWN, REFUSED, SHARES, WRITES};
use fm_cli::Front;
use std::alloc::{AllocError, Global};
use std::io::{Read, Write};
use std::net::{Net, Shutdown, TcpListener, TcpStream};
use std::os::unix::net::UnixStream;
use std::rt::Files;
use std::time::{Clock, Duration};
use std::fs;

/// How many milliseconds a reply is waited for that may not come, and how often a file is flushed then.
const PATIENCE: u64 = 30;

const FLUSHES: u32 = 1_000;

/// What a client does.
#[derive(Clone, Copy)]
pub enum Talk {
    /// Makes these requests, the last of which ends the server.
    Lines(&'static [Line]),
    /// Fills the server with connections.
    Crowd,
    /// Leaves in the middle of a frame, and then behind one.
    Cut,
    /// Two connections ask for all that there is.
    Pair,
    /// A create is refused.
    Refused,
    /// A filter that isn't among the samples counts writes and denies a deletion.
    Own,
    /// The volume goes beside an open handle.
    Dismounted,
    /// The socket's file goes before the Stop.
    Removed,
    /// A client leaves its read behind, and every other place is taken.
    Vanished,
    /// A Stop comes in a dismount that has begun.
    Begun,
    /// A read waits for another connection's flush.
    Waits,
    /// Clients leave reads behind until there is no room for more, and these words let them go.
    Abandoned(&'static [&'static str]),
}

// So many connections.
fn connect<R>(rt: &R, alloc: Global, at: &Front, count: usize) -> Option<Vec<UnixStream>>
where
    R: Net<Listener = TcpListener, Stream = TcpStream> + Clock,
{
    let mut streams = Vec::new(alloc);
    for _ in 0..count {
        streams.push(taken(rt, alloc, at)?).ok()?;
    }
    Some(streams)
}

// As many connections as there may be: a further one is closed at once, and taken once one of them has ended.
fn crowd<R>(rt: &R, alloc: Global, at: &Front) -> Option<bool>
where
    R: Net<Listener = TcpListener, Stream = TcpStream> + Clock,
{
    let mut streams = connect(rt, alloc, at, 32)?;
    let (status, printed) = ask(rt, alloc, at, &["list", "0"]);
    streams.pop();
    Some(
        status == 3
            && printed.as_slice() == b"fault\n".as_slice()
            && comes(rt, alloc, at, &["list", "0"], (0, DONE)),
    )
}

// A file that is to go with its last handle, and a connection that is cut in the middle of a frame: the file goes.
fn cut<R>(rt: &R, alloc: Global, at: &Front) -> Option<bool>
where
    R: Net<Listener = TcpListener, Stream = TcpStream> + Clock,
{
    let stream = taken(rt, alloc, at)?;
    exchange(alloc, &stream, &["create", "0", "always", "x"])?;
    exchange(alloc, &stream, &["setdelete", "0"])?;
    let (_, listed) = ask(rt, alloc, at, &["list", "0"]);
    let mut writer = &stream;
    writer.write_all(&[0, 0]).ok()?;
    drop(stream);
    Some(
        listed.as_slice() == b"status 0 info 2 bytes 780a\n".as_slice()
            && comes(rt, alloc, at, &["list", "0"], (0, DONE))
            && is_closed_at_its_end(rt, alloc, at)?,
    )
}

// A client that sends no more sees the end of its connection once its handles are closed: the file that was to go with one is gone then.
fn is_closed_at_its_end<R>(rt: &R, alloc: Global, at: &Front) -> Option<bool>
where
    R: Net<Listener = TcpListener, Stream = TcpStream> + Clock,
{
    let stream = taken(rt, alloc, at)?;
    exchange(alloc, &stream, &["create", "0", "always", "y"])?;
    exchange(alloc, &stream, &["setdelete", "1"])?;
    stream.shutdown(Shutdown::Write).ok()?;
    let mut reader = &stream;
    let end = reader.read(&mut [0]).ok()?;
    let (status, listed) = ask(rt, alloc, at, &["list", "0"]);
    Some(end == 0 && status == 0 && listed.as_slice() == DONE.as_bytes())
}

fn path_of(alloc: Global, at: &Front, name: &str) -> Result<String, AllocError> {
    format!(in alloc; "{}/{name}", at.folder)
}

// Whether the host's file has these bytes.
fn has_bytes<R>(rt: &R, alloc: Global, at: &Front, name: &str, bytes: &[u8]) -> bool
where
    R: Files + AllocGlobal,
{
    let Ok(path) = path_of(alloc, at, name) else {
        return false;
    };
    match fs::read(rt, path.as_str()) {
        Ok(read) => read.as_slice() == bytes,
        Err(_) => false,
    }
}

// Two connections ask for all that there is, and the host's file has the bytes that the filter makes of theirs.
fn pair<R>(rt: &R, alloc: Global, at: &Front) -> Option<bool>
where
    R: Files + AllocGlobal + Net<Listener = TcpListener, Stream = TcpStream> + Clock,
{
    let streams = connect(rt, alloc, at, 2)?;
    let streams = streams.as_slice();
    Some(
        follow(alloc, streams, &WRITES)
            && has_bytes(rt, alloc, at, "x", b"bc\0")
            && follow(alloc, streams, &SHARES)
            && has_bytes(rt, alloc, at, "x", b"bc")
            && follow(alloc, streams, &ENDS)
            && !has_bytes(rt, alloc, at, "x", b"bc")
            && has_bytes(rt, alloc, at, "y", b""),
    )
}

// One connection is refused what another has.
fn refused<R>(rt: &R, alloc: Global, at: &Front) -> Option<bool>
where
    R: Net<Listener = TcpListener, Stream = TcpStream> + Clock,
{
    let streams = connect(rt, alloc, at, 2)?;
    Some(follow(alloc, streams.as_slice(), &REFUSED))
}

// One connection meets the server's own filter.
fn own<R>(rt: &R, alloc: Global, at: &Front) -> Option<bool>
where
    R: Net<Listener = TcpListener, Stream = TcpStream> + Clock,
{
    let streams = connect(rt, alloc, at, 1)?;
    Some(follow(alloc, streams.as_slice(), &OWN))
}

// A dismount closes a handle: its file stays, though it was to go with it.
fn dismounted<R>(rt: &R, alloc: Global, at: &Front) -> Option<bool>
where
    R: Files + AllocGlobal + Net<Listener = TcpListener, Stream = TcpStream> + Clock,
{
    let streams = connect(rt, alloc, at, 2)?;
    Some(follow(alloc, streams.as_slice(), &CLOSES) && has_bytes(rt, alloc, at, "x", b"a"))
}

// A Stop, once nothing leads to the server any more.
fn removed<R>(rt: &R, alloc: Global, at: &Front) -> Option<bool>
where
    R: Files + Net<Listener = TcpListener, Stream = TcpStream> + Clock,
{
    let stream = taken(rt, alloc, at)?;
    fs::remove_file(rt, at.socket).ok()?;
    Some(is_done(alloc, &stream, &["stop"]))
}

// A client leaves a read that a filter holds. Its handle is closed: the file, which was to go with it, is gone.
fn leave_read<R>(rt: &R, alloc: Global, at: &Front) -> Option<bool>
where
    R: Net<Listener = TcpListener, Stream = TcpStream> + Clock,
{
    let streams = connect(rt, alloc, at, 1)?;
    let is_well = follow(alloc, streams.as_slice(), &HOLDS);
    send(alloc, streams.first()?, &["read", "0", "0", "1"])?;
    drop(streams);
    Some(is_well && comes(rt, alloc, at, &["list", "0"], (0, DONE)))
}

// The same where all other places are taken: its place is free again.
fn vanished<R>(rt: &R, alloc: Global, at: &Front) -> Option<bool>
where
    R: Net<Listener = TcpListener, Stream = TcpStream> + Clock,
{
    let streams = connect(rt, alloc, at, 31)?;
    let is_well = leave_read(rt, alloc, at);
    drop(streams);
    is_well
}

// A dismount begins beside the read that is left, and then the server is stopped. All other places are taken: where one more client is answered, the one that
// left the read is gone, and its close isn't in the way of the dismount.
fn begun<R>(rt: &R, alloc: Global, at: &Front) -> Option<bool>
where
    R: Net<Listener = TcpListener, Stream = TcpStream> + Clock,
{
    let streams = connect(rt, alloc, at, 31)?;
    let is_well = leave_read(rt, alloc, at)?;
    Some(follow(alloc, streams.as_slice(), &BEGINS) && is_well)
}

// A read that a filter holds has no answer, until another connection flushes another file.
fn waits<R>(rt: &R, alloc: Global, at: &Front) -> Option<bool>
where
    R: Net<Listener = TcpListener, Stream = TcpStream> + Clock,
{
    let streams = connect(rt, alloc, at, 2)?;
    let (reader, other) = (streams.first()?, streams.get(1)?);
    let is_well = follow(alloc, streams.as_slice(), &HOLDS);
    exchange(alloc, other, &["create", "0", "new", "y"])?;
    reader
        .set_read_timeout(Some(Duration::from_millis(PATIENCE)))
        .ok()?;
    send(alloc, reader, &["read", "0", "0", "9"])?;
    if take(alloc, reader).is_some() {
        return Some(false);
    }
    for _ in 0..FLUSHES {
        exchange(alloc, other, &["flush", "1"])?;
        if let Some((status, information, bytes)) = take(alloc, reader) {
            return Some(
                is_well && status == 0 && information == 1 && bytes.as_slice() == b"a".as_slice(),
            );
        }
    }
    None
}

// Whether a client is told what it should be, in a talk that stops the server itself.
fn talk_to_end<R>(rt: &R, alloc: Global, at: &Front, talk: Talk) -> Option<bool>
where
    R: Files + AllocGlobal + Net<Listener = TcpListener, Stream = TcpStream> + Clock,
{
    match talk {
        Talk::Lines(lines) => Some(ask_all(rt, alloc, at, lines)),
        Talk::Pair => pair(rt, alloc, at),
        Talk::Refused => refused(rt, alloc, at),
        Talk::Own => own(rt, alloc, at),
        Talk::Dismounted => dismounted(rt, alloc, at),
        Talk::Removed => removed(rt, alloc, at),
        Talk::Begun => begun(rt, alloc, at),
        Talk::Crowd | Talk::Cut | Talk::Vanished | Talk::Waits | Talk::Abandoned(_) => None,
    }
}

/// Whether a client is told what it should be. The server is stopped in any case.
pub fn converse<R>(rt: &R, alloc: Global, at: &Front, talk: Talk) -> bool
where
    R: Files + AllocGlobal + Net<Listener = TcpListener, Stream = TcpStream> + Clock,
{
    wait_for_server(rt, alloc, at);
    let is_well = match talk {
        Talk::Crowd => crowd(rt, alloc, at),
        Talk::Cut => cut(rt, alloc, at),
        Talk::Vanished => vanished(rt, alloc, at),
        Talk::Waits => waits(rt, alloc, at),
        Talk::Abandoned(way_out) => abandoned(rt, alloc, at, way_out),
        other => {
            let is_well = talk_to_end(rt, alloc, at, other) == Some(true);
            if !is_well {
                let _ = ask(rt, alloc, at, &["stop"]);
            }
            return is_well;
        }
    };
    comes(rt, alloc, at, &["stop"], (0, DONE)) && is_well == Some(true)
}
