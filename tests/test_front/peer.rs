//! A connection that is kept, and what it asks step by step.

use crate::lines::LOOKS;
use fm_cli::{Front, request_of};
use fm_types::limits::CONNECTIONS;
use fm_wire::encode;
use std::alloc::Global;
use std::io::{Read, Write};
use std::net::{Net, TcpListener, TcpStream};
use std::os::unix::net::UnixStream;
use std::thread;
use std::time::{Clock, Duration};

/// Which connection asks, the words of its request, and the reply: its status, what it says beside it, and its bytes.
pub type Step = (usize, &'static [&'static str], u8, u64, &'static [u8]);

/// The code of a reply.
const REPLY: u8 = 128;

/// Sends a request.
pub fn send(alloc: Global, stream: &UnixStream, words: &[&str]) -> Option<()> {
    let request = request_of(alloc, words).ok()?;
    let text = encode(alloc, &request).ok()?;
    let mut writer = stream;
    writer.write_all(text.as_slice()).ok()
}

/// Takes the reply to request 1: its status, what it says beside it, and its bytes.
pub fn take(alloc: Global, stream: &UnixStream) -> Option<(u8, u64, Vec<u8>)> {
    let mut head = [0; 18];
    let mut reader = stream;
    reader.read_exact(&mut head).ok()?;
    let length = u32::from_be_bytes([head[0], head[1], head[2], head[3]]);
    let number = u32::from_be_bytes([head[5], head[6], head[7], head[8]]);
    if head[4] != REPLY || number != 1 {
        return None;
    }
    let count = usize::try_from(length).ok()?.checked_sub(14)?;
    let mut bytes = vec![in alloc; 0u8; count].ok()?;
    reader.read_exact(bytes.as_mut_slice()).ok()?;
    let information = u64::from_be_bytes([
        head[10], head[11], head[12], head[13], head[14], head[15], head[16], head[17],
    ]);
    Some((head[9], information, bytes))
}

/// Sends a request, and takes its reply.
pub fn exchange(alloc: Global, stream: &UnixStream, words: &[&str]) -> Option<(u8, u64, Vec<u8>)> {
    send(alloc, stream, words)?;
    take(alloc, stream)
}

/// A connection that the server has taken: it is tried until it is answered, since one that has just ended may still count.
pub fn taken<R>(rt: &R, alloc: Global, at: &Front) -> Option<UnixStream>
where
    R: Net<Listener = TcpListener, Stream = TcpStream> + Clock,
{
    for _ in 0..LOOKS {
        let stream = UnixStream::connect(rt, at.socket).ok()?;
        if exchange(alloc, &stream, &["list", "0"]).is_some() {
            return Some(stream);
        }
        thread::sleep(rt, Duration::from_millis(1));
    }
    None
}

/// Takes every place that is left: by then the threads of all clients that are gone have come to their ends.
pub fn take_places<R>(rt: &R, alloc: Global, at: &Front, streams: &mut Vec<UnixStream>) -> Option<()>
where
    R: Net<Listener = TcpListener, Stream = TcpStream> + Clock,
{
    for _ in streams.len()..CONNECTIONS {
        streams.push(taken(rt, alloc, at)?).ok()?;
    }
    Some(())
}

/// Whether a request is done, and its reply says no more.
pub fn is_done(alloc: Global, stream: &UnixStream, words: &[&str]) -> bool {
    match exchange(alloc, stream, words) {
        Some((status, information, bytes)) => status == 0 && information == 0 && bytes.is_empty(),
        None => false,
    }
}

/// Whether each step is answered as it should be. The first that isn't ends it.
pub fn follow(alloc: Global, streams: &[UnixStream], steps: &[Step]) -> bool {
    for (who, words, status, information, bytes) in steps {
        let Some(stream) = streams.get(*who) else {
            return false;
        };
        let Some(told) = exchange(alloc, stream, words) else {
            return false;
        };
        if told.0 != *status || told.1 != *information || told.2.as_slice() != *bytes {
            return false;
        }
    }
    true
}
