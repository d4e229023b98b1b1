//! Servers that answer as none may: the client takes nothing but one reply to its own request.

use crate::lines::{DONE, ask};
use crate::sockets::{folder_for, inside};
use fm_cli::Front;
use std::alloc::Global;
use std::io::{Read, Write};
use std::net::{Net, TcpListener, TcpStream};
use std::os::unix::net::UnixListener;
use std::sync::Wait;
use std::thread::Threads;
use std::{fs, thread};

/// What is sent back, the client's exit status, and what it prints.
type Fake = (&'static [u8], u8, &'static str);

const FAULT: &str = "fault\n";

const FAKES: [Fake; 9] = [
    // A reply of request 1.
    (b"\0\0\0\x0e\x80\0\0\0\x01\0\0\0\0\0\0\0\0\0", 0, DONE),
    // The same of request 2, and of request 0.
    (b"\0\0\0\x0e\x80\0\0\0\x02\0\0\0\0\0\0\0\0\0", 3, FAULT),
    (b"\0\0\0\x0e\x80\0\0\0\0\0\0\0\0\0\0\0\0\0", 3, FAULT),
    // A byte behind it, and a second reply.
    (b"\0\0\0\x0e\x80\0\0\0\x01\0\0\0\0\0\0\0\0\0\0", 3, FAULT),
    (
        b"\0\0\0\x0e\x80\0\0\0\x01\0\0\0\0\0\0\0\0\0\0\0\0\x0e\x80\0\0\0\x02\0\0\0\0\0\0\0\0\0",
        3,
        FAULT,
    ),
    // An operation that is held, and a request.
    (b"\0\0\0\x0d\x81\0\0\0\x01\0\0\0\0\0\0\0\0", 3, FAULT),
    (b"\0\0\0\x05\x15\0\0\0\x01", 3, FAULT),
    // A length that none has, and half a frame.
    (b"\0\0\0\x04\x80\0\0\0", 3, FAULT),
    (b"\0\0\0\x0e\x80\0\0\0\x01", 3, FAULT),
];

// Takes one connection and a request of it, and sends that back.
fn answer(listener: &UnixListener, bytes: &[u8]) -> Option<()> {
    let (stream, _) = listener.accept().ok()?;
    let (mut reader, mut writer) = (&stream, &stream);
    let mut request = [0; 9];
    reader.read_exact(&mut request).ok()?;
    writer.write_all(bytes).ok()
}

// Whether the client says what it should of each answer.
fn fakes_go<R>(rt: &R, alloc: Global, at: &Front, listener: &UnixListener) -> bool
where
    R: Threads + Wait + Sync + Net<Listener = TcpListener, Stream = TcpStream>,
{
    for (bytes, status, printed) in &FAKES {
        let (sent, told) = thread::join(
            rt,
            || answer(listener, bytes),
            || ask(rt, alloc, at, &["stop"]),
        );
        if sent.is_none() || told.0 != *status || told.1.as_slice() != printed.as_bytes() {
            return false;
        }
    }
    true
}

#[test]
fn only_its_own_reply_is_taken(rt: HostRuntime) {
    let place = folder_for(&rt, "fakes").expect(&rt, "a new folder");
    let socket = inside(&rt, place.as_str(), "socket").expect(&rt, "memory");
    let listener = UnixListener::bind(&rt, socket.as_str()).expect(&rt, "a socket");
    let at = Front {
        folder: place.as_str(),
        socket: socket.as_str(),
        workers: 1,
    };
    assert!(rt; fakes_go(&rt, rt.alloc(), &at, &listener));
    let _ = fs::remove_dir_all(&rt, place.as_str());
}
