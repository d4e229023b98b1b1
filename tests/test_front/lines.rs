//! Requests that each are a connection of their own, as the client program makes them.

use fm_cli::Front;
use fm_socket::client;
use std::alloc::Global;
use std::net::{Net, TcpListener, TcpStream};
use std::thread;
use std::time::{Clock, Duration};

/// How often the client looks whether the server is there, a millisecond apart.
pub const LOOKS: u32 = 20_000;

/// The words of a request, its exit status, and what the client prints.
pub type Line = (&'static [&'static str], u8, &'static str);

/// What the client prints where all is done, and nothing more is said.
pub const DONE: &str = "status 0 info 0 bytes -\n";

/// Requests of an empty folder, one a connection.
pub const ROUND: [Line; 4] = [
    (&["list", "0"], 0, DONE),
    (&["create", "0", "always", "x"], 0, DONE),
    (&["load", "nosuch"], 4, "status 6 info 0 bytes -\n"),
    (&["stop"], 0, DONE),
];

/// A filter comes and goes, and a handle of one connection is none of another.
pub const FILTERS: [Line; 8] = [
    (&["load", "shift"], 0, DONE),
    (&["attach", "0", "0", "s", "100.5"], 0, DONE),
    (
        &["attach", "0", "0", "t", "100.50"],
        4,
        "status 5 info 0 bytes -\n",
    ),
    (&["create", "0", "new", "x"], 0, DONE),
    (&["read", "0", "0", "1"], 4, "status 14 info 0 bytes -\n"),
    (&["detach", "0"], 0, DONE),
    (&["unload", "0"], 0, DONE),
    (&["stop"], 0, DONE),
];

/// What is loaded and attached when the server is stopped.
pub const LOADED: [Line; 3] = [
    (&["load", "shift"], 0, DONE),
    (&["attach", "0", "0", "s", "100"], 0, DONE),
    (&["stop"], 0, DONE),
];

/// A volume is dismounted once.
pub const DISMOUNT: [Line; 4] = [
    (&["dismount", "0"], 0, DONE),
    (&["dismount", "0"], 4, "status 33 info 0 bytes -\n"),
    (&["list", "0"], 4, "status 33 info 0 bytes -\n"),
    (&["stop"], 0, DONE),
];

/// One request: the client's exit status, and what it prints.
pub fn ask<R>(rt: &R, alloc: Global, at: &Front, words: &[&str]) -> (u8, Vec<u8>)
where
    R: Net<Listener = TcpListener, Stream = TcpStream>,
{
    let mut printed = Vec::new(alloc);
    let status = client(rt, alloc, at.socket, words, &mut printed);
    (status, printed)
}

/// Waits until the server answers.
pub fn wait_for_server<R>(rt: &R, alloc: Global, at: &Front)
where
    R: Net<Listener = TcpListener, Stream = TcpStream> + Clock,
{
    for _ in 0..LOOKS {
        if ask(rt, alloc, at, &["list", "0"]).0 != 3 {
            return;
        }
        thread::sleep(rt, Duration::from_millis(1));
    }
}

/// Whether each request is answered as it should be. All are made in any case, so that the server ends.
pub fn ask_all<R>(rt: &R, alloc: Global, at: &Front, lines: &[Line]) -> bool
where
    R: Net<Listener = TcpListener, Stream = TcpStream>,
{
    let mut is_well = true;
    for (words, status, printed) in lines {
        let told = ask(rt, alloc, at, words);
        if told.0 != *status || told.1.as_slice() != printed.as_bytes() {
            is_well = false;
        }
    }
    is_well
}

/// Asks until the answer is the one that is waited for. Whether it came.
pub fn comes<R>(rt: &R, alloc: Global, at: &Front, words: &[&str], answer: (u8, &str)) -> bool
where
    R: Net<Listener = TcpListener, Stream = TcpStream> + Clock,
{
    for _ in 0..LOOKS {
        let (status, printed) = ask(rt, alloc, at, words);
        if status == answer.0 && printed.as_slice() == answer.1.as_bytes() {
            return true;
        }
        thread::sleep(rt, Duration::from_millis(1));
    }
    false
}
