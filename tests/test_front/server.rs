//! A server in a thread beside the clients that talk with it.

use crate::holder::holders;
use crate::lines::{DONE, comes, wait_for_server};
use fm_cli::Front;
use fm_socket::{front, front_with, prepare};
use std::alloc::{AllocError, Global};
use std::net::{Net, TcpListener, TcpStream};
use std::rt::Files;
use std::sync::Wait;
use std::thread::Threads;
use std::time::Clock;
use std::{env, fs, thread};

/// What a server prints that ends well.
const ENDED: &[u8] = b"ready\nborn 0 cleaned 0 leaks 0\n";

/// Clients of a server: whether they were told what they should be.
pub type Talk<R> = fn(&R, Global, &Front) -> Option<bool>;

/// Whose filters a server has ready, and how many workers.
#[derive(Clone, Copy)]
pub enum Filters {
    /// The samples, and two workers.
    Samples,
    /// Those that hold creates, and two workers.
    Holders,
    /// The same, and one worker.
    Single,
}

// The path of what has that name in a folder.
fn inside(rt: &HostRuntime, folder: &str, name: &str) -> Result<String, AllocError> {
    format!(in rt.alloc(); "{folder}/{name}")
}

// A new folder of the host, with a folder in it to serve: both.
fn folders_for(rt: &HostRuntime, test: &str) -> Option<(String, String)> {
    let place = env::temp_dir(rt).ok()?;
    let number = std::process::id(rt.process());
    let folder = format!(in rt.alloc();
        "{}/kazdrin-{test}-{number}",
        place.as_path().display()
    ).ok()?;
    let _ = fs::remove_dir_all(rt, folder.as_str());
    fs::create_dir(rt, folder.as_str()).ok()?;
    let files = inside(rt, folder.as_str(), "files").ok()?;
    fs::create_dir(rt, files.as_str()).ok()?;
    Some((folder, files))
}

// The clients of a server, which is stopped in any case.
fn converse<R>(rt: &R, alloc: Global, at: &Front, talk: Talk<R>) -> bool
where
    R: Net<Listener = TcpListener, Stream = TcpStream> + Clock,
{
    wait_for_server(rt, alloc, at);
    let is_well = talk(rt, alloc, at);
    comes(rt, alloc, at, &["stop"], (0, DONE)) && is_well == Some(true)
}

/// Whether the clients of a server are told what they should be, and it ends as it should.
pub fn goes_well<R>(
    host: &R,
    rt: &HostRuntime,
    test: &str,
    filters: Filters,
    talk: Talk<R>,
) -> Option<bool>
where
    R: Files
        + AllocGlobal
        + Threads
        + Wait
        + Sync
        + Clock
        + Net<Listener = TcpListener, Stream = TcpStream>,
{
    let (place, folder) = folders_for(rt, test)?;
    let socket = inside(rt, place.as_str(), "socket").ok()?;
    let at = Front {
        folder: folder.as_str(),
        socket: socket.as_str(),
        workers: if matches!(filters, Filters::Single) { 1 } else { 2 },
    };
    let alloc = rt.alloc();
    let endpoint = prepare(rt, alloc, &at);
    let mut printed = Vec::new(alloc);
    let (status, is_well) = thread::join(
        host,
        || match filters {
            Filters::Samples => front(host, alloc, endpoint, &mut printed),
            Filters::Holders | Filters::Single => {
                front_with(host, alloc, holders(alloc), endpoint, &mut printed)
            }
        },
        || converse(host, alloc, &at, talk),
    );
    let _ = fs::remove_dir_all(rt, place.as_str());
    Some(is_well && status == 0 && printed.as_slice() == ENDED)
}
