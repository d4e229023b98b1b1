//! Conversations over a socket: what clients are told, and what the server says at its end.

use crate::lines::{DISMOUNT, FILTERS, LOADED, ROUND};
use crate::talks::{Talk, converse};
use fm_cli::{Fault, Front};
use fm_socket::{Endpoint, Folder, front, front_with, prepare};
use own_filter::filters;
use std::alloc::{AllocError, Global};
use std::net::{Net, TcpListener, TcpStream};
use std::rt::Files;
use std::sync::Wait;
use std::thread::Threads;
use std::time::Clock;
use std::{env, fs, thread};

/// What a server prints.
const ENDED: &str = "ready\nborn 0 cleaned 0 leaks 0\n";

/// What the server of own filters prints, one of which kept a context.
const OWN_ENDED: &str = "ready\nborn 1 cleaned 1 leaks 0\n";

/// A place that is served, and with whose filters.
#[derive(Clone, Copy)]
struct Served<'a> {
    rt: &'a HostRuntime,
    test: &'a str,
    is_own: bool,
}

// What a server does, by the samples or by own filters.
fn run<R>(
    rt: &R,
    alloc: Global,
    is_own: bool,
    endpoint: Result<Endpoint<Folder<HostRuntime>>, Fault>,
    out: &mut Vec<u8>,
) -> u8
where
    R: Threads + Wait + Sync + Clock,
{
    if is_own {
        front_with(rt, alloc, filters(alloc), endpoint, out)
    } else {
        front(rt, alloc, endpoint, out)
    }
}

// A server of two workers, and its client: whether the client was told what it should be, and how the server ended.
fn meet<R>(
    rt: &R,
    alloc: Global,
    at: &Front,
    is_own: bool,
    endpoint: Result<Endpoint<Folder<HostRuntime>>, Fault>,
    talk: Talk,
) -> (bool, u8, Vec<u8>)
where
    R: Files
        + AllocGlobal
        + Threads
        + Wait
        + Sync
        + Clock
        + Net<Listener = TcpListener, Stream = TcpStream>,
{
    let mut printed = Vec::new(alloc);
    let (status, is_well) = thread::join(
        rt,
        || run(rt, alloc, is_own, endpoint, &mut printed),
        || converse(rt, alloc, at, talk),
    );
    (is_well, status, printed)
}

/// A new folder of the host, with a folder in it to serve.
pub fn folder_for(rt: &HostRuntime, test: &str) -> Option<String> {
    let place = env::temp_dir(rt).ok()?;
    let number = std::process::id(rt.process());
    let folder = format!(in rt.alloc();
        "{}/kazdrin-{test}-{number}",
        place.as_path().display()
    ).ok()?;
    let _ = fs::remove_dir_all(rt, folder.as_str());
    fs::create_dir(rt, folder.as_str()).ok()?;
    Some(folder)
}

/// The path of what has that name in a folder. Fails if memory is refused.
pub fn inside(rt: &HostRuntime, folder: &str, name: &str) -> Result<String, AllocError> {
    format!(in rt.alloc(); "{folder}/{name}")
}

// What a conversation comes to at a server with these filters: whether it goes as it should and the server ends with status 0, and what the server prints.
fn serve<R>(host: &R, served: &Served, talk: Talk) -> Option<(bool, Vec<u8>)>
where
    R: Files
        + AllocGlobal
        + Threads
        + Wait
        + Sync
        + Clock
        + Net<Listener = TcpListener, Stream = TcpStream>,
{
    let rt = served.rt;
    let place = folder_for(rt, served.test)?;
    let folder = inside(rt, place.as_str(), "files").ok()?;
    let socket = inside(rt, place.as_str(), "socket").ok()?;
    fs::create_dir(rt, folder.as_str()).ok()?;
    let at = Front {
        folder: folder.as_str(),
        socket: socket.as_str(),
        workers: 2,
    };
    let (is_well, status, printed) = meet(
        host,
        rt.alloc(),
        &at,
        served.is_own,
        prepare(rt, rt.alloc(), &at),
        talk,
    );
    let _ = fs::remove_dir_all(rt, place.as_str());
    Some((is_well && status == 0, printed))
}

// Whether a conversation goes as it should at a server of the samples, which ends with status 0 and says so.
fn goes_well<R>(host: &R, rt: &HostRuntime, test: &str, talk: Talk) -> Option<bool>
where
    R: Files
        + AllocGlobal
        + Threads
        + Wait
        + Sync
        + Clock
        + Net<Listener = TcpListener, Stream = TcpStream>,
{
    let is_own = false;
    let (is_well, printed) = serve(host, &Served { rt, test, is_own }, talk)?;
    Some(is_well && printed.as_slice() == ENDED.as_bytes())
}

#[test]
fn socket_round(rt: HostRuntime) {
    assert!(rt; goes_well(&rt, &rt, "round", Talk::Lines(&ROUND)) == Some(true));
}

#[test]
fn filters_over_a_socket(rt: HostRuntime) {
    assert!(rt; goes_well(&rt, &rt, "filters", Talk::Lines(&FILTERS)) == Some(true));
}

#[test]
fn a_stop_unloads_every_filter(rt: HostRuntime) {
    assert!(rt; goes_well(&rt, &rt, "loaded", Talk::Lines(&LOADED)) == Some(true));
}

#[test]
fn dismounted_once(rt: HostRuntime) {
    assert!(rt; goes_well(&rt, &rt, "dismount", Talk::Lines(&DISMOUNT)) == Some(true));
}

#[test]
fn no_more_than_32_connections(rt: HostRuntime) {
    assert!(rt; goes_well(&rt, &rt, "crowd", Talk::Crowd) == Some(true));
}

#[test]
fn a_cut_connection_closes_its_handles(rt: HostRuntime) {
    assert!(rt; goes_well(&rt, &rt, "cut", Talk::Cut) == Some(true));
}

#[test]
fn all_requests_by_two_connections(rt: HostRuntime) {
    assert!(rt; goes_well(&rt, &rt, "pair", Talk::Pair) == Some(true));
}

#[test]
fn a_refused_create_gives_no_handle(rt: HostRuntime) {
    assert!(rt; goes_well(&rt, &rt, "refused", Talk::Refused) == Some(true));
}

// Whether a conversation with the server of own filters went well, and the server said so.
fn is_own_end(told: Option<(bool, Vec<u8>)>) -> bool {
    match told {
        Some((is_well, printed)) => is_well && printed.as_slice() == OWN_ENDED.as_bytes(),
        None => false,
    }
}

#[test]
fn own_filters_over_a_socket(rt: HostRuntime) {
    let served = Served {
        rt: &rt,
        test: "own",
        is_own: true,
    };
    assert!(rt; is_own_end(serve(&rt, &served, Talk::Own)));
}

#[test]
fn a_dismount_closes_handles(rt: HostRuntime) {
    assert!(rt; goes_well(&rt, &rt, "dismounted", Talk::Dismounted) == Some(true));
}

#[test]
fn a_stop_without_the_sockets_file(rt: HostRuntime) {
    assert!(rt; goes_well(&rt, &rt, "removed", Talk::Removed) == Some(true));
}

#[test]
fn a_client_that_leaves_its_read(rt: HostRuntime) {
    assert!(rt; goes_well(&rt, &rt, "vanished", Talk::Vanished) == Some(true));
}

#[test]
fn a_stop_in_a_begun_dismount(rt: HostRuntime) {
    assert!(rt; goes_well(&rt, &rt, "begun", Talk::Begun) == Some(true));
}

#[test]
fn a_held_read_waits_for_a_flush(rt: HostRuntime) {
    assert!(rt; goes_well(&rt, &rt, "waits", Talk::Waits) == Some(true));
}

#[test]
fn a_flush_lets_abandoned_reads_go(rt: HostRuntime) {
    let talk = Talk::Abandoned(&["flush", "0"]);
    assert!(rt; goes_well(&rt, &rt, "flushed", talk) == Some(true));
}

#[test]
fn a_detach_lets_abandoned_reads_go(rt: HostRuntime) {
    let talk = Talk::Abandoned(&["detach", "0"]);
    assert!(rt; goes_well(&rt, &rt, "detached", talk) == Some(true));
}

// What a server prints that can't serve, and its exit status.
fn refuses<R>(
    host: &R,
    alloc: Global,
    endpoint: Result<Endpoint<Folder<HostRuntime>>, Fault>,
) -> (u8, Vec<u8>)
where
    R: Threads + Wait + Sync + Clock + Net<Listener = TcpListener, Stream = TcpStream>,
{
    let mut printed = Vec::new(alloc);
    let status = front(host, alloc, endpoint, &mut printed);
    (status, printed)
}

#[test]
fn no_folder_and_no_new_socket(rt: HostRuntime) {
    let place = folder_for(&rt, "faults").expect(&rt, "a new folder");
    let missing = inside(&rt, place.as_str(), "missing").expect(&rt, "memory");
    for (folder, socket) in [
        (missing.as_str(), "/nowhere/socket"),
        (place.as_str(), place.as_str()),
        (place.as_str(), "/nowhere/socket"),
        (place.as_str(), ""),
    ] {
        let at = Front {
            folder,
            socket,
            workers: 1,
        };
        let (status, printed) = refuses(&rt, rt.alloc(), prepare(&rt, rt.alloc(), &at));
        assert!(rt; status == 3 && printed.as_slice() == b"fault\n".as_slice());
    }
    let _ = fs::remove_dir_all(&rt, place.as_str());
}
