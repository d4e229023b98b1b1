//! Requests as data, and what they are answered.

use fm_callback_data::{FileRequest, Reply, Request};
use fm_types::{Bytes, CreateMode, HandleId, RelPath, SharedPath, Status, VolumeId};
use std::alloc::Global;
use std::process::Abort;

/// The volume of the requests that don't say otherwise.
pub const VOLUME: VolumeId = VolumeId(0);

/// The other volume.
pub const OTHER: VolumeId = VolumeId(1);

/// What is asked: of the volume, or on a handle.
#[derive(Clone, Copy)]
pub enum Ask<'a> {
    Create(&'a [u8]),
    List,
    /// The same of the other volume.
    CreateThere(&'a [u8]),
    ListThere,
    Read(u64, u64, u32),
    Write(u64, u64, &'a [u8]),
    Size(u64),
    SetSize(u64, u64),
    Flush(u64),
    Delete(u64),
    Close(u64),
}

/// What it is answered: status, information and bytes, or that a filter holds that operation.
#[derive(Clone, Copy)]
pub enum Told<'a> {
    Done(Status, u64, &'a [u8]),
    Held(u64),
}

/// A request, and its reply.
pub type Line<'a> = (Ask<'a>, Told<'a>);

/// A success that says no more.
pub const DONE: Told = Told::Done(Status::Success, 0, b"");

/// The request.
pub fn request_of(rt: &impl Abort, alloc: Global, ask: Ask) -> Request {
    let (handle, request) = match ask {
        Ask::Create(path) => return create_of(rt, alloc, VOLUME, path),
        Ask::List => return Request::List { volume: VOLUME },
        Ask::CreateThere(path) => return create_of(rt, alloc, OTHER, path),
        Ask::ListThere => return Request::List { volume: OTHER },
        Ask::Read(handle, offset, len) => (handle, FileRequest::Read { offset, len }),
        Ask::Write(handle, offset, text) => {
            let bytes = Bytes::copy_of(alloc, text).expect(rt, "memory");
            (handle, FileRequest::Write { offset, bytes })
        }
        Ask::Size(handle) => (handle, FileRequest::QuerySize),
        Ask::SetSize(handle, size) => (handle, FileRequest::SetSize { size }),
        Ask::Flush(handle) => (handle, FileRequest::Flush),
        Ask::Delete(handle) => (handle, FileRequest::SetDelete),
        Ask::Close(handle) => (handle, FileRequest::Close),
    };
    Request::OnHandle {
        handle: HandleId(handle),
        request,
    }
}

fn create_of(rt: &impl Abort, alloc: Global, volume: VolumeId, path: &[u8]) -> Request {
    let path = RelPath::read(path).expect(rt, "a path");
    Request::Create {
        volume,
        path: SharedPath::new(alloc, path).expect(rt, "memory"),
        mode: CreateMode::Always,
    }
}

// Whether a reply is the one wanted.
fn is_told(reply: &Reply, wanted: Told) -> bool {
    match reply {
        Reply::Done {
            status,
            information,
            bytes,
        } => match wanted {
            Told::Done(wanted, count, text) => {
                *status == wanted && *information == count && bytes.as_slice() == text
            }
            Told::Held(_) => false,
        },
        Reply::Held(operation) => match wanted {
            Told::Done(..) => false,
            Told::Held(number) => operation.0 == number,
        },
    }
}

/// Sees to it that a reply is the one wanted.
pub fn see(rt: &impl Abort, reply: &Reply, wanted: Told) {
    assert!(rt; is_told(reply, wanted));
}
