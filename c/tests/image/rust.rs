//! A driver in Rust, without its standard library: a structure for each stream in a context, with atomic counts.
#![no_std]
#![no_main]
#![allow(non_snake_case)]

use core::ffi::c_void;
use core::ptr::{null, null_mut};
use core::sync::atomic::{AtomicPtr, AtomicU32, Ordering};

type Status = i32;
type Pre = unsafe extern "system" fn(*mut CallbackData, *const RelatedObjects, *mut *mut c_void) -> u32;
type Post = unsafe extern "system" fn(*mut CallbackData, *const RelatedObjects, *mut c_void, u32) -> u32;

#[repr(C)]
pub struct IoParameterBlock {
    irp_flags: u32,
    major: u8,
    minor: u8,
    operation_flags: u8,
    reserved: u8,
    target_file: *mut c_void,
    target_instance: *mut c_void,
    parameters: [u64; 6],
}
#[repr(C)]
pub struct CallbackData {
    flags: u32,
    thread: *mut c_void,
    iopb: *mut IoParameterBlock,
    status: Status,
    information: u64,
}
#[repr(C)]
pub struct RelatedObjects {
    size: u16,
    transaction_context: u16,
    filter: *mut c_void,
    volume: *mut c_void,
    instance: *mut c_void,
    file: *mut c_void,
    transaction: *mut c_void,
}
#[repr(C)]
struct Operation {
    major: u8,
    flags: u32,
    pre: Option<Pre>,
    post: Option<Post>,
    reserved: *const c_void,
}
#[repr(C)]
struct Context {
    kind: u16,
    flags: u16,
    cleanup: Option<unsafe extern "system" fn(*mut c_void, u16)>,
    size: u64,
    tag: u32,
    allocate: *const c_void,
    free: *const c_void,
    reserved: *const c_void,
}
#[repr(C)]
struct Registration {
    size: u16,
    version: u16,
    flags: u32,
    contexts: *const Context,
    operations: *const Operation,
    unload: Option<unsafe extern "system" fn(u32) -> Status>,
    others: [*const c_void; 10],
}
unsafe impl Sync for Operation {}
unsafe impl Sync for Context {}

extern "system" {
    fn FltRegisterFilter(driver: *mut c_void, registration: *const Registration, filter: *mut *mut c_void) -> Status;
    fn FltStartFiltering(filter: *mut c_void) -> Status;
    fn FltUnregisterFilter(filter: *mut c_void);
    fn FltAllocateContext(filter: *mut c_void, kind: u16, size: u64, pool: u32, made: *mut *mut c_void) -> Status;
    fn FltSetStreamContext(instance: *mut c_void, file: *mut c_void, how: u32, new: *mut c_void, old: *mut *mut c_void) -> Status;
    fn FltGetStreamContext(instance: *mut c_void, file: *mut c_void, found: *mut *mut c_void) -> Status;
    fn FltReleaseContext(context: *mut c_void);
}
extern "C" {
    fn DbgPrint(format: *const u8, ...) -> u32;
}

struct Stream {
    writes: AtomicU32,
    bytes: AtomicU32,
}

static FILTER: AtomicPtr<c_void> = AtomicPtr::new(null_mut());
const STREAM: u16 = 8;

unsafe extern "system" fn cleanup(context: *mut c_void, _: u16) {
    let stream = &*(context as *const Stream);
    DbgPrint(b"rust: %u writes, %u bytes\n\0".as_ptr(), stream.writes.load(Ordering::SeqCst), stream.bytes.load(Ordering::SeqCst));
}

unsafe extern "system" fn post_create(data: *mut CallbackData, objects: *const RelatedObjects, _: *mut c_void, flags: u32) -> u32 {
    let mut made = null_mut();
    if flags & 1 == 0 && (*data).status >= 0 && FltAllocateContext(FILTER.load(Ordering::SeqCst), STREAM, core::mem::size_of::<Stream>() as u64, 0, &mut made) >= 0 {
        (made as *mut Stream).write(Stream { writes: AtomicU32::new(0), bytes: AtomicU32::new(0) });
        FltSetStreamContext((*objects).instance, (*objects).file, 1, made, null_mut());
        FltReleaseContext(made);
    }
    0
}

unsafe extern "system" fn pre_write(data: *mut CallbackData, objects: *const RelatedObjects, _: *mut *mut c_void) -> u32 {
    let mut found = null_mut();
    if FltGetStreamContext((*objects).instance, (*objects).file, &mut found) >= 0 {
        let stream = &*(found as *const Stream);
        stream.writes.fetch_add(1, Ordering::SeqCst);
        stream.bytes.fetch_add((*(*data).iopb).parameters[0] as u32, Ordering::SeqCst);
        FltReleaseContext(found);
    }
    1
}

unsafe extern "system" fn unload(_: u32) -> Status {
    FltUnregisterFilter(FILTER.load(Ordering::SeqCst));
    0
}

static OPERATIONS: [Operation; 3] = [
    Operation { major: 0, flags: 0, pre: None, post: Some(post_create), reserved: null() },
    Operation { major: 4, flags: 0, pre: Some(pre_write), post: None, reserved: null() },
    Operation { major: 0x80, flags: 0, pre: None, post: None, reserved: null() },
];
static CONTEXTS: [Context; 2] = [
    Context { kind: STREAM, flags: 0, cleanup: Some(cleanup), size: 8, tag: 0x74737552, allocate: null(), free: null(), reserved: null() },
    Context { kind: 0xffff, flags: 0, cleanup: None, size: 0, tag: 0, allocate: null(), free: null(), reserved: null() },
];

#[no_mangle]
pub unsafe extern "system" fn DriverEntry(driver: *mut c_void, _: *mut c_void) -> Status {
    let registration = Registration { size: 0x70, version: 0x203, flags: 0, contexts: CONTEXTS.as_ptr(), operations: OPERATIONS.as_ptr(), unload: Some(unload), others: [null(); 10] };
    let mut filter = null_mut();
    let status = FltRegisterFilter(driver, &registration, &mut filter);
    FILTER.store(filter, Ordering::SeqCst);
    if status < 0 {
        return status;
    }
    FltStartFiltering(filter)
}

#[panic_handler]
fn panic(_: &core::panic::PanicInfo) -> ! {
    loop {}
}
