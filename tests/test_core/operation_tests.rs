//! Two hundred operations on one file, through eight instances that change what is written on its way down and put it back on the way up; and
//! the longest write.

use crate::events::WORKER;
use crate::lines::{FILTER, MOUNTED, REGISTERED, go_through};
use fm_altitude::Altitude;
use fm_base::{Base, MemoryBase};
use fm_core::{Action, State};
use fm_callback_data::{
    Answer, BaseCall, CallbackData, Completion, FileRequest, Params, PostVerdict, PreVerdict,
    Request,
};
use fm_types::{
    Bytes, CreateMode, HandleId, InstanceId, Name, OpId, Operation, RelPath, SharedPath, Status,
    VolumeId,
};
use std::alloc::Global;
use std::process::Abort;

const VOLUME: VolumeId = VolumeId(0);

const PATH: &[u8] = b"folder/file";

// How many operations are run.
const OPERATIONS: u8 = 200;

// The names and the altitudes of the instances, in the order of their numbers.
const INSTANCES: &[(&[u8], &[u8])] = &[
    (b"a", b"100"),
    (b"b", b"300"),
    (b"c", b"200.5"),
    (b"d", b"400"),
    (b"e", b"200.25"),
    (b"f", b"50"),
    (b"g", b"350.125"),
    (b"h", b"320"),
];

// The call of the base, among the numbers of instances.
const DEVICE: u16 = 99;

// The way of each operation here: the instances from the highest altitude down, the base, and the instances from the lowest up.
const WAY: &[u16] = &[3, 6, 7, 1, 2, 4, 0, 5, DEVICE, 5, 0, 4, 2, 1, 7, 6, 3];

// What an instance makes of a byte that is written: three times the byte, and its own number. In another order eight of them make something else.
fn hidden(byte: u8, instance: InstanceId) -> u8 {
    byte.wrapping_mul(3).wrapping_add((instance.0 % 256) as u8)
}

// The byte of which an instance made this: 3 times 171 is 513, which is 1 modulo 256.
fn shown(byte: u8, instance: InstanceId) -> u8 {
    byte.wrapping_sub((instance.0 % 256) as u8)
        .wrapping_mul(171)
}

// What lies in the file for a byte that the client wrote. From the highest instance to the lowest that is
// 3 (3 (3 (3 (3 (3 (3 (3 byte + 3) + 6) + 7) + 1) + 2) + 4) + 0) + 5 = 6561 byte + 12812, and modulo 256 that is 161 byte + 12.
fn stored(byte: u8) -> u8 {
    byte.wrapping_mul(161).wrapping_add(12)
}

// What a preoperation hands on: a number that no other of them has.
fn completion_of(operation: OpId, instance: InstanceId) -> Completion {
    Completion {
        number: operation
            .0
            .wrapping_mul(8)
            .wrapping_add(u64::from(instance.0)),
        context: None,
    }
}

// What a callback sees of an operation's parameters.
#[derive(Drop, PartialEq)]
struct Seen {
    operation: Operation,
    offset: u64,
    len: u64,
    bytes: Vec<u8>,
}

fn look(rt: &impl Abort, alloc: Global, params: &Params) -> Seen {
    let operation = params.operation();
    let (offset, len) = match params {
        Params::Read { offset, len } => (*offset, u64::from(*len)),
        Params::Write { offset, bytes } => (*offset, bytes.len() as u64),
        Params::SetSize { size } => (0, *size),
        _ => (0, 0),
    };
    let bytes = match params {
        Params::Write { bytes, .. } => bytes.as_slice().to_vec(alloc).expect(rt, "memory"),
        _ => Vec::new(alloc),
    };
    Seen {
        operation,
        offset,
        len,
        bytes,
    }
}

// On the way down an instance changes the bytes of a write.
fn hide(rt: &impl Abort, alloc: Global, data: &mut CallbackData, instance: InstanceId) {
    let Params::Write { offset, bytes } = data.params() else {
        return;
    };
    let offset = *offset;
    let mut changed = Vec::new(alloc);
    for byte in bytes.as_slice() {
        changed.push(hidden(*byte, instance)).expect(rt, "memory");
    }
    data.change(Params::Write {
        offset,
        bytes: Bytes::from_vec(changed),
    })
    .expect(rt, "a change");
}

// On the way up an instance changes the bytes of a read back.
fn show(rt: &impl Abort, data: &mut CallbackData, instance: InstanceId) {
    for place in 0..data.out_bytes().len() {
        let byte = data.out_bytes().get(place).copied().expect(rt, "a byte");
        data.map_out(place, shown(byte, instance))
            .expect(rt, "a change");
    }
}

// On the way up an instance changes the parameters of a read too, which no other instance is to see.
fn disturb(rt: &impl Abort, data: &mut CallbackData) {
    let Params::Read { offset, .. } = data.params() else {
        return;
    };
    let offset = *offset;
    data.change(Params::Read { offset, len: 0 })
        .expect(rt, "a change");
}

// The device's answer to a call.
fn call_base(
    rt: &impl Abort,
    alloc: Global,
    base: &mut MemoryBase,
    path: &RelPath,
    call: &Params,
) -> Answer {
    assert!(rt; call.is_within_limits());
    let mut information = 0;
    let mut out = Bytes::new(alloc);
    match call {
        Params::Create { mode, .. } => base.create(path, *mode).expect(rt, "a create"),
        Params::Read { offset, len } => out = base.read(path, *offset, *len).expect(rt, "a read"),
        Params::Write { offset, bytes } => base
            .write(path, *offset, bytes.as_slice())
            .expect(rt, "a write"),
        Params::QuerySize => information = base.size(path).expect(rt, "a size"),
        Params::SetSize { size } => base.set_size(path, *size).expect(rt, "a new size"),
        Params::Flush => base.flush(path).expect(rt, "a flush"),
        _ => panic!(rt; "the base is called for nothing else here"),
    }
    Answer {
        status: Status::Success,
        information,
        bytes: out,
    }
}

// The bytes of the write of that step: three or more, no two neighbours of which are alike.
fn bytes_for(rt: &impl Abort, alloc: Global, step: u8) -> Bytes {
    let mut bytes = Vec::new(alloc);
    for at in 0..3 + u32::from(step) * 29 % 500 {
        let byte = (at % 251) as u8;
        bytes
            .push(byte.wrapping_mul(7).wrapping_add(step))
            .expect(rt, "memory");
    }
    Bytes::from_vec(bytes)
}

// So many bytes, the neighbours of which differ.
fn long_bytes(rt: &impl Abort, alloc: Global, len: u32) -> Bytes {
    let mut bytes = Vec::new(alloc);
    for at in 0..len {
        bytes.push((at % 251) as u8).expect(rt, "memory");
    }
    Bytes::from_vec(bytes)
}

// Notes what the client wrote: over what was there, and on behind its end.
fn note(rt: &impl Abort, written: &mut Vec<u8>, offset: usize, bytes: &[u8]) {
    for (at, byte) in bytes.iter().enumerate() {
        match written.get_mut(offset.saturating_add(at)) {
            Some(place) => *place = *byte,
            None => written.push(*byte).expect(rt, "memory"),
        }
    }
}

fn attach(rt: &impl Abort, state: &mut State, name: &[u8], altitude: &[u8]) {
    let name = Name::read(name).expect(rt, "a name");
    let altitude = Altitude::read(altitude).expect(rt, "an altitude");
    state
        .attach(WORKER, FILTER, VOLUME, name, altitude)
        .expect(rt, "an instance");
    state.setup_done(WORKER, true).expect(rt, "its setup");
}

// A filter that is called for all operations, a volume, and the filter's instances there.
fn set_up(rt: &impl Abort, alloc: Global, state: &mut State) {
    go_through(rt, alloc, state, &[REGISTERED, MOUNTED]);
    for (name, altitude) in INSTANCES {
        attach(rt, state, name, altitude);
    }
}

// Whether the bytes that were read at that place are what the client wrote there, so many or up to the end.
fn are_read(written: &[u8], offset: usize, len: usize, bytes: &[u8]) -> bool {
    let end = offset.saturating_add(len).min(written.len());
    written.get(offset..end) == Some(bytes)
}

// Whether the bytes are what eight instances make of what the client wrote.
fn are_stored(written: &[u8], bytes: &[u8]) -> bool {
    for (at, byte) in written.iter().enumerate() {
        if bytes.get(at).copied() != Some(stored(*byte)) {
            return false;
        }
    }
    bytes.len() == written.len()
}

// A manager with its device, what each callback of the operation under way has seen, and what the client wrote.
#[derive(Drop)]
struct Run {
    alloc: Global,
    state: State,
    base: MemoryBase,
    way: Vec<u16>,
    seen: Vec<(InstanceId, Seen)>,
    written: Vec<u8>,
}

impl Run {
    fn new(rt: &impl Abort, alloc: Global) -> Run {
        let mut state = State::new(alloc).expect(rt, "a state");
        set_up(rt, alloc, &mut state);
        Run {
            alloc,
            state,
            base: MemoryBase::new(alloc),
            way: Vec::new(alloc),
            seen: Vec::new(alloc),
            written: Vec::new(alloc),
        }
    }

    // A preoperation notes what it sees, and asks for its postoperation with a number that no other has.
    fn pre(
        &mut self,
        rt: &impl Abort,
        operation: OpId,
        instance: InstanceId,
        mut data: CallbackData,
    ) {
        let seen = look(rt, self.alloc, data.params());
        self.way.push(instance.0).expect(rt, "memory");
        self.seen.push((instance, seen)).expect(rt, "memory");
        hide(rt, self.alloc, &mut data, instance);
        let verdict = PreVerdict::WithCallback(completion_of(operation, instance));
        let taken = self.state.pre_returned(WORKER, verdict, data);
        assert!(rt; taken.is_ok());
    }

    // The device makes the call.
    fn base(&mut self, rt: &impl Abort, call: BaseCall) {
        let path = call.path().as_ref().expect(rt, "a path").path();
        let answer = call_base(rt, self.alloc, &mut self.base, path, call.params());
        self.way.push(DEVICE).expect(rt, "memory");
        let taken = self.state.base_returned(WORKER, call, answer);
        assert!(rt; taken.is_ok());
    }

    // Whether the instance's preoperation is the last that saw something, and saw the same.
    fn saw(&mut self, instance: InstanceId, seen: Seen) -> bool {
        match self.seen.pop() {
            Some((own, before)) => own == instance && before == seen,
            None => false,
        }
    }

    // A postoperation sees the parameters that its own preoperation received, and not those that it put in their place.
    fn post(
        &mut self,
        rt: &impl Abort,
        operation: OpId,
        instance: InstanceId,
        mut data: CallbackData,
        completion: Completion,
    ) {
        let is_own = completion == completion_of(operation, instance) && !data.is_dirty();
        let seen = look(rt, self.alloc, data.params());
        assert!(rt;
            is_own && self.saw(instance, seen),
            "operation {}",
            operation.0
        );
        self.way.push(instance.0).expect(rt, "memory");
        show(rt, &mut data, instance);
        disturb(rt, &mut data);
        let taken = self
            .state
            .post_returned(WORKER, PostVerdict::Finished, Some(data));
        assert!(rt; taken.is_ok());
    }

    // Takes an operation along its way: each turn is a callback or a call of the base.
    fn carry(&mut self, rt: &impl Abort, operation: OpId) {
        for _ in 0..WAY.len() {
            match self.state.next(WORKER, operation).expect(rt, "an action") {
                Action::Pre(instance, data) => self.pre(rt, operation, instance, data),
                Action::Base(call) => self.base(rt, call),
                Action::Post(instance, data, completion) => self.post(
                    rt, operation, instance, data, completion,
                ),
                _ => panic!(rt; "operation {} is called for nothing else", operation.0),
            }
        }
    }

    fn is_done(&mut self, operation: OpId) -> bool {
        matches!(self.state.next(WORKER, operation), Ok(Action::Done))
    }

    // Takes an operation to its end.
    fn run(&mut self, rt: &impl Abort, what: Request) -> Answer {
        let operation = self.state.begin(what).expect(rt, "an operation");
        self.way.clear();
        self.carry(rt, operation);
        let is_whole = self.way.as_slice() == WAY && self.is_done(operation);
        let answer = self.state.collect(operation).expect(rt, "an answer");
        let is_well = is_whole && answer.status == Status::Success;
        assert!(rt; is_well, "operation {}", operation.0);
        answer
    }

    // Opens the file; what the answer tells.
    fn create(&mut self, rt: &impl Abort) -> u64 {
        let path = RelPath::read(PATH).expect(rt, "a path");
        let create = Request::Create {
            volume: VOLUME,
            path: SharedPath::new(self.alloc, path).expect(rt, "memory"),
            mode: CreateMode::New,
        };
        self.run(rt, create).information
    }

    // Runs an operation on the file's only handle.
    fn ask(&mut self, rt: &impl Abort, request: FileRequest) -> Answer {
        self.run(
            rt,
            Request::OnHandle {
                handle: HandleId(0),
                request,
            },
        )
    }

    // What its answer tells.
    fn told(&mut self, rt: &impl Abort, request: FileRequest) -> u64 {
        self.ask(rt, request).information
    }

    // Whether as many bytes are written as there are.
    fn write(&mut self, rt: &impl Abort, offset: usize, bytes: Bytes) -> bool {
        let len = bytes.len() as u64;
        note(rt, &mut self.written, offset, bytes.as_slice());
        let offset = offset as u64;
        self.told(rt, FileRequest::Write { offset, bytes }) == len
    }

    // Whether what is read is what the client wrote.
    fn read(&mut self, rt: &impl Abort, offset: usize, len: u32) -> bool {
        let read = FileRequest::Read {
            offset: offset as u64,
            len,
        };
        let answer = self.ask(rt, read);
        let bytes = answer.bytes.as_slice();
        are_read(&self.written, offset, len as usize, bytes)
            && answer.information == bytes.len() as u64
    }

    // Cuts off a few bytes.
    fn cut(&mut self, rt: &impl Abort, few: usize) -> bool {
        let len = self.written.len().saturating_sub(few);
        self.written.truncate(len);
        self.told(rt, FileRequest::SetSize { size: len as u64 }) == 0
    }

    // Whether the step tells what it is to.
    fn step(&mut self, rt: &impl Abort, step: u8) -> bool {
        let end = self.written.len();
        let middle = usize::from(step) * 37 % end.max(1);
        match step % 8 {
            1 | 3 => self.write(rt, end, bytes_for(rt, self.alloc, step)),
            5 => self.write(rt, middle, bytes_for(rt, self.alloc, step)),
            2 | 6 => self.read(rt, middle, 1 + u32::from(step) * 3),
            4 => self.told(rt, FileRequest::QuerySize) == end as u64,
            7 => self.cut(rt, usize::from(step) % 40),
            _ => self.told(rt, FileRequest::Flush) == 0,
        }
    }

    // Whether what lies in the file is what eight instances make of what the client wrote.
    fn is_stored(&mut self, rt: &impl Abort) -> bool {
        let path = RelPath::read(PATH).expect(rt, "a path");
        let bytes = self.base.read(&path, 0, 32_768).expect(rt, "a read");
        let size = self.base.size(&path).expect(rt, "a size");
        are_stored(&self.written, bytes.as_slice()) && size == bytes.len() as u64
    }

    // A create, and all operations behind it.
    fn all(&mut self, rt: &impl Abort) {
        assert!(rt; self.create(rt) == 0);
        for step in 1..OPERATIONS {
            assert!(rt; self.step(rt, step), "step {step}");
        }
        assert!(rt; self.is_stored(rt));
    }

    // The longest write, a read of all of it, and a write of one byte more.
    fn longest(&mut self, rt: &impl Abort) {
        let bytes = long_bytes(rt, self.alloc, 32_768);
        assert!(rt; self.write(rt, 0, bytes) && self.read(rt, 0, 32_768) && self.is_stored(rt));
        let refused = self.state.begin(Request::OnHandle {
            handle: HandleId(0),
            request: FileRequest::Write {
                offset: 0,
                bytes: long_bytes(rt, self.alloc, 32_769),
            },
        });
        assert!(rt; refused.err() == Some(Status::BadRequest));
    }
}

fn run_all(rt: &impl Abort, alloc: Global) {
    let mut run = Run::new(rt, alloc);
    run.all(rt);
    run.longest(rt);
}

#[test]
fn two_hundred_operations_and_the_longest_write(rt: HostRuntime) {
    run_all(&rt, rt.alloc());
}
