//! The auditing filter among samples, above a folder in memory and above one of the host: the same requests are answered alike.

use fm_altitude::Altitude;
use fm_base::{Base, MemoryBase};
use fm_callback_data::{FileRequest, Reply, Request};
use fm_filter::Either;
use fm_host::HostBase;
use fm_local::LocalManager;
use fm_samples::{Guard, Sample, Shift};
use fm_types::{
    Bytes, CreateMode, FilterId, HandleId, Name, RelPath, SharedPath, Status, VolumeId,
};
use own_filter::Audit;
use std::alloc::Global;
use std::test::Fail;
use std::{env, fs};

/// The only volume.
const VOLUME: VolumeId = VolumeId(0);

/// What is asked: of the volume, or of the file that was created first.
#[derive(Clone, Copy)]
enum Ask {
    Create(&'static [u8]),
    List,
    Read(u64, u32),
    Write(u64, &'static [u8]),
    Size,
    Delete,
    Close,
}

fn create(alloc: Global, path: &[u8]) -> Result<Request, Status> {
    Ok(Request::Create {
        volume: VOLUME,
        path: SharedPath::new(alloc, RelPath::read(path)?)?,
        mode: CreateMode::New,
    })
}

fn request_of(alloc: Global, ask: Ask) -> Result<Request, Status> {
    let request = match ask {
        Ask::Create(path) => return create(alloc, path),
        Ask::List => return Ok(Request::List { volume: VOLUME }),
        Ask::Read(offset, len) => FileRequest::Read { offset, len },
        Ask::Write(offset, bytes) => FileRequest::Write {
            offset,
            bytes: Bytes::copy_of(alloc, bytes)?,
        },
        Ask::Size => FileRequest::QuerySize,
        Ask::Delete => FileRequest::SetDelete,
        Ask::Close => FileRequest::Close,
    };
    Ok(Request::OnHandle {
        handle: HandleId(0),
        request,
    })
}

// Loads a filter, and attaches it under its own name.
fn attach<B: Base>(
    manager: &mut LocalManager<Either<Audit, Sample>, B>,
    name: &[u8],
    altitude: &[u8],
) -> Result<FilterId, Status> {
    let name = Name::read(name)?;
    let filter = manager.load(&name)?;
    manager.attach(filter, VOLUME, name, Altitude::read(altitude)?)?;
    Ok(filter)
}

// A manager that has the four filters.
fn four<B: Base>(alloc: Global) -> Result<LocalManager<Either<Audit, Sample>, B>, Status> {
    let shift = Sample::Shift(Shift::new(alloc));
    let mut filters = Vec::new(alloc);
    filters.push((Name::read(b"guard")?, Either::Right(Sample::Guard(Guard))))?;
    filters.push((Name::read(b"high")?, Either::Right(shift)))?;
    filters.push((Name::read(b"low")?, Either::Right(shift)))?;
    filters.push((Name::read(b"audit")?, Either::Left(Audit::new(alloc))))?;
    LocalManager::new(alloc, filters)
}

// Attaches them above that base. The audit is the last, and lies second.
fn attach_four<B: Base>(
    manager: &mut LocalManager<Either<Audit, Sample>, B>,
    base: B,
) -> Result<(), Status> {
    manager.mount(Name::read(b"disk")?, base)?;
    attach(manager, b"guard", b"400.5")?;
    attach(manager, b"high", b"200.75")?;
    attach(manager, b"low", b"200.5")?;
    attach(manager, b"audit", b"300.25")?;
    Ok(())
}

const ASKED: [Ask; 10] = [
    Ask::Create(b"deny/f"),
    Ask::Create(b"f"),
    Ask::Write(0, &[97, 98, 255]),
    Ask::Read(0, 9),
    Ask::Write(3, &[0]),
    Ask::Size,
    Ask::Delete,
    Ask::List,
    Ask::Close,
    Ask::Close,
];

// Each answer, each step, what the audit counted, and what the base holds.
const TOLD: &str = "17 0 []
0 0 []
0 3 []
0 3 [97, 98, 255]
0 1 []
0 4 []
17 0 []
0 2 [102, 10]
0 0 []
14 0 []
o0 pre i0 complete 17
o0 reply 17
o1 pre i0 none
o1 base 0
o1 reply 0
o2 pre i3 none
o2 pre i1 none
o2 pre i2 none
o2 base 0
o2 reply 0
o3 pre i1 with
o3 pre i2 with
o3 base 0
o3 post i2
o3 post i1
o3 reply 0
o4 pre i3 none
o4 pre i1 none
o4 pre i2 none
o4 base 0
o4 reply 0
o5 base 0
o5 reply 0
o6 pre i3 complete 17
o6 reply 17
o7 base 0
o7 reply 0
o8 reply 0
o9 reply 0
writes 2, leaked references 0
[99, 100, 1, 2]
";

// Appends the answer to a request.
fn answer<B: Base>(
    manager: &mut LocalManager<Either<Audit, Sample>, B>,
    request: Request,
    told: &mut String,
) -> Result<(), Status> {
    match manager.answer(request) {
        Reply::Done {
            status,
            information,
            bytes,
        } => writeln!(
            told,
            "{} {information} {:?}",
            status.number(),
            bytes.as_slice()
        )?,
        Reply::Held(operation) => writeln!(told, "held {}", operation.0)?,
    }
    Ok(())
}

// Appends each step.
fn tell_steps<B: Base>(
    manager: &LocalManager<Either<Audit, Sample>, B>,
    told: &mut String,
) -> Result<(), Status> {
    for place in 0..manager.traced() {
        if let Some(step) = manager.trace(place) {
            writeln!(told, "{step}")?;
        }
    }
    Ok(())
}

// Appends what the audit, the last filter, counted, and the bytes of the file as the base holds them.
fn tell_rest<B: Base>(
    manager: &mut LocalManager<Either<Audit, Sample>, B>,
    told: &mut String,
) -> Result<(), Status> {
    let writes = manager.state().total(FilterId(3));
    let leaks = manager.state().leaks();
    writeln!(told, "writes {writes}, leaked references {leaks}")?;
    let path = RelPath::read(b"f")?;
    let base = manager.base(VOLUME).ok_or(Status::NoVolume)?;
    let bytes = base.read(&path, 0, 9)?;
    base.unlink(&path)?;
    writeln!(told, "{:?}", bytes.as_slice())?;
    Ok(())
}

// Appends all that is told of the requests above that base.
fn tell_above<B: Base>(
    alloc: Global,
    manager: &mut LocalManager<Either<Audit, Sample>, B>,
    base: B,
    told: &mut String,
) -> Result<(), Status> {
    attach_four(manager, base)?;
    for ask in ASKED {
        answer(manager, request_of(alloc, ask)?, told)?;
    }
    tell_steps(manager, told)?;
    tell_rest(manager, told)
}

// All that is told of the requests above that base, which holds no file at the end.
fn told<B: Base>(alloc: Global, base: B) -> Result<String, Status> {
    let mut manager = four(alloc)?;
    let mut told = String::new(alloc);
    tell_above(alloc, &mut manager, base, &mut told)?;
    Ok(told)
}

#[test]
fn among_samples_in_memory(rt: HostRuntime) -> Result<(), Fail> {
    let told = told(rt.alloc(), MemoryBase::new(rt.alloc()))?;
    assert_eq!(rt; told.as_str(), TOLD);
    Ok(())
}

#[test]
fn among_samples_over_a_folder(rt: HostRuntime) -> Result<(), Fail> {
    let place = env::temp_dir(&rt)?;
    let number = std::process::id(rt.process());
    let folder = format!(in rt.alloc(); "{}/kazdrin-audit-{number}", place.as_path().display())?;
    fs::create_dir(&rt, folder.as_str())?;
    let told = told(rt.alloc(), HostBase::new(&rt, folder.as_str())?)?;
    fs::remove_dir(&rt, folder.as_str())?;
    assert_eq!(rt; told.as_str(), TOLD);
    Ok(())
}
