//! The library from Rust, by `extern "C"` and with no crate: a walk of this thread's own stack, compared with what
//! libgcc's `_Unwind_Backtrace` finds, which Rust's standard library links.
use std::arch::asm;
use std::ffi::{c_char, c_int, c_void};
use std::ptr::null_mut;

#[repr(C)]
#[derive(Clone, Copy)]
struct Region {
    size: u64,
    address: u64,
    bytes: *const u8,
    length: usize,
}

#[repr(C)]
#[derive(Clone, Copy)]
struct Module {
    size: u64,
    start: u64,
    end: u64,
    tables: u64,
    more: u64,
    format: u64,
}

#[repr(C)]
struct Registers {
    size: u64,
    general: [u64; 16],
    ip: u64,
}

#[repr(C)]
#[derive(Clone, Copy, Default)]
struct Frame {
    ra: u64,
    sp: u64,
    kept: [u64; 6],
    interrupted: u64,
}

#[repr(C)]
#[derive(Default)]
struct End {
    size: u64,
    frame_size: u64,
    count: u64,
    address: u64,
    detail: u64,
    reason: u32,
    error: u32,
}

#[repr(C)]
#[derive(Default)]
struct Place {
    size: u64,
    index: u64,
    address: u64,
}

impl End {
    fn sized() -> End {
        End {
            size: size_of::<End>() as u64,
            frame_size: size_of::<Frame>() as u64,
            ..End::default()
        }
    }
}

impl Place {
    fn sized() -> Place {
        Place {
            size: size_of::<Place>() as u64,
            ..Place::default()
        }
    }
}

#[repr(C)]
struct Session {
    at: *mut c_void,
}

const KZ_VERSION: u32 = 2;
const KZ_ELF_HEADER: u64 = 1;
const KZ_OUTERMOST: u32 = 0;

unsafe extern "C" {
    fn kz_version() -> u32;
    fn kz_session_open(
        regions: *const Region,
        regions_length: usize,
        modules: *const Module,
        modules_length: usize,
        limit: u32,
        session: *mut *mut c_void,
        place: *mut Place,
    ) -> u32;
    fn kz_session_walk(
        session: *mut Session,
        regions: *const Region,
        regions_length: usize,
        start: *const Registers,
        interrupted: bool,
        frames: *mut Frame,
        frames_length: usize,
        end: *mut End,
        place: *mut Place,
    ) -> u32;
    fn kz_session_close(session: Session);

    fn dl_iterate_phdr(
        callback: extern "C" fn(*const Object, usize, *mut c_void) -> c_int,
        data: *mut c_void,
    ) -> c_int;
    fn _Unwind_Backtrace(
        callback: extern "C" fn(*mut c_void, *mut c_void) -> c_int,
        data: *mut c_void,
    ) -> c_int;
    fn _Unwind_GetIP(context: *mut c_void) -> usize;
    static __libc_stack_end: *const c_void;
}

/// `dl_phdr_info`, as far as it is read.
#[repr(C)]
struct Object {
    base: u64,
    name: *const c_char,
    headers: *const Header,
    count: u16,
}

/// `Elf64_Phdr`.
#[repr(C)]
struct Header {
    kind: u32,
    flags: u32,
    offset: u64,
    address: u64,
    physical: u64,
    file_size: u64,
    size: u64,
    align: u64,
}

const PT_LOAD: u32 = 1;
const PT_GNU_EH_FRAME: u32 = 0x6474_e550;
const PF_X: u32 = 1;

#[derive(Default)]
struct Modules {
    tables: Vec<Region>,
    modules: Vec<Module>,
}

/// Adds a module: its code lies from its first executable segment to its last.
extern "C" fn add_module(object: *const Object, _size: usize, data: *mut c_void) -> c_int {
    let (object, own) = unsafe { (&*object, &mut *data.cast::<Modules>()) };
    let headers = unsafe { std::slice::from_raw_parts(object.headers, object.count as usize) };
    let code = || headers.iter().filter(|it| it.kind == PT_LOAD && it.flags & PF_X != 0);
    let (Some(start), Some(end)) = (
        code().map(|it| it.address).min(),
        code().map(|it| it.address + it.size).max(),
    ) else {
        return 0;
    };
    let Some(table) = headers.iter().find(|it| it.kind == PT_GNU_EH_FRAME) else {
        return 0;
    };
    let holds = |it: &&Header| {
        it.kind == PT_LOAD && (it.address..it.address + it.size).contains(&table.address)
    };
    let Some(segment) = headers.iter().find(holds) else {
        return 0;
    };
    let address = object.base + segment.address;
    own.tables.push(Region {
        size: size_of::<Region>() as u64,
        address,
        bytes: address as *const u8,
        length: segment.size as usize,
    });
    own.modules.push(Module {
        size: size_of::<Module>() as u64,
        start: object.base + start,
        end: object.base + end,
        tables: object.base + table.address,
        more: 0,
        format: KZ_ELF_HEADER,
    });
    0
}

extern "C" fn add_address(context: *mut c_void, data: *mut c_void) -> c_int {
    let found = unsafe { &mut *data.cast::<Vec<u64>>() };
    found.push(unsafe { _Unwind_GetIP(context) } as u64);
    0
}

/// The registers here: the walk begins at the instruction after the one that reads RIP.
#[inline(always)]
fn registers_here() -> Registers {
    let mut here = Registers {
        size: size_of::<Registers>() as u64,
        general: [0; 16],
        ip: 0,
    };
    unsafe {
        asm!(
            "lea {ip}, [rip]",
            "mov [{to} + 24], rbx",
            "mov [{to} + 48], rbp",
            "mov [{to} + 56], rsp",
            "mov [{to} + 96], r12",
            "mov [{to} + 104], r13",
            "mov [{to} + 112], r14",
            "mov [{to} + 120], r15",
            "mov [{to} + 128], {ip}",
            ip = out(reg) _,
            to = in(reg) &raw mut here.general,
        );
    }
    here
}

/// Walks from here, and asks libgcc for the same.
#[inline(never)]
fn walk(session: &mut Session) -> bool {
    let mut found: Vec<u64> = Vec::new();
    unsafe { _Unwind_Backtrace(add_address, (&raw mut found).cast()) };
    let start = registers_here();
    let sp = start.general[7];
    let stack = Region {
        size: size_of::<Region>() as u64,
        address: sp,
        bytes: sp as *const u8,
        length: unsafe { __libc_stack_end } as usize - sp as usize,
    };
    let mut frames = [Frame::default(); 64];
    let (mut end, mut place) = (End::sized(), Place::sized());
    let status = unsafe {
        kz_session_walk(
            session,
            &stack,
            1,
            &start,
            true,
            frames.as_mut_ptr(),
            frames.len(),
            &mut end,
            &mut place,
        )
    };
    let walked = &frames[..end.count as usize];
    for frame in walked {
        eprintln!("{:#018x} sp {:#x}", frame.ra, frame.sp);
    }
    // Of this function the two were asked at different instructions, and the outermost has no return address.
    let callers = walked[1..].iter().map(|it| it.ra).filter(|it| *it != 0);
    let found = found[1..].iter().copied().filter(|it| *it != 0);
    status == 0 && end.reason == KZ_OUTERMOST && walked.len() > 2 && callers.eq(found)
}

#[inline(never)]
fn deep(n: u32, session: &mut Session) -> bool {
    if n == 0 {
        return walk(session);
    }
    let agrees = deep(n - 1, session);
    std::hint::black_box(agrees)
}

fn main() {
    let mut own = Modules::default();
    unsafe { dl_iterate_phdr(add_module, (&raw mut own).cast()) };
    let (mut session, mut place) = (Session { at: null_mut() }, Place::sized());
    let status = unsafe {
        kz_session_open(
            own.tables.as_ptr(),
            own.tables.len(),
            own.modules.as_ptr(),
            own.modules.len(),
            64,
            &mut session.at,
            &mut place,
        )
    };
    assert_eq!((status, unsafe { kz_version() }), (0, KZ_VERSION));
    let agrees = deep(5, &mut session);
    unsafe { kz_session_close(session) };
    println!("from Rust: {}", if agrees { "the same as libgcc's" } else { "DIFFERS" });
    std::process::exit(i32::from(!agrees));
}
