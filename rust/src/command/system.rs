//! What std has no safe call for. All of the command's `unsafe` stands here: a signal that ends the command removes the temporary file
//! first; and whether standard input or output was closed when it began.
#![allow(unsafe_code)]
use std::ffi::CString;
use std::os::unix::ffi::OsStrExt;
use std::path::Path;
use std::ptr;
use std::sync::atomic::{AtomicBool, AtomicPtr, Ordering};

type Handler = extern "C" fn(i32);

unsafe extern "C" {
    fn signal(number: i32, handler: usize) -> usize;
    fn raise(number: i32) -> i32;
    fn unlink(path: *const i8) -> i32;
    fn fcntl(number: i32, command: i32, ...) -> i32;
}

// ---- signals

const DEFAULT: usize = 0;
const IGNORED: usize = 1;
/// What ends a program and can be caught, but for faults of its own: HUP, INT, QUIT, ABRT, USR1, USR2, ALRM, TERM, STKFLT, XCPU, XFSZ,
/// VTALRM, PROF, IO, PWR, SYS.
const ENDING: [i32; 16] = [1, 2, 3, 6, 10, 12, 14, 15, 16, 24, 25, 26, 27, 29, 30, 31];

/// The name of the temporary file, null while there is none.
static TEMPORARY: AtomicPtr<i8> = AtomicPtr::new(ptr::null_mut());

extern "C" fn remove_and_end(number: i32) {
    let name = TEMPORARY.load(Ordering::SeqCst);
    // SAFETY: a handler may call these three; the name is a C string that is never freed once a handler can see it.
    unsafe {
        if !name.is_null() {
            unlink(name);
        }
        signal(number, DEFAULT);
        raise(number);
    }
}

/// Called once, before there is a temporary file. A signal that was ignored (nohup) stays so.
pub fn watch_signals() {
    let handler: Handler = remove_and_end;
    for number in ENDING {
        // SAFETY: the handler is a function of the kind that `signal` takes, and lives as long as the program.
        unsafe {
            if signal(number, handler as usize) == IGNORED {
                signal(number, IGNORED);
            }
        }
    }
}

/// From here on a signal removes the file of this name; none where there is no name. The few bytes of a name are not given back, since a
/// handler may be reading them.
pub fn remove_on_signal(path: Option<&Path>) {
    let name = path.and_then(|path| CString::new(path.as_os_str().as_bytes()).ok());
    TEMPORARY.store(name.map_or(ptr::null_mut(), CString::into_raw).cast(), Ordering::SeqCst);
}

// ---- closed standard input and output

const GET_FLAGS: i32 = 1;

static INPUT_CLOSED: AtomicBool = AtomicBool::new(false);
static OUTPUT_CLOSED: AtomicBool = AtomicBool::new(false);

/// Rust's runtime opens /dev/null in place of what is closed: what is read would be an empty file, and what is written lost without an
/// error. So this looks before the runtime begins: the system calls what stands in this section first.
#[used]
#[link_section = ".init_array"]
static LOOK: extern "C" fn() = look;

extern "C" fn look() {
    for (number, closed) in [(0, &INPUT_CLOSED), (1, &OUTPUT_CLOSED)] {
        // SAFETY: it asks about a number, of a file that may not be there.
        closed.store(unsafe { fcntl(number, GET_FLAGS) } < 0, Ordering::SeqCst);
    }
}

pub fn input_closed() -> bool {
    INPUT_CLOSED.load(Ordering::SeqCst)
}

pub fn output_closed() -> bool {
    OUTPUT_CLOSED.load(Ordering::SeqCst)
}
