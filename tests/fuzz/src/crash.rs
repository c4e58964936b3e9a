//! A call that crashes or does not end: the file is saved, and the program ends with status 1.
use std::sync::atomic::{AtomicPtr, AtomicUsize, Ordering::Relaxed};

#[repr(C)]
struct Action {
    handler: extern "C" fn(i32),
    mask: [u64; 16],
    flags: i32,
    restorer: usize,
}

unsafe extern "C" {
    fn sigaction(signal: i32, action: *const Action, old: *mut Action) -> i32;
    fn alarm(seconds: u32) -> u32;
    fn open(path: *const u8, flags: i32, mode: u32) -> i32;
    fn write(file: i32, bytes: *const u8, length: usize) -> isize;
    fn _exit(status: i32) -> !;
}

const SIGNALS: [i32; 6] = [SIGILL, SIGABRT, SIGBUS, SIGFPE, SIGSEGV, SIGALRM];
const SIGILL: i32 = 4;
const SIGABRT: i32 = 6;
const SIGBUS: i32 = 7;
const SIGFPE: i32 = 8;
const SIGSEGV: i32 = 11;
const SIGALRM: i32 = 14;

/// Seconds that a call may take before it counts as one that does not end.
const ENDLESS: u32 = 200;

static FILE: AtomicPtr<u8> = AtomicPtr::new(std::ptr::null_mut());
static LENGTH: AtomicUsize = AtomicUsize::new(0);
static OUTPUT_LENGTH: AtomicUsize = AtomicUsize::new(0);

/// Where the file goes, seen from tests/fuzz.
const SAVED: &[u8] = b"target/crashed.fix\0";

pub fn watch() {
    const ON_OTHER_STACK: i32 = 0x0800_0000;
    for signal in SIGNALS {
        let action = Action { handler: save, mask: [0; 16], flags: ON_OTHER_STACK, restorer: 0 };
        assert_eq!(unsafe { sigaction(signal, &action, std::ptr::null_mut()) }, 0, "sigaction failed");
    }
}

/// The file and the output's length of the call that comes next, and the time that it has. The file must stay where it is until `done`.
pub fn calling(file: &mut [u8], output_length: usize) {
    FILE.store(file.as_mut_ptr(), Relaxed);
    LENGTH.store(file.len(), Relaxed);
    OUTPUT_LENGTH.store(output_length, Relaxed);
    unsafe { alarm(ENDLESS) };
}

pub fn done() {
    FILE.store(std::ptr::null_mut(), Relaxed);
}

extern "C" fn save(signal: i32) {
    let file = FILE.load(Relaxed);
    if signal == SIGALRM {
        tell(b"FAILED: no end after many seconds");
    } else {
        tell(b"FAILED: a signal, number ");
        tell_number(signal as usize);
    }
    if file.is_null() {
        tell(b", outside of a call");
    } else {
        tell(b", in the call on target/crashed.fix with an output of bytes: ");
        tell_number(OUTPUT_LENGTH.load(Relaxed));
        const WRITE_CREATE_TRUNCATE: i32 = 1 | 0o100 | 0o1000;
        // Only functions that a signal handler may call.
        unsafe {
            let to = open(SAVED.as_ptr(), WRITE_CREATE_TRUNCATE, 0o644);
            write(to, file, LENGTH.load(Relaxed));
        }
    }
    tell(b"\n");
    unsafe { _exit(1) }
}

fn tell(text: &[u8]) {
    unsafe { write(2, text.as_ptr(), text.len()) };
}

fn tell_number(mut n: usize) {
    let mut digits = [b'0'; 20];
    let mut at = digits.len() - 1;
    loop {
        digits[at] = b'0' + (n % 10) as u8;
        n /= 10;
        if n == 0 {
            break;
        }
        at -= 1;
    }
    tell(&digits[at..]);
}
