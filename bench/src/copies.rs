//! Counts the calls that copy or set many bytes at once (feature `copies`; `bench/copies` prints the table).
//!
//! The linker puts the functions here in place of memcpy, memmove and memset (build.rs). They count while counting is on, and call the C library's.

use std::ffi::{c_int, c_void};
use std::sync::atomic::{AtomicBool, AtomicUsize, Ordering::Relaxed};

/// The fewest bytes of a call that is counted: half of a table of one `u64` for each field.
const LARGE: usize = 256;

/// One kind of call: for each number of bytes, as they come up, how many calls.
struct Calls {
    name: &'static str,
    counts: [(AtomicUsize, AtomicUsize); 64],
}

static COUNTING: AtomicBool = AtomicBool::new(false);
static COPIES: Calls = Calls::new("copy");
static SETS: Calls = Calls::new("set");

impl Calls {
    const fn new(name: &'static str) -> Calls {
        let counts = [const { (AtomicUsize::new(0), AtomicUsize::new(0)) }; 64];
        Calls { name, counts }
    }

    fn count(&self, bytes: usize) {
        if bytes < LARGE || !COUNTING.load(Relaxed) {
            return;
        }
        // A place that is not taken yet has 0 bytes.
        for (size, calls) in &self.counts {
            let found = size.load(Relaxed);
            if found == bytes || found == 0 {
                size.store(bytes, Relaxed);
                calls.fetch_add(1, Relaxed);
                return;
            }
        }
        std::process::abort();
    }

    fn print(&self) {
        for (size, calls) in &self.counts {
            let (size, calls) = (size.load(Relaxed), calls.load(Relaxed));
            if calls > 0 {
                println!("{} {size} {calls}", self.name);
            }
        }
    }
}

/// Runs `work` with counting on and prints the counts: kind, bytes, calls.
pub fn counted(work: impl FnOnce()) {
    COUNTING.store(true, Relaxed);
    work();
    COUNTING.store(false, Relaxed);
    COPIES.print();
    SETS.print();
}

extern "C" {
    fn __real_memcpy(to: *mut c_void, from: *const c_void, bytes: usize) -> *mut c_void;
    fn __real_memmove(to: *mut c_void, from: *const c_void, bytes: usize) -> *mut c_void;
    fn __real_memset(to: *mut c_void, byte: c_int, bytes: usize) -> *mut c_void;
}

// SAFETY, for all three: the caller has met what the C library's function asks.

#[no_mangle]
unsafe extern "C" fn __wrap_memcpy(
    to: *mut c_void,
    from: *const c_void,
    bytes: usize,
) -> *mut c_void {
    COPIES.count(bytes);
    unsafe { __real_memcpy(to, from, bytes) }
}

#[no_mangle]
unsafe extern "C" fn __wrap_memmove(
    to: *mut c_void,
    from: *const c_void,
    bytes: usize,
) -> *mut c_void {
    COPIES.count(bytes);
    unsafe { __real_memmove(to, from, bytes) }
}

#[no_mangle]
unsafe extern "C" fn __wrap_memset(to: *mut c_void, byte: c_int, bytes: usize) -> *mut c_void {
    SETS.count(bytes);
    unsafe { __real_memset(to, byte, bytes) }
}
