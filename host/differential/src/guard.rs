//! Memory between two pages that nobody may touch: a read or write outside a lent slice ends the test.

use std::cell::Cell;
use std::ffi::c_void;
use std::slice::{from_raw_parts, from_raw_parts_mut};

const PAGE: usize = 4096;
const PROT_NONE: i32 = 0;
const PROT_READ_WRITE: i32 = 3;
const MAP_PRIVATE_ANONYMOUS: i32 = 0x22;
const SIGSEGV: i32 = 11;
const SIG_DFL: usize = 0;
const STDERR: i32 = 2;

extern "C" {
    fn mmap(at: *mut c_void, length: usize, protection: i32, flags: i32, descriptor: i32, offset: i64) -> *mut c_void;
    fn munmap(at: *mut c_void, length: usize) -> i32;
    fn mprotect(at: *mut c_void, length: usize, protection: i32) -> i32;
    fn signal(number: i32, handler: usize) -> usize;
    fn write(descriptor: i32, bytes: *const c_void, length: usize) -> isize;
}

/// Which of its two pages a lent slice touches.
#[derive(Clone, Copy, Debug, PartialEq, Eq)]
pub enum Edge {
    /// The page lies directly before the slice's first byte.
    Front,
    /// The page lies directly after the slice's last byte.
    Back,
}

/// Room for one lent slice at a time. It grows as needed.
pub struct Area {
    base: *mut u8,
    room: usize,
}

impl Area {
    pub fn new() -> Area {
        Area::of(PAGE)
    }

    fn of(room: usize) -> Area {
        let room = room.next_multiple_of(PAGE);
        let length = room + 2 * PAGE;
        unsafe {
            let base = mmap(std::ptr::null_mut(), length, PROT_NONE, MAP_PRIVATE_ANONYMOUS, -1, 0).cast::<u8>();
            assert!(base as isize != -1, "no memory for {length} bytes");
            assert_eq!(mprotect(base.add(PAGE).cast(), room, PROT_READ_WRITE), 0);
            Area { base, room }
        }
    }

    /// Where a slice of that many bytes starts.
    fn place(&mut self, length: usize, edge: Edge) -> *mut u8 {
        if length > self.room {
            *self = Area::of(length.next_power_of_two());
        }
        let start = match edge {
            Edge::Front => PAGE,
            Edge::Back => PAGE + self.room - length,
        };
        unsafe { self.base.add(start) }
    }

    /// A copy of the bytes that touches the page at that edge.
    pub fn lend(&mut self, bytes: &[u8], edge: Edge) -> &mut [u8] {
        let lent = unsafe { from_raw_parts_mut(self.place(bytes.len(), edge), bytes.len()) };
        lent.copy_from_slice(bytes);
        lent
    }

    /// The same for floats, copied as bits. Pages are aligned for them, and so is a whole number of them before a page.
    pub fn lend_floats(&mut self, bits: &[u64], edge: Edge) -> &mut [f64] {
        let bytes = unsafe { from_raw_parts(bits.as_ptr().cast::<u8>(), 8 * bits.len()) };
        let lent = self.lend(bytes, edge);
        unsafe { from_raw_parts_mut(lent.as_mut_ptr().cast::<f64>(), bits.len()) }
    }
}

impl Default for Area {
    fn default() -> Self {
        Area::new()
    }
}

impl Drop for Area {
    fn drop(&mut self) {
        unsafe { munmap(self.base.cast(), self.room + 2 * PAGE) };
    }
}

thread_local! {
    static RUNNING: Cell<(u64, u64)> = const { Cell::new((0, 0)) };
}

/// Says which case runs in this thread, for the message of a fault: a fault ends the test before it can say anything itself.
pub fn now_running(seed: u64, case: u64) {
    RUNNING.set((seed, case));
    unsafe { signal(SIGSEGV, report_fault as *const () as usize) };
}

/// Writes without any allocation, then lets the fault happen again and end the process.
extern "C" fn report_fault(_: i32) {
    let (seed, case) = RUNNING.get();
    for (words, number) in [("memory outside a lent slice was touched: seed ", seed), (", case ", case)] {
        put(words.as_bytes());
        put_number(number);
    }
    put(b"\n");
    unsafe { signal(SIGSEGV, SIG_DFL) };
}

fn put(bytes: &[u8]) {
    unsafe { write(STDERR, bytes.as_ptr().cast(), bytes.len()) };
}

fn put_number(number: u64) {
    let mut digits = [b'0'; 20];
    let mut rest = number;
    let mut start = digits.len();
    while rest > 0 || start == digits.len() {
        start -= 1;
        digits[start] += (rest % 10) as u8;
        rest /= 10;
    }
    put(&digits[start..]);
}
