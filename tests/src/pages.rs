//! Rooms between two forbidden pages: what reads or writes past either end of one is ended by the system. This is all of
//! the unsafe code of the package.

#![allow(unsafe_code)]

use std::ptr;
use std::slice;

// Of the C library, as Linux on x86-64 has them.
extern "C" {
    fn mmap(at: *mut u8, length: usize, allowed: i32, flags: i32, file: i32, from: i64) -> *mut u8;
    fn mprotect(at: *mut u8, length: usize, allowed: i32) -> i32;
    fn munmap(at: *mut u8, length: usize) -> i32;
}

const PAGE: usize = 4096;
/// PROT_NONE; PROT_READ and PROT_WRITE; MAP_PRIVATE and MAP_ANONYMOUS.
const FORBIDDEN: i32 = 0;
const READ_WRITE: i32 = 3;
const OWN: i32 = 0x22;

/// Where the forbidden page is that an area touches.
#[derive(Clone, Copy, Debug, PartialEq, Eq)]
pub enum Side {
    Before,
    Behind,
}

/// Numbers that any bits are.
pub trait Number: Copy + 'static {
    const ZERO: Self;
}

impl Number for u8 {
    const ZERO: u8 = 0;
}

impl Number for i32 {
    const ZERO: i32 = 0;
}

impl Number for i64 {
    const ZERO: i64 = 0;
}

impl Number for u64 {
    const ZERO: u64 = 0;
}

impl Number for f64 {
    const ZERO: f64 = 0.0;
}

/// Whole pages that may be used, with a forbidden one before and behind them.
pub struct Room {
    start: *mut u8,
    bytes: usize,
}

impl Room {
    /// A room for so many bytes.
    pub fn new(bytes: usize) -> Room {
        let bytes = bytes.max(1).next_multiple_of(PAGE);
        // Sound: new memory, of which the middle is set free.
        unsafe {
            let all = mmap(ptr::null_mut(), bytes + 2 * PAGE, FORBIDDEN, OWN, -1, 0);
            assert!(all as isize != -1, "no memory");
            let start = all.add(PAGE);
            assert_eq!(mprotect(start, bytes, READ_WRITE), 0, "no memory");
            Room { start, bytes }
        }
    }

    /// So many numbers right at the forbidden page of a side; the room grows if need be.
    pub fn numbers<T: Number>(&mut self, length: usize, side: Side) -> &mut [T] {
        let bytes = length * size_of::<T>();
        if bytes > self.bytes {
            *self = Room::new(bytes);
        }
        let at = match side {
            Side::Before => 0,
            Side::Behind => self.bytes - bytes,
        };
        // Sound: inside the room, which is borrowed alone; a page's end is a multiple of each number's size, and any bits
        // are a number.
        unsafe { slice::from_raw_parts_mut(self.start.add(at).cast(), length) }
    }

    /// A planted fault: the number past the area of this side, read or written. The process ends here.
    pub fn touch_past<T: Number>(&mut self, side: Side, write: bool) {
        // Sound: the page is the room's own, and forbidden.
        unsafe {
            let past: *mut T = match side {
                Side::Before => self.start.cast::<T>().sub(1),
                Side::Behind => self.start.add(self.bytes).cast(),
            };
            match write {
                true => past.write_volatile(T::ZERO),
                false => drop(past.read_volatile()),
            }
        }
    }
}

impl Drop for Room {
    fn drop(&mut self) {
        // Sound: all of what `new` was given, which nothing borrows any more.
        unsafe { munmap(self.start.sub(PAGE), self.bytes + 2 * PAGE) };
    }
}
