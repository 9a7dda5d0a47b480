//! Buffers that stand against memory that can be neither read nor written. A callee that goes past
//! the end of one, or before its start, is stopped by the machine on the spot, and the test process
//! with it.

use std::marker::PhantomData;
use std::{io, mem, ptr, slice};

/// Which end of the buffer has the guard right next to it. Memory is guarded by the page, so the
/// other end has some bytes of no matter before the guard there.
#[derive(Clone, Copy, Debug)]
pub enum Side {
    Start,
    End,
}

pub const SIDES: [Side; 2] = [Side::Start, Side::End];

const PAGE: usize = 4096;

/// The bytes of the guard before a buffer, and of the one after it: more than the longest scratch,
/// so that what is meant for a longer buffer ends in the guard too.
const GUARD: usize = 1 << 26;

/// A buffer with a guard on both sides.
pub struct Guarded<T> {
    /// All that is mapped: a guard, the room for the buffer, and a guard.
    mapped: *mut u8,
    room: usize,
    /// Where in the room the buffer begins, in bytes.
    offset: usize,
    length: usize,
    content: PhantomData<T>,
}

impl<T: Copy> Guarded<T> {
    /// A buffer with this content.
    pub fn new(content: &[T], side: Side) -> Guarded<T> {
        let bytes = mem::size_of_val(content);
        let room = bytes.next_multiple_of(PAGE);
        let offset = match side {
            Side::Start => 0,
            Side::End => room - bytes,
        };
        let buffer = Guarded {
            mapped: map(GUARD + room + GUARD),
            room,
            offset,
            length: content.len(),
            content: PhantomData,
        };
        buffer.allow(READ | WRITE);
        // The room is at least as long as the content, and is a new one.
        unsafe { ptr::copy_nonoverlapping(content.as_ptr(), buffer.first(), content.len()) };
        buffer
    }

    /// The same, but not to be written either.
    pub fn read_only(content: &[T], side: Side) -> Guarded<T> {
        let buffer = Guarded::new(content, side);
        buffer.allow(READ);
        buffer
    }

    /// Pages and sizes of words are such that this is aligned for a word, on either side.
    fn first(&self) -> *mut T {
        self.mapped.wrapping_add(GUARD + self.offset).cast()
    }

    fn allow(&self, protection: i32) {
        // The room belongs to this buffer, and no reference into it is alive.
        let result = unsafe { mprotect(self.mapped.add(GUARD), self.room, protection) };
        assert_eq!(result, 0, "{}", io::Error::last_os_error());
    }

    pub fn content(&self) -> &[T] {
        unsafe { slice::from_raw_parts(self.first(), self.length) }
    }

    /// For a buffer that is not read-only.
    pub fn slice(&mut self) -> &mut [T] {
        unsafe { slice::from_raw_parts_mut(self.first(), self.length) }
    }
}

impl<T> Drop for Guarded<T> {
    fn drop(&mut self) {
        let result = unsafe { munmap(self.mapped, GUARD + self.room + GUARD) };
        assert_eq!(result, 0, "{}", io::Error::last_os_error());
    }
}

// What <sys/mman.h> has on Linux.
const NONE: i32 = 0;
const READ: i32 = 1;
const WRITE: i32 = 2;
const PRIVATE: i32 = 0x02;
const ANONYMOUS: i32 = 0x20;
/// No memory is set aside for the guards.
const NO_RESERVE: i32 = 0x4000;

extern "C" {
    fn mmap(at: *mut u8, length: usize, may: i32, flags: i32, file: i32, from: i64) -> *mut u8;
    fn mprotect(at: *mut u8, length: usize, may: i32) -> i32;
    fn munmap(at: *mut u8, length: usize) -> i32;
}

/// New memory that can be neither read nor written.
fn map(length: usize) -> *mut u8 {
    let flags = PRIVATE | ANONYMOUS | NO_RESERVE;
    let mapped = unsafe { mmap(ptr::null_mut(), length, NONE, flags, -1, 0) };
    // Failure is -1, and no page begins there.
    assert_ne!(mapped as isize, -1, "{}", io::Error::last_os_error());
    mapped
}
