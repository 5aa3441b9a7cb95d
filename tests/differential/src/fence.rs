//! Memory to lend: a stretch of pages between two pages that nobody may touch.

use std::ffi::c_void;

extern "C" {
    fn mmap(
        place: *mut c_void,
        length: usize,
        access: i32,
        kind: i32,
        file: i32,
        offset: i64,
    ) -> *mut c_void;
    fn mprotect(place: *mut c_void, length: usize, access: i32) -> i32;
    fn munmap(place: *mut c_void, length: usize) -> i32;
}

/// No access, access to read and write; memory of our own without a file.
const NO_ACCESS: i32 = 0;
const READ_WRITE: i32 = 1 | 2;
const OWN_MEMORY: i32 = 0x02 | 0x20;
const PAGE: usize = 4096;

/// So many marked bytes stand on the side of a slice where no page ends.
const MARKS: usize = 64;
const MARK: u8 = 0xa5;

/// One slice at a time is lent out of this memory.
pub struct Fence {
    first: *mut u8,
    room: usize,
    /// The slice lent last.
    at: usize,
    length: usize,
    at_end: bool,
}

impl Fence {
    /// Room for slices of up to so many bytes.
    pub fn new(room: usize) -> Fence {
        let room = (room + MARKS).next_multiple_of(PAGE);
        // Safety: new memory is asked for, which nothing else uses.
        let first = unsafe {
            let whole = mmap(
                std::ptr::null_mut(),
                room + 2 * PAGE,
                NO_ACCESS,
                OWN_MEMORY,
                -1,
                0,
            );
            assert!(!whole.is_null() && whole as isize != -1, "no memory");
            let first = whole.cast::<u8>().add(PAGE);
            assert!(mprotect(first.cast(), room, READ_WRITE) == 0, "no memory");
            first
        };
        Fence {
            first,
            room,
            at: 0,
            length: 0,
            at_end: false,
        }
    }

    /// All bytes that may be touched.
    fn bytes(&self) -> &[u8] {
        // Safety: the memory was made with this length and lives as long as
        // self.
        unsafe { std::slice::from_raw_parts(self.first, self.room) }
    }

    /// The same, to be written.
    fn bytes_mut(&mut self) -> &mut [u8] {
        // Safety: as above, and nobody else has it while self is borrowed.
        unsafe { std::slice::from_raw_parts_mut(self.first, self.room) }
    }

    /// Takes a slice of this length, by turns at the end and at the start of
    /// the memory, with marks on its other side.
    fn take(&mut self, length: usize, turn: u64) {
        assert!(length + MARKS <= self.room, "a slice of {length} bytes");
        self.at_end = turn & 1 == 0;
        self.at = if self.at_end { self.room - length } else { 0 };
        self.length = length;
        let beside = self.beside();
        self.bytes_mut()[beside].fill(MARK);
    }

    /// Where the marks stand.
    fn beside(&self) -> std::ops::Range<usize> {
        if self.at_end {
            self.at - MARKS..self.at
        } else {
            self.length..self.length + MARKS
        }
    }

    /// The pointer to be lent; for length 0 by turns a null pointer.
    fn pointer(&mut self, turn: u64) -> *mut u8 {
        if self.length == 0 && turn & 2 == 0 {
            return std::ptr::null_mut();
        }
        let at = self.at;
        self.bytes_mut()[at..].as_mut_ptr()
    }

    /// Lends a copy of these bytes.
    pub fn lend(&mut self, bytes: &[u8], turn: u64) -> *mut u8 {
        self.take(bytes.len(), turn);
        let at = self.at;
        self.bytes_mut()[at..at + bytes.len()].copy_from_slice(bytes);
        self.pointer(turn)
    }

    /// Lends a slice of this length that holds anything.
    pub fn lend_junk(&mut self, length: usize, turn: u64) -> *mut u8 {
        self.take(length, turn);
        let at = self.at;
        let slice = &mut self.bytes_mut()[at..at + length];
        match turn % 5 {
            0 => slice.fill(0xff),
            1 => slice.fill(1),
            2 => slice.fill(b'('),
            _ => {
                for (place, byte) in slice.iter_mut().enumerate() {
                    *byte = (place as u64 * 7 + turn) as u8 | 1;
                }
            }
        }
        self.pointer(turn)
    }

    /// The slice lent last, as it is now.
    pub fn lent(&self) -> &[u8] {
        &self.bytes()[self.at..self.at + self.length]
    }

    /// Are the marks beside the slice as they were?
    pub fn marks_stand(&self) -> bool {
        self.bytes()[self.beside()].iter().all(|&byte| byte == MARK)
    }
}

impl Drop for Fence {
    fn drop(&mut self) {
        // Safety: the whole of what `new` asked for, and nothing borrows it.
        unsafe {
            munmap(self.first.sub(PAGE).cast(), self.room + 2 * PAGE);
        }
    }
}
