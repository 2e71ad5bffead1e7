//! Memory to lend to the library: between two pages that nobody may touch, with marked bytes beside it.

use std::ffi::c_void;
use std::sync::Mutex;

extern "C" {
    fn mmap(at: *mut c_void, length: usize, protection: i32, flags: i32, file: i32, offset: i64) -> *mut c_void;
    fn mprotect(at: *mut c_void, length: usize, protection: i32) -> i32;
    fn signal(number: i32, handler: extern "C" fn(i32)) -> usize;
}

const PAGE: usize = 4096;
const READ_WRITE: i32 = 3;
const PRIVATE_ANONYMOUS: i32 = 0x22;
const BESIDE: usize = 64;
const MARK: u8 = 0xa5;

static LAST: Mutex<Vec<u8>> = Mutex::new(Vec::new());

/// The inputs of the call that comes now.
pub fn remember(inputs: &[&[u8]]) {
    let mut last = LAST.lock().expect("one thread");
    last.clear();
    last.extend(inputs.iter().copied().flatten());
}

extern "C" fn touched(_: i32) {
    println!("DIFFERENCE: the library touched memory that was not lent");
    if let Ok(last) = LAST.try_lock() {
        println!("  input {}", crate::hex(&last));
    }
    std::process::exit(1);
}

/// From now on, a touch of memory beside what is lent ends the program with status 1 and names the file.
pub fn watch() {
    const SEGMENTATION_FAULT: i32 = 11;
    unsafe { signal(SEGMENTATION_FAULT, touched) };
}

/// A stretch of memory from which one slice at a time is lent.
pub struct Lent {
    room: &'static mut [u8],
    start: usize,
    end: usize,
}

impl Lent {
    /// Room for slices of up to `most` bytes.
    pub fn new(most: usize) -> Lent {
        let pages = (most + BESIDE).div_ceil(PAGE) + 2;
        let room = unsafe {
            let base = mmap(std::ptr::null_mut(), pages * PAGE, READ_WRITE, PRIVATE_ANONYMOUS, -1, 0).cast::<u8>();
            assert!(!base.is_null() && base as isize != -1, "mmap");
            assert_eq!(mprotect(base.cast(), PAGE, 0), 0);
            assert_eq!(mprotect(base.add((pages - 1) * PAGE).cast(), PAGE, 0), 0);
            std::slice::from_raw_parts_mut(base.add(PAGE), (pages - 2) * PAGE)
        };
        room.fill(MARK);
        Lent { room, start: 0, end: 0 }
    }

    /// Puts content there, at the end of the room (a byte read past it ends the program) or at its start.
    pub fn put(&mut self, content: &[u8], at_end: bool) {
        self.room[self.start..self.end].fill(MARK);
        self.start = if at_end { self.room.len() - content.len() } else { 0 };
        self.end = self.start + content.len();
        self.room[self.start..self.end].copy_from_slice(content);
    }

    pub fn bytes(&self) -> &[u8] {
        &self.room[self.start..self.end]
    }

    pub fn bytes_mut(&mut self) -> &mut [u8] {
        &mut self.room[self.start..self.end]
    }

    /// Whether the slice is this now, and the bytes beside it are as they were.
    pub fn is(&self, due: &[u8]) -> bool {
        let before = &self.room[self.start.saturating_sub(BESIDE)..self.start];
        let after = &self.room[self.end..(self.end + BESIDE).min(self.room.len())];
        self.room[self.start..self.end] == *due && before.iter().chain(after).all(|&byte| byte == MARK)
    }
}
