//! Lent buffers between pages that may not be touched.

use std::cell::RefCell;
use std::ffi::{c_char, c_int, c_long, c_uint, c_void};
use std::ptr;
use std::slice;

extern "C" {
    fn mmap(
        at: *mut c_void,
        length: usize,
        protection: c_int,
        flags: c_int,
        file: c_int,
        offset: c_long,
    ) -> *mut c_void;
    fn munmap(at: *mut c_void, length: usize) -> c_int;
    fn memfd_create(name: *const c_char, flags: c_uint) -> c_int;
    fn ftruncate(file: c_int, length: c_long) -> c_int;
    fn close(file: c_int) -> c_int;
}

const PAGE: usize = 4096;
const NONE: c_int = 0;
const READ: c_int = 1;
const READ_WRITE: c_int = 3;
const PRIVATE_ANONYMOUS: c_int = 0x22;
const SHARED_FIXED: c_int = 0x11;
/// What stands in the pages around a buffer that does not fill them.
const SLACK: u8 = 0xA5;

/// Which guard page the buffer touches.
#[derive(Clone, Copy, Debug, PartialEq)]
pub enum Side {
    Left,
    Right,
}

/// Mappings of up to so many bytes are kept for the next buffer of their size.
const POOLED: usize = 16 * PAGE;

thread_local! {
    static POOL: RefCell<Vec<Vec<Pages>>> = const { RefCell::new(Vec::new()) };
}

/// The same pages twice, each time between two that may not be touched: to be read and written, and to be read alone. So a buffer is lent for
/// reading without a change of its pages' protection, which every thread would wait for.
#[derive(Clone, Copy)]
struct Pages {
    open: *mut u8,
    frozen: *mut u8,
}

/// Pages for one buffer.
pub struct Lent {
    pages: Pages,
    size: usize,
    start: usize,
    length: usize,
    read_only: bool,
}

/// The bytes of a file in memory, between two guard pages.
fn guarded(file: c_int, size: usize, protection: c_int) -> *mut u8 {
    // SAFETY: the file's pages are mapped over pages of this mapping's own; the outer two stay out of use.
    unsafe {
        let map = mmap(ptr::null_mut(), size + 2 * PAGE, NONE, PRIVATE_ANONYMOUS, -1, 0);
        assert!(map as isize != -1, "no room for a guarded buffer");
        let pages = map.byte_add(PAGE);
        assert_eq!(mmap(pages, size, protection, SHARED_FIXED, file, 0), pages, "no memory for a guarded buffer");
        pages.cast()
    }
}

/// Fresh pages of so many bytes.
fn map(size: usize) -> Pages {
    // SAFETY: the file has no other name, and is gone with its mappings.
    unsafe {
        let file = memfd_create(c"lent".as_ptr(), 0);
        assert!(file >= 0 && ftruncate(file, size as c_long) == 0, "no memory for a guarded buffer");
        let pages = Pages { open: guarded(file, size, READ_WRITE), frozen: guarded(file, size, READ) };
        assert_eq!(close(file), 0);
        pages
    }
}

impl Lent {
    /// Room for so many bytes.
    pub fn new(capacity: usize) -> Lent {
        let size = capacity.max(1).div_ceil(PAGE) * PAGE;
        let pooled = POOL.with_borrow_mut(|pool| pool.get_mut(size / PAGE).and_then(Vec::pop));
        let pages = pooled.unwrap_or_else(|| map(size));
        Lent { pages, size, start: 0, length: 0, read_only: false }
    }

    /// Places a buffer with these bytes at one of the guard pages.
    pub fn place(&mut self, content: &[u8], side: Side) {
        assert!(content.len() <= self.size && !self.read_only);
        self.length = content.len();
        self.start = if side == Side::Left { 0 } else { self.size - self.length };
        // SAFETY: the pages between the guards are this buffer's own.
        let all = unsafe { slice::from_raw_parts_mut(self.pages.open, self.size) };
        all[..self.start].fill(SLACK);
        all[self.start..self.start + self.length].copy_from_slice(content);
        all[self.start + self.length..].fill(SLACK);
    }

    /// The same for words.
    pub fn place_words(&mut self, content: &[u64], side: Side) {
        let bytes: Vec<u8> = content.iter().flat_map(|w| w.to_ne_bytes()).collect();
        self.place(&bytes, side);
    }

    /// Lends the pages for reading alone, or for writing again.
    pub fn read_only_if(&mut self, on: bool) {
        self.read_only = on;
    }

    /// The pages that are lent.
    fn lent(&self) -> *mut u8 {
        if self.read_only {
            self.pages.frozen
        } else {
            self.pages.open
        }
    }

    /// Lends the first so many bytes alone.
    pub fn shorten(&mut self, length: usize) {
        assert!(self.start + length <= self.size);
        self.length = length;
    }

    pub fn bytes_mut(&mut self) -> &mut [u8] {
        assert!(!self.read_only);
        // SAFETY: place has set start and length within the pages.
        unsafe { slice::from_raw_parts_mut(self.lent().add(self.start), self.length) }
    }

    pub fn bytes(&self) -> &[u8] {
        // SAFETY: place has set start and length within the pages.
        unsafe { slice::from_raw_parts(self.lent().add(self.start), self.length) }
    }

    pub fn words(&self) -> &[u64] {
        assert_eq!(self.length % 8, 0);
        // SAFETY: as for bytes; pages and words have the same alignment at both sides.
        unsafe { slice::from_raw_parts(self.lent().add(self.start).cast(), self.length / 8) }
    }

    pub fn pointer(&mut self) -> *mut u8 {
        // SAFETY: place has set start within the pages.
        unsafe { self.lent().add(self.start) }
    }

    pub fn length(&self) -> usize {
        self.length
    }

    /// The rest of the pages is as place left it.
    pub fn surroundings_kept(&self) -> bool {
        // SAFETY: the pages between the guards are this buffer's own.
        let all = unsafe { slice::from_raw_parts(self.pages.open, self.size) };
        let outside = [&all[..self.start], &all[self.start + self.length..]];
        outside.iter().all(|part| part.iter().all(|&b| b == SLACK))
    }
}

impl Drop for Lent {
    fn drop(&mut self) {
        let (pages, size) = (self.pages, self.size);
        if size > POOLED {
            for pages in [pages.open, pages.frozen] {
                // SAFETY: a mapping that guarded made, guard pages included.
                unsafe { munmap(pages.sub(PAGE).cast(), size + 2 * PAGE) };
            }
            return;
        }
        POOL.with_borrow_mut(|pool| {
            pool.resize_with(POOLED / PAGE + 1, Vec::new);
            pool[size / PAGE].push(pages);
        });
    }
}
