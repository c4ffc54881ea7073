//! The lent table set: 5,963 words and 3,908 bytes, filled once from a file before anything is decoded.
use std::cell::UnsafeCell;
use std::ops::Deref;

pub const WORDS: usize = 5963;
pub const BYTES: usize = 3908;

pub struct Room<T>(UnsafeCell<T>);
// Filled by `fill` before any reader runs, and by nothing after.
unsafe impl<T> Sync for Room<T> {}

impl<T> Room<T> {
    pub const fn get(&self) -> *mut T {
        self.0.get()
    }
}

pub static WORD_ROOM: Room<[i16; WORDS]> = Room(UnsafeCell::new([0; WORDS]));
pub static BYTE_ROOM: Room<[u8; BYTES]> = Room(UnsafeCell::new([0; BYTES]));

/// Words little-endian, then the bytes: 15,834 in all.
pub fn fill(file: &[u8]) {
    assert_eq!(file.len(), 2 * WORDS + BYTES, "a table file has 15,834 bytes");
    let words = unsafe { &mut *WORD_ROOM.get() };
    for (word, pair) in words.iter_mut().zip(file[..2 * WORDS].chunks(2)) {
        *word = i16::from_le_bytes([pair[0], pair[1]]);
    }
    unsafe { &mut *BYTE_ROOM.get() }.copy_from_slice(&file[2 * WORDS..]);
}

/// The bare set of document 01, which stands until a file is given.
pub fn fill_bare() {
    let words = unsafe { &mut *WORD_ROOM.get() };
    words.fill(0);
    words[186] = 1;
    words[193..198].fill(2);
    words[1483..4683].fill(1);
    unsafe { &mut *BYTE_ROOM.get() }.fill(0);
}

fn words() -> &'static [i16; WORDS] {
    unsafe { &*WORD_ROOM.get() }
}

/// A part of the words, which the Rust reads as a table of its own.
pub struct Part {
    pub at: usize,
    pub len: usize,
}
impl Deref for Part {
    type Target = [i16];
    fn deref(&self) -> &[i16] {
        &words()[self.at..self.at + self.len]
    }
}

/// The same, read unsigned.
pub struct UnsignedPart {
    pub at: usize,
    pub len: usize,
}
impl Deref for UnsignedPart {
    type Target = [u16];
    fn deref(&self) -> &[u16] {
        let part = &words()[self.at..self.at + self.len];
        unsafe { std::slice::from_raw_parts(part.as_ptr() as *const u16, part.len()) }
    }
}
