//! Drolkhise decodes the voice of recorded railway radio calls: a frame of 20 bytes in, 320 samples out. The decoder is written in Rattle and proved;
//! this crate calls its archive, libdesk.a, and has nothing `unsafe` in its interface.
//!
//! ```
//! use drolkhise::{Decoder, Tables};
//!
//! # let file = std::fs::read(concat!(env!("CARGO_MANIFEST_DIR"), "/../../demo/tables.bin")).unwrap();
//! let tables = Tables::new(&file)?;
//! let mut call = Decoder::reset(&tables);
//! let heard = call.decode(&[0; 20])?;
//! assert_eq!((heard.mark, heard.samples.len()), (2, 320));
//!
//! call.missed(); // the next frame did not arrive
//! assert_eq!(call.decode(&[0; 20])?.mark, 0);
//! # Ok::<(), drolkhise::Refusal>(())
//! ```
//!
//! # The mark
//!
//! A frame is answered with a mark. 2: its sound has the sender's lags, gains and filters, if every loss was reported by [`Decoder::missed`] or was a
//! refused frame. 0 or 1: the decoder is still recovering from a loss or from a late start, and what is heard may not be what was said. Where
//! [`Decoder::is_sure`], the next frame's excitation is the sender's too, sample for sample.
//!
//! # What goes wrong
//!
//! Any bytes of any length may be handed in. What is wrong with them is told by a [`Refusal`]. A refused frame counts as a lost one: the mark
//! falls to 0, what was sure is so no longer, and nothing else changes.
//!
//! A decoder borrows its tables, so it cannot outlive them:
//!
//! ```compile_fail
//! # use drolkhise::{Decoder, Tables};
//! # let file = std::fs::read(concat!(env!("CARGO_MANIFEST_DIR"), "/../../demo/tables.bin")).unwrap();
//! let call = {
//!     let tables = Tables::new(&file).unwrap();
//!     Decoder::reset(&tables)
//! };
//! call.mark();
//! ```
//!
//! # What a frame says
//!
//! [`Fields`] takes a frame apart and puts one together, without tables; which rule a table file breaks, and where, is in [`Refusal::TablesRule`].
//!
//! # To go back in a call
//!
//! A [`Shelf`] keeps up to sixteen decoders as they stood before some frame. What is kept there is had by a handle, a [`Saved`], and stays as it is until the
//! last handle of it is gone; [`Shelf::seek`] enters a recording at any frame from the nearest one.
//!
//! ```
//! # use drolkhise::{Decoder, Shelf, Tables};
//! # let demo = concat!(env!("CARGO_MANIFEST_DIR"), "/../../demo/");
//! # let file = std::fs::read(format!("{demo}tables.bin")).unwrap();
//! let tables = Tables::new(&file)?;
//! let recording = std::fs::read(format!("{demo}call.hex")).unwrap();
//! let shelf = Shelf::new();
//! let start = shelf.save(&Decoder::reset(&tables), 0)?; // its first line is `+`: it was heard from its start
//! let before_40 = shelf.seek(&tables, &recording, 40)?;
//! let saved = shelf.save(&before_40, 40)?; // so a later seek to 50 decodes ten frames, and not fifty
//! let before_50 = shelf.seek(&tables, &recording, 50)?;
//! assert_eq!(saved.fetch()?, before_40);
//! # assert_eq!((start.frame(), before_50.mark()), (0, 2));
//! # Ok::<(), drolkhise::Refusal>(())
//! ```
#![deny(unsafe_code)]
#![warn(missing_docs)]

#[allow(unsafe_code)]
mod ffi;

use std::error::Error;
use std::fmt;
use std::sync::{Mutex, MutexGuard, PoisonError};

/// The length of a table file, in bytes.
pub const TABLES: usize = 15834;
/// The length of an image: all that a decoder carries from one frame of a call to the next.
pub const IMAGE: usize = 526;
/// The length of a frame, in bytes.
pub const FRAME: usize = 20;
/// How many samples a frame gives.
pub const SAMPLES: usize = 320;
/// How many frames one call of [`Decoder::decode_frames`] may have.
pub const MOST_FRAMES: usize = 64;
/// How many decoders a [`Shelf`] has room for.
pub const SLOTS: usize = 16;
/// How many handles one of them may have.
pub const MOST_HANDLES: usize = 255;

/// Why something was refused. [`Refusal::number`] is the number that the C header and the programs have for it.
#[derive(Clone, Copy, Debug, PartialEq, Eq, Hash)]
#[non_exhaustive]
pub enum Refusal {
    /// The tables are not [`TABLES`] bytes long.
    TablesLength,
    /// The frame is not [`FRAME`] bytes long, or several are not 1 to [`MOST_FRAMES`] frames.
    FrameLength,
    /// The tables break a set rule.
    TablesRule {
        /// The lowest rule that is broken: 1 the index limit and the class bases, 2 pulses, 3 shape selectors, 4 positions, 5 ALT entries, 6 floats.
        rule: u8,
        /// The first place that breaks it: a word's number, from 0, or for a float that of its first byte behind the 5,963 words.
        place: usize,
    },
    /// The image is no decoder's: one of its floats is no number within 131,072, or one of its last two bytes is above 2.
    ImageRule,
    /// One of the two highest bits of the frame's last byte is set.
    Padding,
    /// A code index of the frame has no position under these tables.
    CodeIndex,
    /// A field is wider than its bits.
    FieldWidth,
    /// The image is not [`IMAGE`] bytes long.
    ImageLength,
    /// The shelf's bytes are of another length: none that a [`Shelf`] has.
    ShelfLength,
    /// There is no such slot on the shelf, or it has no users: none that a [`Saved`] has.
    NoSlot,
    /// No slot of the shelf is free, or this one has [`MOST_HANDLES`] handles.
    SlotFull,
    /// No save is at or below the frame that is sought, or the recording has no such frame.
    NoFrame,
}

impl Refusal {
    /// The number of this refusal.
    pub fn number(self) -> u8 {
        match self {
            Refusal::TablesLength => 1,
            Refusal::FrameLength => 3,
            Refusal::TablesRule { .. } => 4,
            Refusal::ImageRule => 5,
            Refusal::Padding => 6,
            Refusal::CodeIndex => 7,
            Refusal::FieldWidth => 8,
            Refusal::ImageLength => 11,
            Refusal::ShelfLength => 12,
            Refusal::NoSlot => 13,
            Refusal::SlotFull => 14,
            Refusal::NoFrame => 15,
        }
    }
}

impl fmt::Display for Refusal {
    fn fmt(&self, f: &mut fmt::Formatter<'_>) -> fmt::Result {
        f.write_str(match self {
            Refusal::TablesLength => "the tables are not 15,834 bytes long",
            Refusal::FrameLength => "the frame is not 20 bytes long, or there are not 1 to 64",
            Refusal::TablesRule { .. } => "the tables break a set rule",
            Refusal::ImageRule => "the image is no decoder's",
            Refusal::Padding => "a padding bit of the frame is set",
            Refusal::CodeIndex => "a code index of the frame has no position",
            Refusal::FieldWidth => "a field is wider than its bits",
            Refusal::ImageLength => "the image is not 526 bytes long",
            Refusal::ShelfLength => "the shelf's records or images, or the room for a slot, are of another length",
            Refusal::NoSlot => "there is no such slot, or it has no users",
            Refusal::SlotFull => "no slot is free, or the slot has 255 users",
            Refusal::NoFrame => "no save is at or below the frame, or the recording has no such frame",
        })?;
        match self {
            Refusal::TablesRule { rule, place } => write!(f, ": rule {rule}, at {} {place}", if *rule == 6 { "byte" } else { "word" }),
            _ => Ok(()),
        }
    }
}

impl Error for Refusal {}

/// What the archive answered.
fn answered(number: u8) -> Result<(), Refusal> {
    Err(match number {
        0 => return Ok(()),
        1 => Refusal::TablesLength,
        3 => Refusal::FrameLength,
        5 => Refusal::ImageRule,
        6 => Refusal::Padding,
        7 => Refusal::CodeIndex,
        8 => Refusal::FieldWidth,
        11 => Refusal::ImageLength,
        12 => Refusal::ShelfLength,
        13 => Refusal::NoSlot,
        14 => Refusal::SlotFull,
        15 => Refusal::NoFrame,
        // 2, a room of another length, is none that this crate lends, and of 4 `Tables::new` alone hears
        _ => unreachable!("the archive answered {number}: it is not the one that this crate was written for"),
    })
}

/// A table set that was checked: its length is right and no set rule is broken.
#[derive(Clone)]
pub struct Tables(Box<[u8]>);

impl Tables {
    /// Checks the bytes of a table file, and keeps a copy of them.
    pub fn new(bytes: &[u8]) -> Result<Tables, Refusal> {
        let mut told = [0; 5];
        match ffi::check_tables(bytes, &mut told) {
            4 => Err(Refusal::TablesRule { rule: told[0], place: u32::from_le_bytes([told[1], told[2], told[3], told[4]]) as usize }),
            number => answered(number).map(|()| Tables(bytes.into())),
        }
    }
}

impl fmt::Debug for Tables {
    fn fmt(&self, f: &mut fmt::Formatter<'_>) -> fmt::Result {
        f.write_str("Tables(..)")
    }
}

/// The fields of half a frame, 160 samples: numbers of so many bits as are said, by the names that the decoder's source has for them.
#[derive(Clone, Copy, Debug, Default, PartialEq, Eq, Hash)]
pub struct Half {
    /// The low part of the first subframe's gain index, 4 bits.
    pub gain_low0: u16,
    /// That of the second, 4 bits.
    pub gain_low1: u16,
    /// The fixed codebook's index of the first subframe, 16 bits.
    pub code0: u16,
    /// That of the second, 16 bits.
    pub code1: u16,
    /// The high part of the first subframe's gain index, 3 bits.
    pub gain_high0: u16,
    /// That of the second, 3 bits.
    pub gain_high1: u16,
    /// Which of two predictions the line spectral frequencies have, 1 bit.
    pub mode: u16,
    /// Their first codebook's index, 7 bits.
    pub stage1: u16,
    /// The second's for the low frequencies, 6 bits.
    pub stage2_low: u16,
    /// And for the high ones, 6 bits.
    pub stage2_high: u16,
    /// The first subframe's lag, 8 bits.
    pub absolute_pitch: u16,
    /// The second's, from there, 5 bits.
    pub relative_pitch: u16,
}

impl Half {
    fn new(n: [u16; 12]) -> Half {
        let [gain_low0, gain_low1, code0, code1, gain_high0, gain_high1, mode, stage1, stage2_low, stage2_high, absolute_pitch, relative_pitch] = n;
        Half { gain_low0, gain_low1, code0, code1, gain_high0, gain_high1, mode, stage1, stage2_low, stage2_high, absolute_pitch, relative_pitch }
    }

    fn numbers(&self) -> [u16; 12] {
        let Half { gain_low0, gain_low1, code0, code1, gain_high0, gain_high1, mode, stage1, stage2_low, stage2_high, absolute_pitch, relative_pitch } = *self;
        [gain_low0, gain_low1, code0, code1, gain_high0, gain_high1, mode, stage1, stage2_low, stage2_high, absolute_pitch, relative_pitch]
    }
}

/// A frame taken apart: what its bits say, without the tables that give it a sound.
///
/// ```
/// use drolkhise::Fields;
///
/// let mut fields = Fields::unpack(&[0; 20])?;
/// assert_eq!((fields.first.stage2_low, fields.second.stage2_low), (1, 0)); // one bit of a frame is sent inverted
/// fields.second.code1 = 0xffff;
/// let frame = fields.pack()?;
/// assert_eq!(Fields::unpack(&frame)?, fields);
/// # Ok::<(), drolkhise::Refusal>(())
/// ```
#[derive(Clone, Copy, Debug, Default, PartialEq, Eq, Hash)]
pub struct Fields {
    /// Of the first 160 samples.
    pub first: Half,
    /// Of the others.
    pub second: Half,
}

impl Fields {
    /// The fields of a frame. Refused are another length than [`FRAME`] and a padding bit that is set. One that a decoder refuses with [`Refusal::CodeIndex`]
    /// has fields too.
    pub fn unpack(frame: &[u8]) -> Result<Fields, Refusal> {
        let mut room = [0; 48];
        answered(ffi::unpack(frame, &mut room))?;
        let half = |h: usize| Half::new(std::array::from_fn(|k| u16::from_le_bytes([room[24 * h + 2 * k], room[24 * h + 2 * k + 1]])));
        Ok(Fields { first: half(0), second: half(1) })
    }

    /// The frame that has these fields. Refused is a field that is wider than its bits, with [`Refusal::FieldWidth`].
    pub fn pack(&self) -> Result<[u8; FRAME], Refusal> {
        let (mut room, mut frame) = ([0; 48], [0; FRAME]);
        for (bytes, n) in room.chunks_exact_mut(2).zip(self.first.numbers().into_iter().chain(self.second.numbers())) {
            bytes.copy_from_slice(&n.to_le_bytes());
        }
        answered(ffi::pack(&room, &mut frame))?;
        Ok(frame)
    }
}

/// What a frame gave.
#[derive(Clone, Debug, PartialEq, Eq)]
pub struct Decoded {
    /// How far to trust it: 2, lags, gains and filters are the sender's; 0 or 1, the decoder is still recovering.
    pub mark: u8,
    /// The sound, 8,000 samples a second.
    pub samples: [i16; SAMPLES],
}

/// The samples that a room of two bytes each holds.
fn samples(room: &[u8]) -> [i16; SAMPLES] {
    let mut samples = [0; SAMPLES];
    for (sample, bytes) in samples.iter_mut().zip(room.chunks_exact(2)) {
        *sample = i16::from_le_bytes([bytes[0], bytes[1]]);
    }
    samples
}

/// A call that is being decoded: a table set, and the image of the decoder's state.
#[derive(Clone, PartialEq, Eq)]
pub struct Decoder<'t> {
    tables: &'t [u8],
    image: [u8; IMAGE],
}

impl<'t> Decoder<'t> {
    /// Begins a call that is heard from its first frame: in the state that the sender began in, with mark 2.
    pub fn reset(tables: &'t Tables) -> Decoder<'t> {
        Decoder::begin(tables, ffi::reset)
    }

    /// Begins a call that may have been joined late: in the same state, with mark 0.
    pub fn cold(tables: &'t Tables) -> Decoder<'t> {
        Decoder::begin(tables, ffi::cold_start)
    }

    fn begin(tables: &'t Tables, call: fn(&[u8], &mut [u8]) -> u8) -> Decoder<'t> {
        let mut image = [0; IMAGE];
        answered(call(&tables.0, &mut image)).expect("tables were checked, and the image has the right length");
        Decoder { tables: &tables.0, image }
    }

    /// Goes on from an image that [`Decoder::image`] gave, under the tables that it was made with.
    ///
    /// Refused are another length, and bytes that are no decoder's. Which tables an image was made with cannot be told from it.
    pub fn from_image(tables: &'t Tables, image: &[u8]) -> Result<Decoder<'t>, Refusal> {
        let image: [u8; IMAGE] = image.try_into().map_err(|_| Refusal::ImageLength)?;
        // a missed frame looks at the whole image and writes the last two bytes alone, here a copy's
        answered(ffi::missed_frame(&mut image.clone()))?;
        Ok(Decoder { tables: &tables.0, image })
    }

    /// All that is carried from frame to frame: to be kept, and decoded on from by [`Decoder::from_image`].
    pub fn image(&self) -> &[u8; IMAGE] {
        &self.image
    }

    /// The mark that the next frame will be answered with.
    pub fn mark(&self) -> u8 {
        self.image[IMAGE - 2]
    }

    /// Whether, with mark 2, the next frame's excitation is the sender's throughout.
    pub fn is_sure(&self) -> bool {
        self.mark() == 2 && self.image[IMAGE - 1] == 2
    }

    /// Decodes a frame. Refused, it counts as lost: the mark falls to 0, what was sure is not, and nothing else changes.
    pub fn decode(&mut self, frame: &[u8]) -> Result<Decoded, Refusal> {
        let mark = self.mark();
        let mut room = [0; 2 * SAMPLES];
        answered(ffi::decode(self.tables, &mut self.image, frame, &mut room))?;
        Ok(Decoded { mark, samples: samples(&room) })
    }

    /// Decodes 1 to [`MOST_FRAMES`] frames that are laid end to end: each is answered as [`Decoder::decode`] would, one after the other, and the decoder is then
    /// where those calls would have left it. Tables and image are looked through once, so this is a little faster.
    ///
    /// Where there are not 1 to 64 whole frames nothing is decoded, and that counts as a loss.
    ///
    /// ```
    /// # use drolkhise::{Decoder, Refusal, Tables, FRAME};
    /// # let file = std::fs::read(concat!(env!("CARGO_MANIFEST_DIR"), "/../../demo/tables.bin")).unwrap();
    /// # let tables = Tables::new(&file)?;
    /// let mut call = Decoder::reset(&tables);
    /// let mut frames = [0; 3 * FRAME];
    /// frames[2 * FRAME - 1] = 0x40; // a padding bit of the second
    /// let heard = call.decode_frames(&frames)?;
    /// assert_eq!(heard[0].as_ref().map(|first| first.mark), Ok(2));
    /// assert_eq!(heard[1], Err(Refusal::Padding));
    /// assert_eq!(heard[2].as_ref().map(|third| third.mark), Ok(0));
    /// # Ok::<(), Refusal>(())
    /// ```
    pub fn decode_frames(&mut self, frames: &[u8]) -> Result<Vec<Result<Decoded, Refusal>>, Refusal> {
        let count = (frames.len() / FRAME).min(MOST_FRAMES); // more are refused, and need no room
        let (mut room, mut numbers) = (vec![0; 2 * SAMPLES * count], vec![0; count]);
        let mut mark = self.mark();
        answered(ffi::decode_frames(self.tables, &mut self.image, frames, &mut room, &mut numbers))?;
        let heard = numbers.iter().zip(room.chunks_exact(2 * SAMPLES)).map(|(&number, room)| {
            let heard = answered(number).map(|()| Decoded { mark, samples: samples(room) });
            mark = if heard.is_ok() { 2.min(mark + 1) } else { 0 };
            heard
        });
        Ok(heard.collect())
    }

    /// Tells that a frame of the call did not arrive, or several together: the mark falls to 0.
    pub fn missed(&mut self) {
        let number = ffi::missed_frame(&mut self.image);
        debug_assert_eq!(number, 0, "a decoder's image is a decoder's");
    }
}

impl fmt::Debug for Decoder<'_> {
    fn fmt(&self, f: &mut fmt::Formatter<'_>) -> fmt::Result {
        f.debug_struct("Decoder").field("mark", &self.mark()).finish_non_exhaustive()
    }
}

/// Up to [`SLOTS`] decoders, each as it stood before some frame: to go back in a call, or to let several listeners stand at different frames of it.
///
/// What is saved has a handle, a [`Saved`], and is kept until its last handle is dropped; its room is then used again. Threads may share a shelf.
///
/// A handle borrows its shelf, and whoever uses it borrows the handle or has one of its own ([`Saved::hold`]). So nothing can be let go that is still to be used:
///
/// ```
/// # use drolkhise::{Decoder, Refusal, Saved, Shelf, Tables};
/// # let file = std::fs::read(concat!(env!("CARGO_MANIFEST_DIR"), "/../../demo/tables.bin")).unwrap();
/// # let tables = Tables::new(&file)?;
/// struct Player<'p> {
///     from: Saved<'p, 'p>,
/// }
/// let shelf = Shelf::new();
/// let saved = shelf.save(&Decoder::reset(&tables), 0)?;
/// let player = Player { from: saved.hold()? };
/// drop(saved);
/// player.from.fetch()?; // what was saved
/// # Ok::<(), Refusal>(())
/// ```
///
/// Here it would be: the player only points at what it plays from. That does not compile.
///
/// ```compile_fail,E0505
/// # use drolkhise::{Decoder, Refusal, Saved, Shelf, Tables};
/// # let file = std::fs::read(concat!(env!("CARGO_MANIFEST_DIR"), "/../../demo/tables.bin")).unwrap();
/// # let tables = Tables::new(&file)?;
/// struct Player<'p> {
///     from: &'p Saved<'p, 'p>,
/// }
/// let shelf = Shelf::new();
/// let saved = shelf.save(&Decoder::reset(&tables), 0)?;
/// let player = Player { from: &saved };
/// drop(saved);
/// player.from.fetch()?; // another's, if a save had come between
/// # Ok::<(), Refusal>(())
/// ```
///
/// Nor do a handle that is let go twice, and one that outlives its shelf:
///
/// ```compile_fail,E0382
/// # use drolkhise::{Decoder, Refusal, Shelf, Tables};
/// # let file = std::fs::read(concat!(env!("CARGO_MANIFEST_DIR"), "/../../demo/tables.bin")).unwrap();
/// # let tables = Tables::new(&file)?;
/// # let shelf = Shelf::new();
/// let saved = shelf.save(&Decoder::reset(&tables), 0)?;
/// drop(saved);
/// drop(saved);
/// # Ok::<(), Refusal>(())
/// ```
///
/// ```compile_fail,E0505
/// # use drolkhise::{Decoder, Refusal, Shelf, Tables};
/// # let file = std::fs::read(concat!(env!("CARGO_MANIFEST_DIR"), "/../../demo/tables.bin")).unwrap();
/// # let tables = Tables::new(&file)?;
/// # let shelf = Shelf::new();
/// let saved = shelf.save(&Decoder::reset(&tables), 0)?;
/// drop(shelf);
/// saved.fetch()?;
/// # Ok::<(), Refusal>(())
/// ```
pub struct Shelf(Mutex<Room>);

/// The bytes that the archive's shelf is lent.
struct Room {
    records: [u8; 5 * SLOTS],
    images: Box<[u8]>,
}

impl Shelf {
    /// An empty shelf.
    pub fn new() -> Shelf {
        Shelf(Mutex::new(Room { records: [0; 5 * SLOTS], images: vec![0; SLOTS * IMAGE].into() }))
    }

    fn room(&self) -> MutexGuard<'_, Room> {
        // no thread panics between two writes to the room, so what one left that panicked is a shelf
        self.0.lock().unwrap_or_else(PoisonError::into_inner)
    }

    /// Keeps a decoder as it stands, before the frame of this number. Refused with [`Refusal::SlotFull`] where [`SLOTS`] are kept already.
    pub fn save<'t>(&self, decoder: &Decoder<'t>, frame: u32) -> Result<Saved<'_, 't>, Refusal> {
        let mut slot = [0];
        let mut room = self.room();
        let Room { records, images } = &mut *room;
        answered(ffi::shelf_save(records, images, &decoder.image, frame, &mut slot))?;
        Ok(Saved { shelf: self, tables: decoder.tables, slot: slot[0].into(), frame })
    }

    /// The decoder that is to decode a frame of a recording: from what is saved for the largest number not above the frame's, forward over the lines between,
    /// missed and refused ones too.
    ///
    /// The recording is its text; its frames are its lines, from 0, a first line `+` not counted. If each decoder on the shelf stood before the frame of its
    /// number in this recording, under these tables, it is the one that playing from the start gives. Refused with [`Refusal::NoFrame`] where nothing is saved
    /// at or below the frame, or the recording has no such frame.
    pub fn seek<'t>(&self, tables: &'t Tables, recording: &[u8], frame: u32) -> Result<Decoder<'t>, Refusal> {
        let mut image = [0; IMAGE];
        // copies, so that other threads need not wait while lines are decoded
        let (records, images) = {
            let room = self.room();
            (room.records, room.images.clone())
        };
        answered(ffi::seek(&tables.0, &records, &images, recording, frame, &mut image))?;
        Ok(Decoder { tables: &tables.0, image })
    }
}

impl Default for Shelf {
    fn default() -> Shelf {
        Shelf::new()
    }
}

impl fmt::Debug for Shelf {
    fn fmt(&self, f: &mut fmt::Formatter<'_>) -> fmt::Result {
        f.write_str("Shelf(..)")
    }
}

/// A handle of a decoder on a [`Shelf`]. Dropped, it lets go of it.
#[must_use = "what is saved is let go of when its handle is dropped"]
pub struct Saved<'s, 't> {
    shelf: &'s Shelf,
    tables: &'t [u8],
    slot: u32,
    frame: u32,
}

impl<'s, 't> Saved<'s, 't> {
    /// The number of the frame that it was saved before.
    pub fn frame(&self) -> u32 {
        self.frame
    }

    /// The decoder as it was saved. It is a copy: what it decodes changes nothing on the shelf.
    ///
    /// A handle's slot has users and holds what was saved there, so no handle of this crate is refused; the answer is the archive's all the same.
    pub fn fetch(&self) -> Result<Decoder<'t>, Refusal> {
        let mut image = [0; IMAGE];
        let room = self.shelf.room();
        answered(ffi::shelf_fetch(&room.records, &room.images, self.slot, &mut image))?;
        Ok(Decoder { tables: self.tables, image })
    }

    /// One more handle of the same. It is not `Clone`, which cannot refuse: the [`MOST_HANDLES`] that there may be are kept to by [`Refusal::SlotFull`].
    pub fn hold(&self) -> Result<Saved<'s, 't>, Refusal> {
        let mut room = self.shelf.room();
        let Room { records, images } = &mut *room;
        answered(ffi::shelf_hold(records, images, self.slot))?;
        Ok(Saved { shelf: self.shelf, tables: self.tables, slot: self.slot, frame: self.frame })
    }
}

impl Drop for Saved<'_, '_> {
    fn drop(&mut self) {
        let mut room = self.shelf.room();
        let Room { records, images } = &mut *room;
        let number = ffi::shelf_let_go(records, images, self.slot);
        debug_assert_eq!(number, 0, "a handle's slot has users");
    }
}

impl fmt::Debug for Saved<'_, '_> {
    fn fmt(&self, f: &mut fmt::Formatter<'_>) -> fmt::Result {
        f.debug_struct("Saved").field("frame", &self.frame).finish_non_exhaustive()
    }
}
