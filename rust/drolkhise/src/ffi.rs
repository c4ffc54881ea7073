//! The archive's functions as include/drolkhise.h has them, behind functions on slices: all that is `unsafe` of this crate.
//!
//! Any lengths and any bytes may be lent. What a call needs of its caller is that each pointer goes with its length, that what it writes is lent for
//! writing, and that the buffers of one call do not overlap. A slice is such a pointer with such a length, and two slices of which one is `&mut` do
//! not overlap, so every slice will do. Nothing is kept between calls.

extern "C" {
    fn drolkhise_reset(tables: *const u8, tables_length: usize, image: *mut u8, image_length: usize) -> u8;
    fn drolkhise_cold_start(tables: *const u8, tables_length: usize, image: *mut u8, image_length: usize) -> u8;
    #[rustfmt::skip]
    fn drolkhise_decode(
        tables: *const u8,
        tables_length: usize,
        image: *mut u8,
        image_length: usize,
        payload: *const u8,
        payload_length: usize,
        samples: *mut u8,
        samples_length: usize,
    ) -> u8;
    #[rustfmt::skip]
    fn drolkhise_decode_frames(
        tables: *const u8,
        tables_length: usize,
        image: *mut u8,
        image_length: usize,
        payloads: *const u8,
        payloads_length: usize,
        samples: *mut u8,
        samples_length: usize,
        numbers: *mut u8,
        numbers_length: usize,
    ) -> u8;
    fn drolkhise_missed_frame(image: *mut u8, image_length: usize) -> u8;
    fn drolkhise_check_tables(tables: *const u8, tables_length: usize, told: *mut u8, told_length: usize) -> u8;
    fn drolkhise_unpack(payload: *const u8, payload_length: usize, fields: *mut u8, fields_length: usize) -> u8;
    fn drolkhise_pack(fields: *const u8, fields_length: usize, payload: *mut u8, payload_length: usize) -> u8;
    #[rustfmt::skip]
    fn drolkhise_shelf_save(
        records: *mut u8,
        records_length: usize,
        images: *mut u8,
        images_length: usize,
        image: *const u8,
        image_length: usize,
        frame: u32,
        slot: *mut u8,
        slot_length: usize,
    ) -> u8;
    fn drolkhise_shelf_hold(records: *mut u8, records_length: usize, images: *const u8, images_length: usize, slot: u32) -> u8;
    fn drolkhise_shelf_let_go(records: *mut u8, records_length: usize, images: *const u8, images_length: usize, slot: u32) -> u8;
    #[rustfmt::skip]
    fn drolkhise_shelf_fetch(
        records: *const u8,
        records_length: usize,
        images: *const u8,
        images_length: usize,
        slot: u32,
        image: *mut u8,
        image_length: usize,
    ) -> u8;
    #[rustfmt::skip]
    fn drolkhise_seek(
        tables: *const u8,
        tables_length: usize,
        records: *const u8,
        records_length: usize,
        images: *const u8,
        images_length: usize,
        recording: *const u8,
        recording_length: usize,
        frame: u32,
        image: *mut u8,
        image_length: usize,
    ) -> u8;
}

pub fn reset(tables: &[u8], image: &mut [u8]) -> u8 {
    // SAFETY: reads `tables`, writes `image`: each pointer with its own slice's length, and the two do not overlap.
    unsafe { drolkhise_reset(tables.as_ptr(), tables.len(), image.as_mut_ptr(), image.len()) }
}

pub fn cold_start(tables: &[u8], image: &mut [u8]) -> u8 {
    // SAFETY: as for `reset`.
    unsafe { drolkhise_cold_start(tables.as_ptr(), tables.len(), image.as_mut_ptr(), image.len()) }
}

pub fn decode(tables: &[u8], image: &mut [u8], payload: &[u8], samples: &mut [u8]) -> u8 {
    // SAFETY: reads `tables` and `payload`, writes `image` and `samples`: each pointer with its own slice's length. The two that are written overlap
    // nothing; the two that are only read might be one, which nothing can tell.
    unsafe {
        drolkhise_decode(tables.as_ptr(), tables.len(), image.as_mut_ptr(), image.len(), payload.as_ptr(), payload.len(), samples.as_mut_ptr(), samples.len())
    }
}

pub fn decode_frames(tables: &[u8], image: &mut [u8], payloads: &[u8], samples: &mut [u8], numbers: &mut [u8]) -> u8 {
    // SAFETY: as for `decode`, with `numbers` written too, and `samples` read before it is written: a slice has been given values.
    unsafe {
        drolkhise_decode_frames(
            tables.as_ptr(),
            tables.len(),
            image.as_mut_ptr(),
            image.len(),
            payloads.as_ptr(),
            payloads.len(),
            samples.as_mut_ptr(),
            samples.len(),
            numbers.as_mut_ptr(),
            numbers.len(),
        )
    }
}

pub fn missed_frame(image: &mut [u8]) -> u8 {
    // SAFETY: writes `image`, a pointer with its own slice's length.
    unsafe { drolkhise_missed_frame(image.as_mut_ptr(), image.len()) }
}

pub fn check_tables(tables: &[u8], told: &mut [u8]) -> u8 {
    // SAFETY: reads `tables`, writes `told`: each pointer with its own slice's length, and the two do not overlap.
    unsafe { drolkhise_check_tables(tables.as_ptr(), tables.len(), told.as_mut_ptr(), told.len()) }
}

pub fn unpack(payload: &[u8], fields: &mut [u8]) -> u8 {
    // SAFETY: reads `payload`, writes `fields`: each pointer with its own slice's length, and the two do not overlap.
    unsafe { drolkhise_unpack(payload.as_ptr(), payload.len(), fields.as_mut_ptr(), fields.len()) }
}

pub fn pack(fields: &[u8], payload: &mut [u8]) -> u8 {
    // SAFETY: reads `fields`, writes `payload`: each pointer with its own slice's length, and the two do not overlap.
    unsafe { drolkhise_pack(fields.as_ptr(), fields.len(), payload.as_mut_ptr(), payload.len()) }
}

pub fn shelf_save(records: &mut [u8], images: &mut [u8], image: &[u8], frame: u32, slot: &mut [u8]) -> u8 {
    // SAFETY: reads `image`, writes `records`, `images` and `slot`, reading the first two before: each pointer with its own slice's length. The three that
    // are written overlap nothing.
    unsafe {
        drolkhise_shelf_save(
            records.as_mut_ptr(),
            records.len(),
            images.as_mut_ptr(),
            images.len(),
            image.as_ptr(),
            image.len(),
            frame,
            slot.as_mut_ptr(),
            slot.len(),
        )
    }
}

pub fn shelf_hold(records: &mut [u8], images: &[u8], slot: u32) -> u8 {
    // SAFETY: writes `records`, and of `images` looks at the length alone: each pointer with its own slice's length, and the two do not overlap. Any number
    // may be a slot's.
    unsafe { drolkhise_shelf_hold(records.as_mut_ptr(), records.len(), images.as_ptr(), images.len(), slot) }
}

pub fn shelf_let_go(records: &mut [u8], images: &[u8], slot: u32) -> u8 {
    // SAFETY: as for `shelf_hold`.
    unsafe { drolkhise_shelf_let_go(records.as_mut_ptr(), records.len(), images.as_ptr(), images.len(), slot) }
}

pub fn shelf_fetch(records: &[u8], images: &[u8], slot: u32, image: &mut [u8]) -> u8 {
    // SAFETY: reads `records` and `images`, writes `image`: each pointer with its own slice's length. What is written overlaps nothing.
    unsafe { drolkhise_shelf_fetch(records.as_ptr(), records.len(), images.as_ptr(), images.len(), slot, image.as_mut_ptr(), image.len()) }
}

pub fn seek(tables: &[u8], records: &[u8], images: &[u8], recording: &[u8], frame: u32, image: &mut [u8]) -> u8 {
    // SAFETY: reads `tables`, `records`, `images` and `recording`, writes `image`: each pointer with its own slice's length. What is written overlaps
    // nothing; of what is only read some might be one, which nothing can tell.
    unsafe {
        drolkhise_seek(
            tables.as_ptr(),
            tables.len(),
            records.as_ptr(),
            records.len(),
            images.as_ptr(),
            images.len(),
            recording.as_ptr(),
            recording.len(),
            frame,
            image.as_mut_ptr(),
            image.len(),
        )
    }
}
