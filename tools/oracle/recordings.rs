//! Recordings for a table set: most frames are accepted, stretches of several kinds follow each other, and some lines are damaged.
use super::codebook;
use super::probe::{digits_fit, fields, FIELDS};
use crate::celp::Native;
use crate::random::Random;
use std::io::Write;

/// The frame bit of each bit of each field, lowest first: a bit that is set changes one field, by one power of two.
fn places() -> [Vec<usize>; FIELDS] {
    let zero = fields(&[0; 20]).unwrap();
    let mut places: [Vec<usize>; FIELDS] = std::array::from_fn(|_| vec![0; 16]);
    let mut widths = [0; FIELDS];
    for bit in 0..158 {
        let mut payload = [0; 20];
        payload[bit / 8] = 1 << (bit % 8);
        let one = fields(&payload).unwrap();
        for f in 0..FIELDS {
            if one[f] != zero[f] {
                places[f][(one[f] ^ zero[f]).trailing_zeros() as usize] = bit;
                widths[f] += 1;
            }
        }
    }
    for f in 0..FIELDS {
        places[f].truncate(widths[f]);
    }
    places
}

/// The fields of a frame in the order of `fields`: twelve a half.
const CODES: [usize; 4] = [2, 3, 14, 15];

#[derive(Clone, Copy)]
enum Stretch {
    /// any fields
    Any,
    /// each field near the one before, as in speech
    Near,
    /// the frame before again
    Held,
    /// each field at one of its ends
    Ends,
}

struct Maker {
    r: Random,
    places: [Vec<usize>; FIELDS],
    zero: [u16; FIELDS],
    /// indexes that have a position, by class; no class is empty
    fitting: Vec<Vec<u16>>,
    now: [u16; FIELDS],
}

impl Maker {
    fn new(seed: u64) -> Self {
        let mut classes = vec![Vec::new(); 6];
        for index in (0..=65535).filter(|&i| digits_fit(i)) {
            classes[codebook::decode(index).class].push(index);
        }
        classes.retain(|c| !c.is_empty());
        let mut maker = Maker {
            r: Random::new(seed),
            places: places(),
            zero: fields(&[0; 20]).unwrap(),
            fitting: classes,
            now: [0; FIELDS],
        };
        maker.step(Stretch::Any);
        maker
    }

    fn top(&self, f: usize) -> u16 {
        ((1u32 << self.places[f].len()) - 1) as u16
    }

    fn code(&mut self) -> u16 {
        if self.fitting.is_empty() || self.r.below(200) == 0 {
            return self.r.below(65536) as u16;
        }
        let class = self.r.below(self.fitting.len() as u64) as usize;
        let at = self.r.below(self.fitting[class].len() as u64) as usize;
        self.fitting[class][at]
    }

    fn step(&mut self, stretch: Stretch) {
        if let Stretch::Held = stretch {
            return;
        }
        for f in 0..FIELDS {
            let top = self.top(f);
            self.now[f] = match stretch {
                _ if CODES.contains(&f) => self.code(),
                Stretch::Ends if self.r.below(2) == 0 => 0,
                Stretch::Ends => top,
                Stretch::Near if self.r.below(16) != 0 => {
                    let step = self.r.below(5) as i32 - 2;
                    (self.now[f] as i32 + step).clamp(0, top as i32) as u16
                }
                _ => self.r.below(top as u64 + 1) as u16,
            };
        }
    }

    fn payload(&self) -> [u8; 20] {
        let mut payload = [0; 20];
        for f in 0..FIELDS {
            for (k, &bit) in self.places[f].iter().enumerate() {
                // a bit that is inverted on reading is set in the zero frame's fields
                payload[bit / 8] |= ((((self.now[f] ^ self.zero[f]) >> k) & 1) as u8) << (bit % 8);
            }
        }
        debug_assert_eq!(fields(&payload), Some(self.now));
        payload
    }

    /// A line that is no frame.
    fn damaged(&mut self, text: &mut Vec<u8>) {
        let at = self.r.below(40) as usize;
        match self.r.below(6) {
            0 => text.truncate(at),
            1 => text.clear(),
            2 => text.push(b'0'),
            3 => text.push(b'\r'),
            4 => text[at] = b"gG /:@`x\0\xff"[self.r.below(10) as usize],
            _ => text.extend_from_within(..at + 1),
        }
    }

    fn line(&mut self, damage: u64) -> Vec<u8> {
        let mut payload = self.payload();
        if self.r.below(damage) == 0 {
            payload[19] |= 0x40 << self.r.below(2);
        }
        let mut text: Vec<u8> = payload.iter().flat_map(|b| format!("{b:02x}").into_bytes()).collect();
        if self.r.below(8) == 0 {
            text.make_ascii_uppercase();
        }
        if self.r.below(damage) == 0 {
            self.damaged(&mut text);
        }
        text
    }
}

impl Native {
    /// So many lines for the lent set.
    pub fn recording(count: usize, seed: u64) -> Vec<u8> {
        let mut maker = Maker::new(seed);
        let mut out = Vec::new();
        let (mut left, mut stretch, mut damage) = (0, Stretch::Any, 60);
        for _ in 0..count {
            if left == 0 {
                left = 1 + maker.r.below(60);
                stretch = [Stretch::Any, Stretch::Near, Stretch::Near, Stretch::Held, Stretch::Ends][maker.r.below(5) as usize];
                // now and then a stretch with many losses
                damage = if maker.r.below(12) == 0 { 6 } else { 80 };
            }
            left -= 1;
            maker.step(stretch);
            out.write_all(&maker.line(damage)).unwrap();
            out.push(b'\n');
        }
        out
    }
}
