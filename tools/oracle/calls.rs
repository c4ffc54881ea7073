//! The desk player's calls (document 02, T-07 and T-08), answered by the Rust, beside the answers that tools/test_c.c met in the proved ones.
//! The tests of lengths, set and state, and what is written when, are documents 01's and 02's; the Rust has none of them.
use super::postfilter::OutputFilter;
use super::trace::{refusal, sure_after, Memory};
use crate::celp::Native;
use crate::lent;
use std::io::Read;

const IMAGE: usize = 526;
const MARK: usize = IMAGE - 2;
const SURE: usize = IMAGE - 1;

/// Takes an image apart, or puts one together, from its front.
struct Reader<'a>(&'a [u8]);

impl Reader<'_> {
    fn bytes<const N: usize>(&mut self) -> [u8; N] {
        let (front, rest) = self.0.split_first_chunk().unwrap();
        self.0 = rest;
        *front
    }
    fn word(&mut self) -> i16 {
        i16::from_le_bytes(self.bytes())
    }
    fn float(&mut self) -> f32 {
        f32::from_le_bytes(self.bytes())
    }
}

/// Document 01's set rules.
fn sound(tables: &[u8]) -> bool {
    let words: Vec<i16> = tables[..2 * lent::WORDS].chunks(2).map(|p| i16::from_le_bytes([p[0], p[1]])).collect();
    let mut floats = tables[2 * lent::WORDS..].chunks(4).map(|p| f32::from_le_bytes(p.try_into().unwrap()));
    let bases: Vec<u16> = words[187..193].iter().map(|&w| w as u16).collect();
    words[186] != 0
        && bases[0] == 0
        && bases.is_sorted()
        && words[193..198].iter().all(|n| (2..=3).contains(n))
        && (0..5).all(|k| (0..=29).contains(&words[198 + 3 * k]))
        && words[243..843].iter().all(|&p| p >= 0)
        && words[1483..4683].iter().all(|&e| e != 0 && (-80..=80).contains(&e))
        && floats.all(|x| x.abs() <= 65536.0)
}

/// Document 01's state rule, with T-14's number.
fn obeys(image: &[u8]) -> bool {
    image[388..MARK].chunks(4).all(|p| f32::from_le_bytes(p.try_into().unwrap()).abs() <= 131072.0) && image[MARK] <= 2 && image[SURE] <= 2
}

/// A decoder in the state that an image holds. What no frame may depend on is junk.
fn restored(image: &[u8]) -> Native {
    let mut native = Native::default();
    let mut r = Reader(image);
    let core = &mut native.core;
    core.previous_lsp = std::array::from_fn(|_| r.word());
    core.excitation = std::array::from_fn(|k| if k < 154 { r.word() } else { 31 * k as i16 });
    core.synthesis_memory = std::array::from_fn(|_| r.word());
    core.sharpen_fixed = r.word();
    core.sharpen_voiced = -77;
    core.last_half_lag = r.word();
    core.previous_lag = core.last_half_lag;
    let memory = Memory {
        fir: std::array::from_fn(|_| r.word()),
        iir: std::array::from_fn(|_| i32::from_le_bytes(r.bytes()) as i64),
    };
    core.output_filter = unsafe { std::mem::transmute::<Memory, OutputFilter>(memory) };
    native.spectrum.history.as_flattened_mut().fill_with(|| r.float());
    native.gain.history = std::array::from_fn(|_| r.float());
    native
}

fn image_of(native: &Native, mark: u8, sure: u8) -> Vec<u8> {
    let core = &native.core;
    let memory = super::trace::memory(&core.output_filter);
    let mut out = Vec::new();
    let mut words = |w: &[i16]| out.extend(w.iter().flat_map(|x| x.to_le_bytes()));
    words(&core.previous_lsp);
    words(&core.excitation[..154]);
    words(&core.synthesis_memory);
    words(&[core.sharpen_fixed, core.last_half_lag]);
    words(&memory.fir);
    out.extend(memory.iir.iter().flat_map(|&x| i32::try_from(x).expect("32 bits").to_le_bytes()));
    out.extend(native.spectrum.history.as_flattened().iter().chain(&native.gain.history).flat_map(|x| x.to_le_bytes()));
    out.push(mark);
    out.push(sure);
    out
}

/// The call's number; image, samples and numbers become what they are after it.
fn call(which: u8, tables: &[u8], image: &mut Vec<u8>, payload: &[u8], samples: &mut Vec<u8>, numbers: &mut [u8]) -> u8 {
    if image.len() != IMAGE {
        return 11;
    }
    let set = |tables: &[u8]| match tables.len() == 2 * lent::WORDS + lent::BYTES {
        false => 1,
        true if !sound(tables) => 4,
        true => 0,
    };
    if which == 3 {
        let number = if obeys(image) { 0 } else { 5 };
        image[MARK..].fill(0);
        return number;
    }
    if which < 2 {
        let number = set(tables);
        *image = vec![0; IMAGE];
        if number == 0 {
            lent::fill(tables);
            let begun = if which == 0 { 2 } else { 0 };
            *image = image_of(&Native::default(), begun, begun);
        }
        return number;
    }
    if which == 4 {
        let n = payload.len() / 20;
        let number = if set(tables) == 1 {
            1
        } else if payload.len() % 20 != 0 || !(1..=64).contains(&n) {
            3
        } else if samples.len() != 640 * n || numbers.len() != n {
            2
        } else if set(tables) == 4 {
            4
        } else if !obeys(image) {
            5
        } else {
            0
        };
        if number != 0 {
            image[MARK..].fill(0);
            return number;
        }
        for k in 0..n {
            let mut room = samples[640 * k..640 * (k + 1)].to_vec();
            numbers[k] = call(2, tables, image, &payload[20 * k..20 * (k + 1)], &mut room, &mut []);
            samples[640 * k..640 * (k + 1)].copy_from_slice(&room);
        }
        return 0;
    }
    let mut number = if set(tables) == 1 {
        1
    } else if samples.len() != 640 {
        2
    } else if payload.len() != 20 {
        3
    } else if set(tables) == 4 {
        4
    } else if !obeys(image) {
        5
    } else {
        0
    };
    if number == 0 {
        lent::fill(tables);
        number = refusal(payload.try_into().unwrap());
    }
    if number != 0 {
        image[MARK..].fill(0);
        return number;
    }
    let mut native = restored(image);
    let seen = native.decode(payload.try_into().unwrap()).unwrap();
    let (sure, _) = sure_after(image[MARK], image[SURE], &seen.gain);
    *image = image_of(&native, (image[MARK] + 1).min(2), sure);
    *samples = seen.pcm.iter().flat_map(|x| x.to_le_bytes()).collect();
    0
}

const NAMES: [&str; 5] = ["reset", "cold start", "decode", "missed frame", "decode frames"];

impl Native {
    /// Calls as test_c.c wrote them, over the table files: how many of each kind and number were the same, or the first that was not.
    pub fn calls(sets: &[Vec<u8>], input: &mut impl Read) -> Result<String, String> {
        super::trace::check_layout();
        let mut counts = [[0u64; 12]; 5];
        let mut n = 0;
        loop {
            let mut head = [0; 29];
            match input.read(&mut head[..1]).unwrap() {
                0 => break,
                _ => input.read_exact(&mut head[1..]).map_err(|_| "the calls end in the middle of one")?,
            }
            n += 1;
            let [which, set, number, fill, spoilt] = head[..5].try_into().unwrap();
            let size = |k: usize| u32::from_le_bytes(head[5 + 4 * k..9 + 4 * k].try_into().unwrap()) as usize;
            let mut take = |n: usize| {
                let mut bytes = vec![0; n];
                input.read_exact(&mut bytes).map_err(|_| "the calls end in the middle of one")?;
                Ok::<_, String>(bytes)
            };
            let (mut image, payload, image_after, samples_after, numbers_after) = (take(size(2))?, take(size(3))?, take(size(2))?, take(size(4))?, take(size(5))?);
            let (mut samples, mut numbers) = (vec![fill; size(4)], vec![fill; size(5)]);
            let mut tables = sets[set as usize].clone();
            tables.resize(size(1), 0);
            if let Some(byte) = tables.get_mut(size(0)) {
                *byte ^= spoilt;
            }
            let wanted = call(which, &tables, &mut image, &payload, &mut samples, &mut numbers);
            let name = NAMES[which as usize];
            let lengths = format!("{} bytes of tables, {} of an image, {} of a payload, {} for samples, {} for numbers", size(1), size(2), size(3), size(4), size(5));
            let what = format!("call {n}, {name}, set {set}, {lengths}");
            if number != wanted {
                return Err(format!("{what}: the Rust {wanted}, ours {number}"));
            }
            for (part, rust, ours) in [("image", &image, &image_after), ("samples", &samples, &samples_after), ("numbers", &numbers, &numbers_after)] {
                if let Some(at) = (0..rust.len()).find(|&k| rust[k] != ours[k]) {
                    return Err(format!("{what}, answered {number}: byte {at} of the {part}: the Rust {}, ours {}", rust[at], ours[at]));
                }
            }
            counts[which as usize][number as usize] += 1;
        }
        let mut parts = Vec::new();
        for (name, by_number) in NAMES.iter().zip(&counts) {
            let refused: Vec<String> = (1..12).filter(|&k| by_number[k] != 0).map(|k| format!("{} with {k}", by_number[k])).collect();
            parts.push(format!("{name} {} accepted, {} refused ({})", by_number[0], by_number[1..].iter().sum::<u64>(), refused.join(", ")));
        }
        Ok(format!("{n} calls: {}", parts.join("; ")))
    }
}
