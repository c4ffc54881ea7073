//! Table sets that obey the set rules, each from a kind and a seed.
//!
//! bare           all words 0 but limit 1, pulses 2, ALT entries 1; all bytes 0
//! smooth         tables that change little from place to place: cosines, round pulses, books and gains along slow curves
//! speech         cosines, a windowed sinc, decaying pulses, moderate gains: tables as a codec would have them
//! moderate       speech, with a tenth of the words and floats drawn anew
//! extreme        words over all 16 bits, floats at ±65,536, ±0 and subnormal, LSP means of -32,768
//! large          speech, with floats at ±65,536 or next to it, table by table
//! subnormal      speech, with subnormal floats, ±0 and the smallest normal ones, table by table
//! lowest         speech, with cosines that give LSPs of -32,768
//! zero_residual  speech, with cosines that stand still or rise, so that the last LPC number is 4,096 or more
//! odd_radix      speech, with odd radices, inverses that are off, radices and inverses of any 16 bits, classes that are empty
//! loud           speech, with interpolation taps that are all large and of one sign and pitch gains at their top, so that prediction and mixing clip
//! two_zeros      bare, with cosines that give every frame the same LSPs, by which two residuals of a subframe are 0; one set, whatever the seed
use crate::lent::{BYTES, WORDS};
use crate::random::Random;
use std::f64::consts::PI;

pub const KINDS: [&str; 12] = [
    "bare",
    "smooth",
    "speech",
    "moderate",
    "extreme",
    "large",
    "subnormal",
    "lowest",
    "zero_residual",
    "odd_radix",
    "loud",
    "two_zeros",
];

pub fn set(kind: &str, seed: u64) -> Vec<u8> {
    let mut r = Random::new(seed);
    let mut words = vec![0i16; WORDS];
    let mut floats = vec![0f32; BYTES / 4];
    bare(&mut words);
    if !["bare", "extreme", "two_zeros"].contains(&kind) {
        speech(&mut r, &mut words, &mut floats);
    }
    match kind {
        "bare" | "speech" => {}
        "smooth" => smooth(&mut r, &mut words, &mut floats),
        "moderate" => moderate(&mut r, &mut words, &mut floats),
        "extreme" => extreme(&mut r, &mut words, &mut floats),
        "large" => redrawn(&mut r, &mut floats, large_float),
        "subnormal" => subnormal(&mut r, &mut words, &mut floats),
        "lowest" => lowest(&mut r, &mut words),
        "zero_residual" => zero_residual(&mut r, seed, &mut words),
        "odd_radix" => odd_radix(&mut r, &mut words),
        "loud" => loud(&mut r, &mut words, &mut floats),
        "two_zeros" => two_zeros(&mut words),
        _ => panic!("no set {kind}: one of {KINDS:?}"),
    }
    let words = words.iter().flat_map(|w| w.to_le_bytes());
    words
        .chain(floats.iter().flat_map(|x| x.to_le_bytes()))
        .collect()
}

fn loud(r: &mut Random, words: &mut [i16], floats: &mut [f32]) {
    for tap in &mut words[148..179] {
        *tap = 3000 + r.below(29000) as i16;
    }
    for gain in &mut floats[..128] {
        *gain = (30000 + r.below(2768)) as f32;
    }
}

fn bare(words: &mut [i16]) {
    words[186] = 1;
    words[193..198].fill(2);
    words[1483..4683].fill(1);
}

fn q15(x: f64) -> i16 {
    (x * 32768.0).round().clamp(-32768.0, 32767.0) as i16
}

fn spread(r: &mut Random, size: f64) -> f64 {
    (r.below(20001) as f64 / 10000.0 - 1.0) * size
}

fn alt_entry(r: &mut Random) -> i16 {
    let place = r.below(80) as i16 + 1;
    if r.below(2) == 0 {
        place
    } else {
        -place
    }
}

fn speech(r: &mut Random, words: &mut [i16], floats: &mut [f32]) {
    for i in 0..64 {
        let at = |k: usize| q15((PI * k as f64 / 64.0).cos()) as i32;
        words[i] = at(i) as i16;
        words[64 + i] = (16 * (at(i + 1) - at(i))).clamp(-32768, 32767) as i16;
    }
    for i in 0..10 {
        let angle = PI * (i + 1) as f64 / 11.0;
        words[128 + i] = q15(angle.cos());
        words[138 + i] = (angle * 8192.0) as i16;
    }
    for n in 0..31 {
        let x = n as f64 / 3.0;
        let sinc = if n == 0 { 1.0 } else { (PI * x).sin() / (PI * x) };
        words[148 + n] = q15(0.98 * sinc * (0.5 + 0.5 * (PI * n as f64 / 31.0).cos()));
    }
    words[179..183].copy_from_slice(&[7400, 600, 150, 40]);
    words[183..186].copy_from_slice(&[-900, 250, -60]);
    // classes 0 to 4 of two, three, two, two and two pulses, then the twin book
    words[186] = -1;
    let bases = [0u16, 6400, 19200, 25600, 32000, 38400];
    for (k, b) in bases.iter().enumerate() {
        words[187 + k] = *b as i16;
    }
    words[193..198].copy_from_slice(&[2, 3, 2, 2, 2]);
    for class in 0..5 {
        let radices: [i32; 3] = if class == 1 { [10, 10, 16] } else { [40, 40, 1] };
        for k in 0..3 {
            words[198 + 3 * class + k] = (r.below(30)) as i16;
            words[213 + 3 * class + k] = radices[k] as i16;
            words[228 + 3 * class + k] = ((131072 + radices[k] - 1) / radices[k]).min(32767) as i16;
        }
    }
    for k in 0..600 {
        words[243 + k] = (2 * (k % 40)) as i16 + r.below(2) as i16;
    }
    for row in 0..32 {
        let sign = if r.below(2) == 0 { 1.0 } else { -1.0 };
        for n in 0..20 {
            let shape = (-(n as f64) / 4.0).exp() * (1.3 * n as f64).cos();
            words[843 + 20 * row + n] = q15(sign * 0.3 * shape + spread(r, 0.01));
        }
    }
    for k in 0..3200 {
        words[1483 + k] = alt_entry(r);
    }
    for row in 0..128 {
        for k in 0..10 {
            words[4683 + 10 * row + k] = (words[138 + k] as f64 + spread(r, 1100.0)) as i16;
        }
    }
    for i in 0..128 {
        floats[i] = (16384.0 * (i % 16) as f64 / 16.0 + spread(r, 400.0)).max(0.0) as f32;
        floats[128 + i] = (0.3 * ((i / 16) as f64 - 3.0) + spread(r, 0.4)) as f32;
    }
    floats[256] = 14.5;
    for i in 0..640 {
        floats[257 + i] = spread(r, 260.0) as f32;
    }
    for mode in 0..2 {
        let taps = [[0.5, 0.25, 0.15, 0.1], [0.7, 0.15, 0.1, 0.05]][mode];
        for tap in 0..4 {
            for k in 0..10 {
                floats[897 + 40 * mode + 10 * tap + k] = (taps[tap] + spread(r, 0.01)) as f32;
            }
        }
    }
}

fn moderate(r: &mut Random, words: &mut [i16], floats: &mut [f32]) {
    for at in (0..186).chain(213..243).chain(843..1483).chain(4683..WORDS) {
        if r.below(10) == 0 {
            words[at] = r.word() as i16;
        }
    }
    for x in floats.iter_mut() {
        if r.below(10) == 0 {
            *x = *x * spread(r, 3.0) as f32;
        }
    }
}

fn extreme_float(r: &mut Random) -> f32 {
    match r.below(10) {
        0 => 65536.0,
        1 => -65536.0,
        2 => 0.0,
        3 => -0.0,
        4 => f32::from_bits(r.below(0x0080_0000) as u32),
        5 => -f32::from_bits(r.below(0x0080_0000) as u32),
        _ => f32::from_bits((r.below(0x4780_0001) as u32) | ((r.below(2) as u32) << 31)),
    }
}

fn extreme(r: &mut Random, words: &mut [i16], floats: &mut [f32]) {
    for at in (0..186).chain(213..243).chain(843..1483).chain(4683..WORDS) {
        words[at] = r.word() as i16;
    }
    if r.below(2) == 0 {
        words[128 + r.below(10) as usize] = -32768;
    }
    words[186] = (r.below(65535) + 1) as u16 as i16;
    let mut bases: Vec<u16> = (0..5).map(|_| r.below(65536) as u16).collect();
    bases.sort();
    for (k, b) in bases.iter().enumerate() {
        words[188 + k] = *b as i16;
    }
    for k in 0..5 {
        words[193 + k] = 2 + r.below(2) as i16;
        words[198 + 3 * k] = r.below(30) as i16;
    }
    // most radices with an inverse that fits, so that frames are accepted; the rest as they fell
    for k in 0..15 {
        if r.below(8) != 0 {
            let radix = 5 + r.below(36) as i32;
            words[213 + k] = radix as i16;
            words[228 + k] = ((131072 + r.below(radix as u64) as i32) / radix) as i16;
        }
    }
    for k in 0..600 {
        words[243 + k] = if r.below(20) == 0 {
            r.below(32768) as i16
        } else {
            r.below(100) as i16
        };
    }
    for k in 0..3200 {
        words[1483 + k] = alt_entry(r);
    }
    for x in floats.iter_mut() {
        *x = extreme_float(r);
    }
    // gains that are not all at the ends
    for i in 0..257 {
        if r.below(2) == 0 {
            floats[i] = spread(r, if i < 128 { 40000.0 } else { 16.0 }) as f32;
        }
    }
}

/// A slow curve within ±1 over 0..=1, another for each draw.
fn curve(r: &mut Random) -> impl Fn(f64) -> f64 {
    let (first, second) = (PI * spread(r, 1.0), PI * spread(r, 1.0));
    move |x| 0.7 * (PI * x + first).cos() + 0.3 * (2.0 * PI * x + second).cos()
}

fn smooth(r: &mut Random, words: &mut [i16], floats: &mut [f32]) {
    let height = curve(r);
    for row in 0..32 {
        for n in 0..20 {
            let round = (PI * (n + 1) as f64 / 21.0).sin();
            words[843 + 20 * row + n] = q15(0.3 * height(row as f64 / 32.0) * round);
        }
    }
    for class in 0..15 {
        for k in 0..40 {
            words[243 + 40 * class + k] = (2 * k) as i16;
        }
    }
    // five pulses 16 apart, one place on from row to row, all of one sign for some rows
    let sign = curve(r);
    for (at, rows) in [(1483, 512), (4043, 128)] {
        for row in 0..rows {
            for k in 0..5 {
                let place = ((row + 16 * k) % 80 + 1) as i16;
                words[at + 5 * row + k] = if sign(row as f64 / rows as f64) < 0.0 { -place } else { place };
            }
        }
    }
    for k in 0..10 {
        let (stage1, low, high) = (curve(r), curve(r), curve(r));
        for row in 0..128 {
            words[4683 + 10 * row + k] = (words[138 + k] as f64 + 900.0 * stage1(row as f64 / 128.0)) as i16;
        }
        for row in 0..64 {
            let x = row as f64 / 64.0;
            floats[257 + 320 * (k / 5) + 5 * row + k % 5] = (200.0 * if k < 5 { low(x) } else { high(x) }) as f32;
        }
    }
    let (pitch, log) = (curve(r), curve(r));
    for i in 0..128 {
        let x = i as f64 / 128.0;
        floats[i] = (8000.0 + 8000.0 * pitch(x)) as f32;
        floats[128 + i] = (1.5 * log(x)) as f32;
    }
}

/// The floats' tables: pitch gains, log gains, the bias, the two books of stage 2, the two prediction matrices.
const FLOAT_TABLES: [std::ops::Range<usize>; 7] = [0..128, 128..256, 256..257, 257..577, 577..897, 897..937, 937..977];

/// Of the tables some are left, some drawn anew, some half of each, so that floats of both kinds meet. A bias drawn anew mostly gives silence.
fn redrawn(r: &mut Random, floats: &mut [f32], draw: fn(&mut Random) -> f32) {
    for table in FLOAT_TABLES {
        let one_in = match r.below(if table.len() == 1 { 8 } else { 3 }) {
            0 => 1,
            1 => 2,
            _ => continue,
        };
        for x in &mut floats[table] {
            if r.below(one_in) == 0 {
                *x = draw(r);
            }
        }
    }
}

fn either(r: &mut Random, x: f32) -> f32 {
    if r.below(2) == 0 {
        x
    } else {
        -x
    }
}

fn large_float(r: &mut Random) -> f32 {
    let size = 65536f32.to_bits() - if r.below(4) == 0 { r.below(5) as u32 } else { 0 };
    either(r, f32::from_bits(size))
}

fn subnormal_float(r: &mut Random) -> f32 {
    let size = match r.below(8) {
        0 => 0,
        1 => 1,
        2 => 0x007f_ffff,
        3 => 0x0080_0000,
        _ => r.below(0x0080_0000) as u32 >> r.below(23),
    };
    either(r, f32::from_bits(size))
}

/// A residual is subnormal where a word of the first stage is 0.
fn subnormal(r: &mut Random, words: &mut [i16], floats: &mut [f32]) {
    redrawn(r, floats, subnormal_float);
    for at in (138..148).chain(4683..WORDS) {
        if r.below(3) == 0 {
            words[at] = 0;
        }
    }
}

fn lowest(r: &mut Random, words: &mut [i16]) {
    for i in 0..64 {
        match r.below(8) {
            0..=3 => (words[i], words[64 + i]) = (-32768, 0),
            4 => (words[i], words[64 + i]) = (-32768, r.word() as i16),
            _ => {}
        }
    }
    for i in 128..138 {
        if r.below(2) == 0 {
            words[i] = -32768;
        }
    }
}

/// The last LPC number is 4,096 and an eighth of what the odd LSPs have more than the even ones.
/// The cosines nearly stand still, go in stairs, rise a little or rise all the way.
fn zero_residual(r: &mut Random, seed: u64, words: &mut [i16]) {
    words[64..128].fill(0);
    let level = r.word() as i16;
    for i in 0..64 {
        words[i] = match seed % 4 {
            0 => level.saturating_add(r.below(4) as i16),
            1 => words[8 * (i / 8)],
            2 => level.saturating_add(i as i16),
            _ => -words[i].max(-32767),
        };
    }
    for i in 128..138 {
        words[i] = words[6 * (i - 128) + 3];
    }
}

/// Where every float is 0 the frequencies are 41, 362 and so on up to 2930, whose cosines stand in entries 0, 0, 1, 2, 3, 4, 4, 5, 6 and 7.
/// These make them the first of probe.rs's TWO_ZEROS; entry 4 has a slope, since the sixth and the seventh differ.
fn two_zeros(words: &mut [i16]) {
    words[..8].copy_from_slice(&[1, -1, 0, -65, -11, 21925, 0, 0]);
    words[64 + 4] = 2130;
    words[128..138].copy_from_slice(&[1, 1, -1, 0, -65, 0, 107, 21925, 0, 0]);
}

fn odd_radix(r: &mut Random, words: &mut [i16]) {
    for class in 0..5 {
        // one digit of a class may be of any radix: some indexes still fit
        let wild = r.below(5) as usize;
        for k in 0..3 {
            let at = 3 * class + k;
            let odd = 2 * r.below(20) as i32 + 1;
            let inverse = (131072 / odd + r.below(3) as i32).min(32767);
            let (radix, inverse) = match (k == wild, r.below(4)) {
                (false, _) => (odd, inverse),
                (true, 0) => (r.word() as i32, r.word() as i32),
                (true, 1) => (-odd, -inverse),
                // the product with an even quotient is cut to that of the odd radix
                (true, _) => (odd - 32768, inverse),
            };
            words[213 + at] = radix as i16;
            words[228 + at] = inverse as i16;
        }
        words[193 + class] = 2 + r.below(2) as i16;
    }
    let mut bases: Vec<u16> = (0..5).map(|_| r.below(50000) as u16).collect();
    if r.below(2) == 0 {
        bases[2] = bases[1];
    }
    bases.sort();
    for (k, b) in bases.iter().enumerate() {
        words[188 + k] = *b as i16;
    }
    if r.below(2) == 0 {
        words[186] = (20000 + r.below(45536)) as u16 as i16;
    }
}
