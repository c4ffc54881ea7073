//! Questions to the Rust and its answers, one line each, numbers in decimal.
//! This module is a descendant of `celp`, so it sees what is private there; main.rs reaches it through `Native`.
use super::fixed::*;
use super::{codebook, excitation, lsp, pitch, postfilter, synth};
use crate::celp::gain::GainState;
use crate::celp::spectral::{to_lsp, Spectral};
use crate::celp::{bits, post_fec, Native};
use crate::random::Random;

pub type Question = Vec<i64>;

impl Native {
    pub fn questions(module: &str, seed: u64) -> Vec<Question> {
        questions(module, seed)
    }
    pub fn answer(module: &str, q: &[i64]) -> Vec<i64> {
        answer(module, q)
    }
    pub fn two_zeros(tries: u64, seed: u64) -> Vec<Question> {
        two_zeros(tries, seed)
    }
}

fn questions(module: &str, seed: u64) -> Vec<Question> {
    let mut r = Random::new(seed);
    match module {
        "fixed" => fixed_questions(&mut r),
        "synth" => synth_questions(&mut r),
        "bits" | "receiver" => bits_questions(&mut r),
        "lsp" => lsp_questions(&mut r),
        "pitch" => pitch_questions(&mut r),
        "codebook" => codebook_questions(&mut r),
        "excitation" => excitation_questions(&mut r),
        "postfilter" => postfilter_questions(&mut r),
        "narrow" => narrow_questions(&mut r),
        "spectral" => spectral_questions(&mut r),
        "gain" => gain_questions(&mut r),
        _ => panic!("no questions for {module}"),
    }
}

fn answer(module: &str, q: &[i64]) -> Vec<i64> {
    match module {
        "fixed" => fixed_answer(q),
        "synth" => synth_answer(q),
        "bits" => bits_answer(q),
        "receiver" => receiver_answer(q),
        "lsp" => lsp_answer(q),
        "pitch" | "narrow" => pitch_answer(q),
        "codebook" => codebook_answer(q),
        "excitation" => excitation_answer(q),
        "postfilter" => postfilter_answer(q),
        "spectral" => spectral_answer(q),
        "gain" => gain_answer(q),
        _ => panic!("no answers for {module}"),
    }
}

const EDGES: [i64; 18] = [
    0,
    1,
    -1,
    64,
    32767,
    -32768,
    65535,
    65536,
    i32::MAX as i64,
    i32::MIN as i64,
    (1 << 39) - 1,
    1 << 39,
    -(1 << 39),
    -(1 << 39) - 1,
    1 << 40,
    i64::MAX,
    i64::MIN,
    -(1 << 30),
];

// 0 acc, 1 sat, 2 hi, 3 low, 4 mul, 5 mul_us, 6 mul32x16, 7 trunc32, 8 exp, 9 shift, 10 restoring_divide, 11 normalised_reciprocal
fn fixed_questions(r: &mut Random) -> Vec<Question> {
    let mut all = Vec::new();
    for op in [0, 1, 2, 3, 7, 8, 11] {
        for v in EDGES {
            all.push(vec![op, v]);
        }
        for _ in 0..40 {
            let bits = 32 + 8 * r.below(5) as u32;
            all.push(vec![op, r.signed(bits)]);
        }
    }
    for op in [4, 5] {
        for x in [0, 1, -1, 32767, -32768] {
            for y in [0, 1, -1, 32767, -32768] {
                all.push(vec![op, x, y]);
            }
        }
        for _ in 0..40 {
            all.push(vec![op, r.word(), r.word()]);
        }
    }
    for v in EDGES {
        for y in [1, -1, 32767, -32768] {
            all.push(vec![6, v, y]);
        }
    }
    for _ in 0..60 {
        all.push(vec![6, r.signed(40), r.word()]);
    }
    for v in EDGES {
        for s in [0, 1, -1, 31, -9, 39, -39, 40] {
            all.push(vec![9, v, s]);
        }
    }
    for _ in 0..60 {
        all.push(vec![9, r.signed(40), r.below(80) as i64 - 40]);
    }
    // beyond what a caller asks for: a release build takes the low six bits of the amount
    for v in [1, -1, 64, -32768, i32::MAX as i64, 1 << 39, i64::MAX, i64::MIN] {
        for s in [41, -41, 62, -62, 63, -63, 64, -64, 65, -65, 100, -100, i32::MAX as i64, -(i32::MAX as i64), i32::MIN as i64] {
            all.push(vec![9, v, s]);
        }
    }
    for _ in 0..60 {
        all.push(vec![9, r.signed(64), r.signed(32)]);
    }
    for code in 0..256 {
        all.push(vec![10, code + 2, 3, 16]);
    }
    for _ in 0..80 {
        let num = r.signed(40);
        all.push(vec![10, num, r.word(), r.below(20) as i64]);
    }
    all
}

fn fixed_answer(q: &[i64]) -> Vec<i64> {
    let v = q[1];
    match q[0] {
        0 => vec![acc(v)],
        1 => vec![sat(v)],
        2 => vec![hi(v) as i64],
        3 => vec![low(v) as i64],
        4 => vec![mul(v as i16, q[2] as i16)],
        5 => vec![mul_us(v as i16, q[2] as i16)],
        6 => vec![mul32x16(v, q[2] as i16)],
        7 => vec![trunc32(v)],
        8 => vec![exp(v) as i64],
        9 => vec![shift(v, q[2] as i32)],
        10 => vec![restoring_divide(v, q[2] as i16, q[3] as u32)],
        // and 1 where it is the reciprocal of 0, which the Rust does not say
        _ => {
            let (quotient, shift) = normalised_reciprocal(v);
            vec![quotient, shift as i64, (acc(v) == 0) as i64]
        }
    }
}

// eleven coefficients, ten of memory, then the inputs; the answer: the outputs, then the memory
fn synth_questions(r: &mut Random) -> Vec<Question> {
    let mut all = Vec::new();
    for n in 0..320 {
        let len = if n % 40 == 0 { 80 } else { r.below(12) };
        let quiet = n % 3 == 0;
        let mut q = Vec::new();
        for _ in 0..21 + len {
            let w = r.word();
            q.push(if quiet { w >> 3 } else { w });
        }
        if n % 16 == 5 {
            q[..11].fill(-32768);
        }
        all.push(q);
    }
    all
}

fn words(q: &[i64]) -> Vec<i16> {
    q.iter().map(|&x| x as i16).collect()
}

fn synth_answer(q: &[i64]) -> Vec<i64> {
    let w = words(q);
    let a: [i16; 11] = w[..11].try_into().unwrap();
    let mut mem: [i16; 10] = w[11..21].try_into().unwrap();
    let mut out = vec![0i16; w.len() - 21];
    synth::synthesis(&a, &w[21..], &mut out, &mut mem);
    out.iter().chain(mem.iter()).map(|&x| x as i64).collect()
}

// a payload of 20 bytes, or of another length
fn bits_questions(r: &mut Random) -> Vec<Question> {
    let mut all = vec![vec![0; 20], vec![255; 19]];
    all[1].push(0x3f);
    for last in [0x3f, 0x40, 0x80, 0xc0] {
        let mut q = vec![0; 19];
        q.push(last);
        all.push(q);
    }
    for bit in 0..160 {
        let mut q = vec![0; 20];
        q[bit / 8] = 1 << (bit % 8);
        all.push(q);
    }
    for n in 0..200 {
        let mut q: Question = (0..20).map(|_| r.below(256) as i64).collect();
        if n % 10 != 0 {
            q[19] &= 0x3f;
        }
        all.push(q);
    }
    all
}

pub const FIELDS: usize = 24;

// The two halves of a frame, mod.rs's two changes made; none where padding is set.
fn params(payload: &[u8; 20]) -> Option<bits::FrameParams> {
    let mut params = post_fec::unpack(payload).ok()?;
    let mut low = 0;
    for k in 74..78 {
        low = 2 * low + ((payload[k / 8] >> (k % 8)) & 1);
    }
    params.halves[1].gain_low[1] = Some(low);
    params.halves[0].absolute_pitch ^= 3;
    Some(params)
}

// Its fields as numbers.
pub fn fields(payload: &[u8; 20]) -> Option<[u16; FIELDS]> {
    let mut out = Vec::new();
    for half in &params(payload)?.halves {
        out.extend(half.gain_low.map(|g| g.unwrap() as u16));
        out.extend(half.code);
        out.extend(half.gain_high.map(|g| g as u16));
        out.extend(
            [
                half.mode,
                half.stage1,
                half.stage2_low,
                half.stage2_high,
                half.absolute_pitch,
                half.relative_pitch,
            ]
            .map(|x| x as u16),
        );
    }
    out.try_into().ok()
}

fn payload(q: &[i64]) -> [u8; 20] {
    let bytes: Vec<u8> = q.iter().map(|&x| x as u8).collect();
    bytes.try_into().unwrap()
}

// the 158 digits, or 6
fn receiver_answer(q: &[i64]) -> Vec<i64> {
    match post_fec::receiver_bits(&payload(q)) {
        Ok(digits) => digits.iter().map(|&d| d as i64).collect(),
        Err(_) => vec![6],
    }
}

// the number, the fields, and where accepted the payload, which the packer must give back, and the four gain indexes
fn bits_answer(q: &[i64]) -> Vec<i64> {
    let payload = payload(q);
    match (fields(&payload), params(&payload)) {
        (Some(f), Some(p)) => {
            let gains = p.halves.iter().flat_map(|h| [0, 1].map(|sub| h.gain_index(sub) as i64));
            [vec![0], f.map(i64::from).to_vec(), q.to_vec(), gains.collect()].concat()
        }
        _ => [vec![6], vec![0; FIELDS]].concat(),
    }
}

fn numbers(w: &[i16]) -> Vec<i64> {
    w.iter().map(|&x| x as i64).collect()
}

/// LSP sets by which the reflection recursion meets a residual of 0 twice; `oracle two_zeros 3000000` finds them.
const TWO_ZEROS: [[i16; 10]; 3] = [
    [1, 1, -1, 0, -65, 0, 107, 21925, 0, 0],
    [-52, -32768, 0, 7, -1, -16, 1, 90, 16384, -5],
    [296, -3, -64, -2, -32768, -3, -1330, -2, -11288, 3820],
];

// 0 lsf_to_lsp of ten, 1 lsp_to_lpc of ten, 2 midpoint of ten and ten, 3 reflection_coefficients of eleven, and how many of its residuals are 0
fn lsp_questions(r: &mut Random) -> Vec<Question> {
    let mut all = Vec::new();
    for n in 0..80 {
        let mut lsf: Vec<i64> = (0..10).map(|_| r.below(25683) as i64).collect();
        if n % 2 == 0 {
            lsf.sort();
        }
        if n == 0 {
            lsf.fill(25682);
        }
        all.push([vec![0], lsf].concat());
    }
    // up to the largest word, past the table's end
    for n in 0..40 {
        let mut lsf: Vec<i64> = (0..10).map(|_| r.below(32768) as i64).collect();
        match n {
            0 => lsf.fill(32767),
            1 => lsf = (25732..25742).collect(),
            _ => lsf[n % 10] = 25683 + r.below(7085) as i64,
        }
        all.push([vec![0], lsf].concat());
    }
    for n in 0..120 {
        let mut l: Vec<i64> = (0..10).map(|_| r.word()).collect();
        match n {
            0 => l.fill(-32768),
            1 => l.fill(32767),
            2 => l = vec![-32768, 0, 0, 0, 0, 0, 0, 0, 0, 0],
            3 => l = vec![0, -32768, -32768, 0, 0, 0, 0, 0, 0, 0],
            _ => {
                if n % 4 == 0 {
                    l.sort_by(|a, b| b.cmp(a));
                }
            }
        }
        all.push([vec![1], l].concat());
    }
    for _ in 0..60 {
        all.push([vec![2], (0..20).map(|_| r.word()).collect()].concat());
    }
    for n in 0..120 {
        let mut a: Vec<i64> = (0..11).map(|_| r.word()).collect();
        match n % 6 {
            0 => a[10] = 4096,
            1 => a[10] = -4096,
            2 => a = a.iter().map(|x| x >> 4).collect(),
            3 => a[10] = 4095 + r.below(3) as i64,
            4 => a[10] = -32768,
            _ => {}
        }
        if n == 4 {
            a.fill(-32768);
        }
        all.push([vec![3], a].concat());
    }
    for l in TWO_ZEROS {
        all.push([vec![1], numbers(&l)].concat());
        all.push([vec![3], numbers(&lsp::lsp_to_lpc(&l))].concat());
    }
    all
}

/// At how many of its nine steps the recursion meets a residual of 0. The Rust does not say it: this is the recursion's condition, once more, at the
/// coefficient that each step takes, which is the one that the recursion leaves at that place.
pub fn zero_residuals(lpc: &[i16; 11]) -> u8 {
    let zero = |&&kv: &&i16| acc((16384 << 16) - shift(acc(mul(kv, kv)), 5)) == 0;
    lsp::reflection_coefficients(lpc)[1..].iter().filter(zero).count() as u8
}

/// LSP sets, of so many random ones, that lead to more than one such step, with their LPC numbers.
fn two_zeros(tries: u64, seed: u64) -> Vec<Question> {
    let mut r = Random::new(seed);
    let mut found = Vec::new();
    for _ in 0..tries {
        let l: [i16; 10] = std::array::from_fn(|_| r.word() as i16);
        let lpc = lsp::lsp_to_lpc(&l);
        let n = zero_residuals(&lpc);
        if 1 < n {
            found.push([numbers(&l), numbers(&lpc), vec![n as i64]].concat());
        }
    }
    found
}

fn lsp_answer(q: &[i64]) -> Vec<i64> {
    let w = words(&q[1..]);
    match q[0] {
        0 => numbers(&lsp::lsf_to_lsp(&w[..].try_into().unwrap())),
        1 => numbers(&lsp::lsp_to_lpc(&w[..].try_into().unwrap())),
        2 => numbers(&lsp::midpoint(
            &w[..10].try_into().unwrap(),
            &w[10..].try_into().unwrap(),
        )),
        _ => {
            let lpc = w[..].try_into().unwrap();
            let zeros = zero_residuals(&lpc) as i64;
            [numbers(&lsp::reflection_coefficients(&lpc)), vec![zeros]].concat()
        }
    }
}

// an absolute code, or from 256 on 19 and what 126 leaves of it as the lag integer before; a relative code or -1; and then
// nothing: the lag; 2, a seed: predict from the 154 samples that it gives; 3, a seed, a gain: sharpen the innovation that it gives
fn pitch_questions(r: &mut Random) -> Vec<Question> {
    let mut all: Vec<Question> = (0..256).map(|code| vec![code, -1]).collect();
    for absolute in [0, 2, 5, 8, 17, 20, 120, 196, 250, 252, 254, 255] {
        for code in 0..32 {
            all.push(vec![absolute, code]);
        }
    }
    for before in 256..256 + 126 {
        for code in 0..32 {
            all.push(vec![before, code]);
        }
    }
    for n in 0..40 {
        let absolute = [0, 196, 255].get(n).map_or(r.below(256) as i64, |&c| c);
        all.push(vec![absolute, r.below(33) as i64 - 1, 2, n as i64]);
    }
    all.push(vec![255, 31, 2, 7]);
    for n in 0..40 {
        let gain = [32767, -32768, 0].get(n).map_or(r.word(), |&g| g);
        all.push(vec![r.below(180) as i64, -1, 3, n as i64, gain]);
    }
    all.push(vec![0, -1, 3, 7, 16384]);
    all
}

// n samples that a seed gives, by a rule that a replay can follow: x' = (x * 31 + 7) mod 65536 from the seed, read signed, every third divided by 16
fn samples(seed: i64, n: usize) -> Vec<i16> {
    let mut x = seed as u32;
    (0..n)
        .map(|k| {
            x = (x * 31 + 7) % 65536;
            let s = x as u16 as i16;
            if k % 3 == 0 {
                s >> 4
            } else {
                s
            }
        })
        .collect()
}

fn pitch_answer(q: &[i64]) -> Vec<i64> {
    let before = match q[0] {
        code @ 0..=255 => pitch::decode_absolute(code as i16),
        n => pitch::Lag {
            integer: 19 + (n % 126) as i16,
            frac: 0,
        },
    };
    let lag = match q[1] {
        -1 => before,
        code => pitch::decode_relative(code as i16, before.integer),
    };
    match q.get(2) {
        Some(2) => {
            let mut exc = samples(q[3], 154);
            exc.resize(314, 0);
            pitch::predict(&mut exc, 154, &lag);
            numbers(&exc[154..234])
        }
        Some(3) => {
            let mut code: [i16; 80] = samples(q[3], 80).try_into().unwrap();
            pitch::sharpen(&mut code, &lag, q[4] as i16);
            numbers(&code)
        }
        _ => vec![lag.integer as i64, lag.frac as i64],
    }
}

// an index; the answer: 1, the class and the innovation, or 0 where a position digit lies outside 0..=39
fn codebook_questions(r: &mut Random) -> Vec<Question> {
    let mut all: Vec<Question> = vec![vec![0], vec![1], vec![65535], vec![32768]];
    for _ in 0..316 {
        all.push(vec![r.below(65536) as i64]);
    }
    all
}

// The digits of an index as codebook.rs works them out, each before and after it is cut to 16 bits; none in class 5.
pub fn digits(index: u16) -> Vec<(i64, i16)> {
    use super::tables::*;
    let index = index.min(FCB_INDEX_LIMIT[0] - 1);
    let class = (0..6)
        .rev()
        .find(|&k| index >= FCB_CLASS_BASE[k])
        .unwrap_or(0);
    if class == 5 {
        return vec![];
    }
    let pulses = FCB_PULSES[class] as usize;
    let mut x = (index - FCB_CLASS_BASE[class]) as i64 >> pulses;
    let mut all = Vec::new();
    for k in (0..pulses).rev() {
        let q = low((x * FCB_RADIX_INV[3 * class + k] as i64) >> 17) as i64;
        let digit = x - q * FCB_RADIX[3 * class + k] as i64;
        all.push((digit, low(digit)));
        x = q;
    }
    all
}

// Whether every position digit lies in 0..=39; the others codebook.rs would panic on or read elsewhere.
pub fn digits_fit(index: u16) -> bool {
    digits(index).iter().all(|(_, digit)| (0..40).contains(digit))
}

fn codebook_answer(q: &[i64]) -> Vec<i64> {
    let index = q[0] as u16;
    if !digits_fit(index) {
        return vec![0];
    }
    let i = codebook::decode(index);
    [vec![1, i.class as i64], numbers(&i.code)].concat()
}

// reflection, previous gain, lag, previous lag
fn excitation_questions(r: &mut Random) -> Vec<Question> {
    let mut all = Vec::new();
    for reflection in [-32768, 0, 2047, 2048, 2049, 32767] {
        for gain in [-32768, 0, 6553, 6554, 13107, 32767] {
            for (lag, prev) in [(60, 80), (61, 80), (59, 80), (90, 60), (91, 60), (89, 60), (60, 60)] {
                all.push(vec![reflection, gain, lag, prev]);
            }
        }
    }
    for _ in 0..120 {
        let (lag, prev) = (r.below(126) as i64 + 19, r.below(126) as i64 + 19);
        all.push(vec![r.word() >> 3, r.word(), lag, prev]);
    }
    for _ in 0..40 {
        all.push(vec![r.word(), r.word(), r.word(), r.word()]);
    }
    all
}

fn excitation_answer(q: &[i64]) -> Vec<i64> {
    let w = words(q);
    let (first, second) = excitation::interpolation_gains(w[0], w[1], w[2], w[3]);
    vec![first as i64, second as i64]
}

// a seed; the answer: 16 samples that it gives, as they come out after 24 that the seed 1000 on gives
fn postfilter_questions(_r: &mut Random) -> Vec<Question> {
    (0..300).map(|n| vec![n]).collect()
}

fn postfilter_answer(q: &[i64]) -> Vec<i64> {
    let mut filter = postfilter::OutputFilter::default();
    let mut first = samples(q[0] + 1000, 24);
    filter.run(&mut first);
    let mut block = samples(q[0], 16);
    filter.run(&mut block);
    numbers(&block)
}

// pitch's prediction and sharpening over a set with small taps
fn narrow_questions(r: &mut Random) -> Vec<Question> {
    pitch_questions(r).into_iter().filter(|q| 2 < q.len()).collect()
}

fn bits_of(x: f32) -> i64 {
    x.to_bits() as i64
}

fn floats(q: &[i64]) -> Vec<f32> {
    q.iter().map(|&n| f32::from_bits(n as u32)).collect()
}

fn float_numbers<'a>(x: impl IntoIterator<Item = &'a f32>) -> Vec<i64> {
    x.into_iter().map(|&x| bits_of(x)).collect()
}

// A float of any bits below a size, its sign too.
fn float_below(r: &mut Random, size: f32) -> f32 {
    let x = f32::from_bits(r.below(size.to_bits() as u64 + 1) as u32);
    if r.below(2) == 0 {
        x
    } else {
        -x
    }
}

// A float between two others.
fn between(r: &mut Random, low: f32, high: f32) -> f32 {
    low + (high - low) * (r.below(1 << 24) as f32 / 16777216.0)
}

// Line spectral frequencies as a residual has them: rising, and at the top where high.
fn frequencies(r: &mut Random, high: bool) -> Vec<f32> {
    (0..10)
        .map(|k| {
            let mean = if high { 24000.0 + 200.0 * k as f32 } else { 2300.0 * (k + 1) as f32 };
            mean + between(r, -1500.0, 1500.0)
        })
        .collect()
}

// floats by their bits. 0 residual of stage1, stage2_low and stage2_high; 1 predict of mode, 30 of history, ten of residual;
// 2 to_lsp of ten; 3 the history at the start; 4 push of 30 and ten
fn spectral_questions(r: &mut Random) -> Vec<Question> {
    let mut all = vec![vec![0, 0, 0, 0], vec![0, 127, 63, 63], vec![0, 0, 63, 0], vec![0, 127, 0, 63]];
    for _ in 0..96 {
        all.push(vec![0, r.below(128) as i64, r.below(64) as i64, r.below(64) as i64]);
    }
    for n in 0..240 {
        let mut x: Vec<f32> = Vec::new();
        for part in 0..4 {
            x.extend(match n % 8 {
                0 | 1 => frequencies(r, false),
                // most of them at the top, where the ceiling undoes the last gap
                2 | 3 => frequencies(r, true),
                // some fall back to the floor, some equal each other
                4 => frequencies(r, false).iter().map(|x| (x / 4000.0).round() * 4000.0 - 8000.0).collect(),
                // the other way round
                5 => frequencies(r, part == 0).into_iter().rev().collect(),
                6 => (0..10).map(|_| float_below(r, 131072.0)).collect(),
                _ => (0..10).map(|_| between(r, -131072.0, 131072.0)).collect(),
            });
        }
        match n {
            0 => x.fill(0.0),
            8 => x.fill(-0.0),
            16 => x.fill(131072.0),
            24 => x.fill(-131072.0),
            32 => x.fill(f32::from_bits(1)),
            _ => {}
        }
        all.push([vec![1, (n / 8 % 2) as i64], float_numbers(&x)].concat());
    }
    for n in 0..120 {
        let x: Vec<f32> = (0..10)
            .map(|k| match n % 6 {
                // ties, rising; ties anywhere
                0 => (2500 * k + r.below(2500) as usize) as f32 + 0.5,
                1 => r.below(26000) as f32 - 100.5,
                // next to a tie
                2 => f32::from_bits(((2500 * k + r.below(2500) as usize) as f32 + 0.5).to_bits() - 1 + 2 * r.below(2) as u32),
                3 => between(r, 25600.0, 25800.0),
                4 => float_below(r, 3e10),
                _ => between(r, -1000.0, 33000.0),
            })
            .collect();
        all.push([vec![2], float_numbers(&x)].concat());
    }
    all.push([vec![2], float_numbers(&[0.5, 1.5, 2.5, 3.5, 25681.5, 25682.5, 25683.5, 32767.5, -0.5, f32::MAX])].concat());
    all.push([vec![2], vec![bits_of(25682.0); 10]].concat());
    all.push([vec![2], float_numbers(&[-0.0, -1.5, 0.5, -2.5, 1.5, 0.0, 2.5, 1.0, 3.5, -3.5])].concat());
    all.push(vec![3]);
    for _ in 0..8 {
        let x: Vec<f32> = (0..40).map(|_| float_below(r, 131072.0)).collect();
        all.push([vec![4], float_numbers(&x)].concat());
    }
    all
}

fn spectral_answer(q: &[i64]) -> Vec<i64> {
    let history = |x: &[f32]| -> [[f32; 10]; 3] { std::array::from_fn(|p| std::array::from_fn(|k| x[10 * p + k])) };
    match q[0] {
        0 => {
            let mut half = params(&[0; 20]).unwrap().halves[0].clone();
            (half.stage1, half.stage2_low, half.stage2_high) = (q[1] as u8, q[2] as u8, q[3] as u8);
            float_numbers(&Spectral::residual(&half))
        }
        1 => {
            let x = floats(&q[2..]);
            float_numbers(&Spectral::predict(&history(&x), &x[30..].try_into().unwrap(), q[1] as u8))
        }
        2 => numbers(&to_lsp(&floats(&q[1..]).try_into().unwrap())),
        3 => float_numbers(Spectral::default().history.as_flattened()),
        _ => {
            let x = floats(&q[1..]);
            let mut s = Spectral { history: history(&x) };
            s.push(x[30..].try_into().unwrap());
            float_numbers(s.history.as_flattened())
        }
    }
}

// 0 decode of a gain index, four of history by their bits and the 80 of a code; 1 the history at the start
fn gain_questions(r: &mut Random) -> Vec<Question> {
    let mut all = vec![vec![1]];
    for n in 0..320 {
        let index = if n < 128 { n } else { r.below(128) as i64 };
        let history: Vec<f32> = (0..4)
            .map(|_| match n % 8 {
                6 => float_below(r, 131072.0),
                7 => between(r, -16.0, 16.0),
                _ => between(r, -5.0, 0.5),
            })
            .collect();
        // pulses, or every place filled, of every size
        let size = r.below(17);
        let pulses = if n % 4 == 0 { 80 } else { r.below(8) };
        let mut code = vec![0; 80];
        for k in 0..pulses {
            let place = if pulses == 80 { k } else { r.below(80) };
            code[place as usize] = (r.below(65536) as i64 - 32768) >> size;
        }
        match n {
            0 => code.fill(-32768),
            4 => code.fill(1),
            8 => code.fill(0),
            _ => {}
        }
        all.push([vec![0, index], float_numbers(&history), code].concat());
    }
    all
}

// the pitch gain, the code gain, the history
fn gain_answer(q: &[i64]) -> Vec<i64> {
    if q[0] == 1 {
        return float_numbers(&Native::default().gain.history);
    }
    let mut state = GainState { history: floats(&q[2..6]).try_into().unwrap() };
    let gains = state.decode(q[1] as usize, &words(&q[6..]).try_into().unwrap());
    [vec![gains.pitch as i64, gains.code as i64], float_numbers(&state.history)].concat()
}
