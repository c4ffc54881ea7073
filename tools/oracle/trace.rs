//! Every figure of every frame of a recording, as the Rust gives it: a line a part, numbers in decimal, floats by their bits.
//! The mark, and refusals 7 and 9, are document 01's, a first line `+` and how sure the excitation is are document 02's; the Rust has none of them.
use super::{lsp, postfilter::OutputFilter, probe::digits, probe::digits_fit, probe::zero_residuals};
use crate::celp::{post_fec, Native};
use crate::compare::Tally;
use std::io::{Read, Write};

/// The output filter's memory, which is private there. The same fields in the same order have the same layout; `check` looks.
pub struct Memory {
    pub fir: [i16; 6],
    pub iir: [i64; 6],
}

pub fn memory(filter: &OutputFilter) -> Memory {
    let filter = filter.clone();
    unsafe { std::mem::transmute::<OutputFilter, Memory>(filter) }
}

pub fn check_layout() {
    let mut filter = OutputFilter::default();
    filter.run(&mut [3, 5, 7]);
    assert_eq!(memory(&filter).fir[..3], [7, 5, 3], "the filter's memory is laid out otherwise");
}

/// The text of what a line of the recording gave, in parts: the head, samples, excitation, four subframes, the next state; or the head and the state.
#[derive(Default)]
pub struct Text {
    pub bytes: Vec<u8>,
    ends: Vec<usize>,
}

impl Text {
    fn line<T: std::fmt::Display>(&mut self, name: &str, numbers: impl IntoIterator<Item = T>) {
        write!(self.bytes, "{name}").unwrap();
        for n in numbers {
            write!(self.bytes, " {n}").unwrap();
        }
        writeln!(self.bytes).unwrap();
    }

    fn end(&mut self) {
        self.ends.push(self.bytes.len());
    }

    /// The head as it is, and for each other part 32 bits.
    fn digest(&self) -> String {
        let mut from = self.ends[0];
        let mut text = String::from_utf8_lossy(&self.bytes[..from]).trim_end().to_string();
        for &end in &self.ends[1..] {
            text += &format!(" {:08x}", fnv(&self.bytes[from..end]));
            from = end;
        }
        text
    }
}

/// FNV-1a of 32 bits.
fn fnv(bytes: &[u8]) -> u32 {
    bytes.iter().fold(0x811c_9dc5, |h, &b| (h ^ b as u32).wrapping_mul(0x0100_0193))
}

pub struct Tracer {
    native: Native,
    /// the copy that counts what `sat` changes
    counting: counting::Decoder,
    pub mark: u8,
    pub sure: u8,
    pub tally: Tally,
}

/// The payload of a line of 40 hex digits.
pub fn payload(text: &[u8]) -> Option<[u8; 20]> {
    let digit = |c: u8| (c as char).to_digit(16).map(|d| d as u8);
    if text.len() != 40 {
        return None;
    }
    let mut bytes = [0; 20];
    for (byte, pair) in bytes.iter_mut().zip(text.chunks(2)) {
        *byte = 16 * digit(pair[0])? + digit(pair[1])?;
    }
    Some(bytes)
}

/// 0, or the first refusal number that applies to a frame of a sound set and state.
pub fn refusal(payload: &[u8; 20]) -> u8 {
    let Ok(params) = post_fec::unpack(payload) else {
        return 6;
    };
    let fit = params.halves.iter().all(|h| h.code.iter().all(|&c| digits_fit(c)));
    if fit {
        0
    } else {
        7
    }
}

/// T-14: what a frame that came with this mark leaves of the number, and at which of its subframes it is 2. A figure's tenth number is the pitch gain.
pub fn sure_after(mark: u8, before: u8, figures: &[[f32; 12]; 4]) -> (u8, [u8; 4]) {
    if mark < 2 {
        return (0, [0; 4]);
    }
    let mut now = before;
    let answers = figures.map(|f| {
        now = match (now, f[9] == 0.0) {
            (2, _) => 2,
            (n, true) => n + 1,
            (_, false) => 0,
        };
        (now == 2) as u8
    });
    (now, answers)
}

impl Tracer {
    /// For the lines that are left of a recording: from reset, with mark 2, where its first is `+`; else cold, with mark 0.
    fn opened(recording: &[u8]) -> (Self, impl Iterator<Item = &[u8]>) {
        check_layout();
        let heard = rows(recording).next() == Some(b"+");
        let tracer = Tracer {
            native: Native::default(),
            counting: counting::Decoder::default(),
            mark: if heard { 2 } else { 0 },
            sure: if heard { 2 } else { 0 },
            tally: Tally::default(),
        };
        (tracer, rows(recording).skip(heard as usize))
    }

    fn floats(&self) -> impl Iterator<Item = f32> + '_ {
        let residuals = self.native.spectrum.history.as_flattened();
        residuals.iter().chain(&self.native.gain.history).copied()
    }

    fn state(&self, out: &mut Text) {
        let core = &self.native.core;
        let m = memory(&core.output_filter);
        out.line("lsp", core.previous_lsp);
        out.line("past", &core.excitation[..154]);
        out.line("memory", core.synthesis_memory);
        out.line("sharpen_fixed", [core.sharpen_fixed]);
        out.line("last_half_lag", [core.last_half_lag]);
        out.line("fir", m.fir);
        out.line("iir", m.iir);
        out.line("residuals", self.native.spectrum.history.as_flattened().iter().map(|x| x.to_bits()));
        out.line("gains", self.native.gain.history.map(f32::to_bits));
        out.line("mark", [self.mark]);
        out.line("sure", [self.sure]);
        out.end();
    }

    fn refused(&mut self, number: u8, out: &mut Text) {
        self.mark = 0;
        self.sure = 0;
        self.tally.refused[number as usize] += 1;
        out.line("refused", [number]);
        out.end();
    }

    fn frame(&mut self, payload: &[u8; 20], out: &mut Text) {
        let number = refusal(payload);
        if number != 0 {
            return self.refused(number, out);
        }
        // the parts that `Observation` does not have, from a copy that goes the same way
        let mut params = post_fec::unpack(payload).unwrap();
        params.halves[1].gain_low[1] = Some((74..78).fold(0, |v, k| 2 * v + ((payload[k / 8] >> (k % 8)) & 1)));
        params.halves[0].absolute_pitch ^= 3;
        let mut core = self.native.core.clone();
        let mut spectrum = self.native.spectrum.clone();
        let mut gain = self.native.gain.clone();
        let mut parts = Vec::new();
        let mut pcm = Vec::new();
        let mut lsps = Vec::new();
        for half in &params.halves {
            let new = spectrum.decode(half);
            let (first, second) = lsp::interpolate_pair(&core.previous_lsp, &new);
            let (samples, traces) = core.decode(&new, half, &mut gain);
            pcm.extend(samples);
            lsps.extend(new);
            for (trace, lpc) in traces.into_iter().zip([first, second]) {
                parts.push((trace.lag, lpc, trace.innovation));
            }
        }
        let seen = self.native.decode(payload).unwrap();
        assert_eq!(&seen.pcm[..], &pcm[..], "the copy went another way");
        let (counted, clipped) = self.counting.decode(payload);
        assert_eq!(seen.pcm, counted, "the copy that counts went another way");
        let (left, sure) = sure_after(self.mark, self.sure, &seen.gain);
        self.sure = left;
        out.line("accepted", [self.mark]);
        out.end();
        out.line("samples", seen.pcm);
        out.end();
        out.line("excitation", seen.excitation);
        out.end();
        for (((figures, (lag, lpc, innovation)), clipped), sure) in seen.gain.iter().zip(&parts).zip(clipped).zip(sure) {
            out.line("figures", figures.map(f32::to_bits));
            out.line("lag", [lag.integer, lag.frac]);
            out.line("lpc", lpc);
            out.line("innovation", innovation);
            out.line("zero_residuals", [zero_residuals(lpc)]);
            out.line("clipped", clipped);
            out.line("sure", [sure]);
            out.end();
            self.tally.sure += sure as u64;
        }
        // the last coefficient of each step of the recursion decides its residual
        let steps: Vec<i16> = parts.iter().flat_map(|p| lsp::reflection_coefficients(&p.1)[1..].to_vec()).collect();
        // the log gain and those before it, and what the next state has
        let floats: Vec<f32> = seen.gain.iter().flat_map(|g| g[1..6].to_vec()).chain(self.floats()).collect();
        let codes = params.halves.iter().flat_map(|h| h.code);
        let met = [
            lsps.contains(&-32768),
            parts.iter().any(|p| 0 < zero_residuals(&p.1)),
            parts.iter().any(|p| 1 < zero_residuals(&p.1)),
            steps.iter().any(|k| k.unsigned_abs() > 4096),
            floats.iter().any(|x| x.is_subnormal()),
            floats.iter().any(|x| x.abs() > 32768.0),
            codes.flat_map(digits).any(|(whole, cut)| whole != cut as i64),
            pcm.iter().any(|&x| x == 32767 || x == -32768),
            pcm.iter().all(|&x| x == 0),
        ];
        for counts in clipped {
            self.tally.clip(counts);
        }
        self.tally.accepted += 1;
        self.tally.marks[self.mark as usize] += 1;
        for (count, is) in self.tally.met.iter_mut().zip(met) {
            *count += is as u64;
        }
        self.mark = (self.mark + 1).min(2);
    }

    /// A line of the recording, and the state after it.
    fn heard(&mut self, row: &[u8]) -> Text {
        let mut out = Text::default();
        match payload(row) {
            Some(p) => self.frame(&p, &mut out),
            None => self.refused(9, &mut out),
        }
        self.state(&mut out);
        out
    }

    /// The state that a recording starts from.
    fn start(&self) -> Text {
        let mut out = Text::default();
        self.state(&mut out);
        out
    }

    /// What the next frame must not depend on, spoilt: the 160 excitation samples behind the 154, sharpen_voiced and previous_lag.
    fn spoil(&mut self, n: usize) {
        let core = &mut self.native.core;
        for (k, x) in core.excitation[154..].iter_mut().enumerate() {
            *x = (31 * n + 577 * k) as i16;
        }
        core.sharpen_voiced = -(n as i16);
        core.previous_lag = (n % 300) as i16;
    }
}

/// The lines of a recording; the last newline may be absent.
fn rows(recording: &[u8]) -> impl Iterator<Item = &[u8]> {
    let text = recording.strip_suffix(b"\n").unwrap_or(recording);
    text.split(|&c| c == b'\n').take(if recording.is_empty() { 0 } else { usize::MAX })
}

/// The first number that differs between two texts of the same parts, in words.
fn difference(rust: &[u8], ours: &[u8]) -> String {
    for (n, (x, y)) in rust.split(|&c| c == b'\n').zip(ours.split(|&c| c == b'\n')).enumerate() {
        let (x, y) = (String::from_utf8_lossy(x), String::from_utf8_lossy(y));
        for (k, (a, b)) in x.split(' ').zip(y.split(' ')).enumerate() {
            if a != b {
                let name = x.split(' ').next().unwrap();
                return format!("its text's line {} ({name}), number {k}: the Rust {a}, ours {b}", n + 1);
            }
        }
    }
    "ours ends early".to_string()
}

impl Native {
    /// The recording's lines, traced; with junk in the places that no frame may depend on.
    pub fn trace(recording: &[u8], junk: bool, out: &mut impl Write) {
        let (mut tracer, lines) = Tracer::opened(recording);
        out.write_all(&tracer.start().bytes).unwrap();
        for (n, row) in lines.enumerate() {
            if junk {
                tracer.spoil(n);
            }
            out.write_all(&tracer.heard(row).bytes).unwrap();
        }
    }

    /// The same under a heading, in one line for each line of the recording, 32 bits for each part.
    pub fn digest(name: &str, recording: &[u8], out: &mut impl Write) -> Tally {
        let (mut tracer, lines) = Tracer::opened(recording);
        writeln!(out, "digest {name} {:08x}", fnv(&tracer.start().bytes)).unwrap();
        for row in lines {
            writeln!(out, "{}", tracer.heard(row).digest()).unwrap();
        }
        tracer.tally
    }

    /// The recording's lines, traced, beside what the program wrote of them: the first difference, if there is one.
    pub fn compare(recording: &[u8], ours: &mut impl Read) -> Result<Tally, String> {
        let (mut tracer, lines) = Tracer::opened(recording);
        let mut same = |n: usize, rust: &[u8]| {
            let mut theirs = vec![0; rust.len()];
            let mut got = 0;
            while got < theirs.len() {
                match ours.read(&mut theirs[got..]).unwrap() {
                    0 => break,
                    more => got += more,
                }
            }
            if theirs[..got] == *rust {
                return Ok(());
            }
            Err(format!("line {n}: {}", difference(rust, &theirs[..got])))
        };
        same(0, &tracer.start().bytes)?;
        for (n, row) in lines.enumerate() {
            same(n + 1, &tracer.heard(row).bytes)?;
        }
        match ours.read(&mut [0]).unwrap() {
            0 => Ok(tracer.tally),
            _ => Err("over: ours says more".to_string()),
        }
    }
}
