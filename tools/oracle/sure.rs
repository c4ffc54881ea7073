//! T-14 beside the Rust: a sender and a receiver, both the untouched decoder, over frames of which some are lost; and the program `trace`, which hears what the
//! receiver hears. Every subframe that `trace` answers as sure must have the sender's excitation in the receiver too.
use super::trace::{payload, refusal};
use crate::celp::Native;
use crate::random::Random;
use crate::{lent, sets};
use std::io::{BufRead, BufReader};
use std::process::{Command, Stdio};
use std::time::Instant;

/// Speech-like sets and extreme ones.
const KINDS: [&str; 8] = ["smooth", "speech", "moderate", "loud", "extreme", "large", "subnormal", "bare"];

/// Of subframes: in frames that were answered, in frames with mark 2, sure, and not sure though their excitation is the sender's.
#[derive(Default, Clone, Copy)]
struct Sums {
    frames: u64,
    lost: u64,
    answered: u64,
    two: u64,
    sure: u64,
    same: u64,
    /// frames in which it became sure that did not begin so
    gained: u64,
}

impl Sums {
    fn add(&mut self, m: Sums) {
        self.frames += m.frames;
        self.lost += m.lost;
        self.answered += m.answered;
        self.two += m.two;
        self.sure += m.sure;
        self.same += m.same;
        self.gained += m.gained;
    }

    fn said(&self) -> String {
        format!(
            "{} frames sent, {} of them not heard; of {} subframes answered, {} with mark 2: {} sure, {} not sure though the same; it became sure in {} frames",
            self.frames, self.lost, self.answered, self.two, self.sure, self.same, self.gained
        )
    }
}

/// A set in which one pitch gain in four is 0, as it is where a frame has no voice in it; the bare set has no other.
fn quiet(kind: &str, seed: u64) -> Vec<u8> {
    let mut tables = sets::set(kind, seed);
    let mut r = Random::new(seed + 7000);
    for i in 0..128 {
        if r.below(4) == 0 {
            tables[2 * lent::WORDS + 4 * i..][..4].fill(0);
        }
    }
    tables
}

/// What the receiver is given: a frame as it was sent, or a line in the place of frames that it does not hear.
enum Heard {
    Frame(usize),
    Lost(Vec<u8>),
}

/// Some frames are lost alone, some several together under one report, some reported twice; some arrive spoilt; some lines are nobody's.
fn heard(call: &[[u8; 20]], join: usize, r: &mut Random) -> Vec<Heard> {
    let mut lines = Vec::new();
    let mut at = join;
    // losses come in times, so that mark 2 lasts now and then
    let mut often = 40;
    while at < call.len() {
        if r.below(50) == 0 {
            often = [4, 20, 40, 400, 1000][r.below(5) as usize];
        }
        if r.below(often) != 0 {
            lines.push(Heard::Frame(at));
            at += 1;
            continue;
        }
        let hex = |p: &[u8; 20]| p.iter().flat_map(|b| format!("{b:02x}").into_bytes()).collect::<Vec<u8>>();
        match r.below(5) {
            0 => at += 1 + r.below(4) as usize,
            1 => {
                lines.push(Heard::Lost(b"-".to_vec()));
                at += 1;
            }
            2 => {
                let mut spoilt = call[at];
                spoilt[19] |= 0x40 << r.below(2);
                lines.push(Heard::Lost(hex(&spoilt)));
                at += 1;
                continue;
            }
            3 => at += 1,
            _ => {}
        }
        lines.push(Heard::Lost(b"-".to_vec()));
    }
    lines
}

/// `trace`'s excitation and its four answers for each accepted line, by the line's place.
struct Ours<R> {
    lines: std::io::Lines<R>,
}

impl<R: BufRead> Ours<R> {
    fn next(&mut self) -> String {
        self.lines.next().expect("a line of trace").unwrap()
    }

    /// The state is said last: its last line.
    fn state(&mut self) {
        while !self.next().starts_with("mark ") {}
        assert!(self.next().starts_with("sure "), "the state ends otherwise");
    }

    fn answer(&mut self) -> Option<(u8, Vec<i16>, [u8; 4])> {
        let head = self.next();
        let found = head.strip_prefix("accepted ").map(|mark| {
            let mut excitation = Vec::new();
            let mut sure = Vec::new();
            while sure.len() < 4 {
                let line = self.next();
                if let Some(numbers) = line.strip_prefix("excitation ") {
                    excitation = numbers.split(' ').map(|n| n.parse().unwrap()).collect();
                } else if let Some(n) = line.strip_prefix("sure ") {
                    sure.push(n.parse().unwrap());
                }
            }
            (mark.parse().unwrap(), excitation, sure.try_into().unwrap())
        });
        self.state();
        found
    }
}

fn one(launch: &str, folder: &std::path::Path, kind: &str, seed: u64, frames: u64, lines: usize) -> Result<Sums, String> {
    let tables = quiet(kind, seed);
    lent::fill(&tables);
    let mut r = Random::new(frames + 9000);
    let recording = Native::recording(lines, frames);
    let call: Vec<[u8; 20]> = recording.split(|&c| c == b'\n').filter_map(payload).filter(|p| refusal(p) == 0).collect();
    // heard from the first frame on, or joined cold at any
    let first = frames % 2 == 0;
    let join = if first { 0 } else { r.below(30) as usize };
    let heard = heard(&call, join, &mut r);
    let mut text = if first { b"+\n".to_vec() } else { Vec::new() };
    for line in &heard {
        match line {
            Heard::Frame(at) => text.extend(call[*at].iter().flat_map(|b| format!("{b:02x}").into_bytes())),
            Heard::Lost(with) => text.extend(with),
        }
        text.push(b'\n');
    }
    std::fs::write(folder.join("tables.bin"), &tables).unwrap();
    std::fs::write(folder.join("recording"), &text).unwrap();
    let mut child = Command::new(launch)
        .arg("trace")
        .current_dir(folder)
        .stdin(std::fs::File::open(folder.join("recording")).unwrap())
        .stdout(Stdio::piped())
        .spawn()
        .expect("the program");
    let mut ours = Ours { lines: BufReader::with_capacity(1 << 16, child.stdout.take().unwrap()).lines() };
    ours.state();
    let mut sender = Native::default();
    let sent: Vec<[i16; 320]> = call.iter().map(|p| sender.decode(p).unwrap().excitation).collect();
    let mut receiver = Native::default();
    let mut sums = Sums { frames: call.len() as u64, ..Sums::default() };
    let mut before = first;
    let mut result = Ok(());
    for (n, line) in heard.iter().enumerate() {
        let answer = ours.answer();
        match (line, answer) {
            (Heard::Lost(_), None) => before = false,
            (Heard::Frame(at), Some((mark, excitation, sure))) => {
                let seen = receiver.decode(&call[*at]).unwrap().excitation;
                sums.answered += 4;
                sums.two += if mark == 2 { 4 } else { 0 };
                sums.gained += (!before && sure[3] == 1) as u64;
                before = sure[3] == 1;
                if seen[..] != excitation[..] {
                    result = Err(format!("line {}: the receiver's excitation is another", n + 1));
                    break;
                }
                for k in 0..4 {
                    let same = seen[80 * k..][..80] == sent[*at][80 * k..][..80];
                    sums.sure += sure[k] as u64;
                    sums.same += (same && sure[k] == 0) as u64;
                    if sure[k] == 1 && !same {
                        result = Err(format!("line {}, subframe {k}: answered as sure, and its excitation is not the sender's", n + 1));
                    }
                }
                if result.is_err() {
                    break;
                }
            }
            _ => {
                result = Err(format!("line {}: accepted by one and refused by the other", n + 1));
                break;
            }
        }
    }
    let _ = child.kill();
    child.wait().unwrap();
    let reached: u64 = heard.iter().filter(|h| matches!(h, Heard::Frame(_))).count() as u64;
    sums.lost = sums.frames - reached;
    result.map(|()| sums)
}

impl Native {
    /// So many sets of each kind (the bare set is one), so many lines each. Stops at the first subframe that is answered as sure and is not.
    pub fn all_sure(launch: &str, each: u64, lines: usize) -> bool {
        let folder = std::env::temp_dir().join(format!("sure-{}", std::process::id()));
        std::fs::create_dir(&folder).unwrap();
        let began = Instant::now();
        let mut sum = Sums::default();
        let mut good = true;
        'sets: for (k, kind) in KINDS.into_iter().enumerate() {
            for seed in 1..=if kind == "bare" { 1 } else { each } {
                let frames = 500 * (k as u64 + 1) + seed;
                let name = format!("{kind}, set seed {seed}, frames seed {frames}");
                match one(launch, &folder, kind, seed, frames, lines) {
                    Ok(sums) => {
                        println!("{name}: {}", sums.said());
                        sum.add(sums);
                    }
                    Err(place) => {
                        println!("{name}: NOT SURE, {place}");
                        good = false;
                        break 'sets;
                    }
                }
            }
        }
        println!("in all, {} s: {}: {}", began.elapsed().as_secs(), sum.said(), if good { "each sure one is the sender's" } else { "NOT SURE" });
        std::fs::remove_dir_all(&folder).unwrap();
        good
    }
}
