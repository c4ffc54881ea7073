//! The program `trace` beside the Rust, on table sets of every kind: a line for each set, the first difference, and the sums.
use crate::celp::Native;
use crate::{lent, sets};
use std::io::BufReader;
use std::process::{Command, Stdio};
use std::time::Instant;

/// What the accepted frames of a recording met; the numbers count frames.
#[derive(Default)]
pub struct Tally {
    pub accepted: u64,
    pub refused: [u64; 10],
    /// by the mark that they were answered with
    pub marks: [u64; 3],
    /// subframes that are sure
    pub sure: u64,
    pub met: [u64; MET.len()],
    /// of subframes, for each kind of clipped samples: one sample clipped, several, all 80; and clipped in this kind alone
    pub clipped: [[u64; 4]; 4],
    /// subframes clipped in all four, and in none
    pub all_four: u64,
    pub none: u64,
}

const CLIPPED: [&str; 4] = ["prediction", "mixing", "synthesis", "output"];

impl Tally {
    pub fn clip(&mut self, counts: [usize; 4]) {
        let kinds = counts.iter().filter(|&&n| n != 0).count();
        self.none += (kinds == 0) as u64;
        self.all_four += (kinds == 4) as u64;
        for (sums, n) in self.clipped.iter_mut().zip(counts) {
            match n {
                0 => continue,
                1 => sums[0] += 1,
                80 => sums[2] += 1,
                _ => sums[1] += 1,
            }
            sums[3] += (kinds == 1) as u64;
        }
    }
}

pub const MET: [&str; 9] = [
    "an LSP of -32,768",
    "a residual of 0",
    "a subframe with several",
    "a negative residual",
    "a subnormal float",
    "a gain or residual beyond 32,768",
    "a digit that the wrap made fit",
    "a sample at an end",
    "silence",
];

fn counts(names: &[String], counts: &[u64]) -> String {
    let some: Vec<String> = names
        .iter()
        .zip(counts)
        .filter(|(_, &n)| n != 0)
        .map(|(name, n)| format!("{name} {n}"))
        .collect();
    some.join(", ")
}

pub fn said(tally: &Tally) -> String {
    let digits: Vec<String> = (0..10).map(|n| n.to_string()).collect();
    let met: Vec<String> = MET.iter().map(|m| format!("{m}:")).collect();
    let clipped: Vec<String> = CLIPPED
        .iter()
        .zip(tally.clipped)
        .filter(|(_, n)| n.iter().any(|&n| n != 0))
        .map(|(name, [one, some, whole, alone])| format!("{name}: 1 sample {one}, more {some}, all 80 {whole}, in it alone {alone}"))
        .collect();
    format!(
        "{} accepted (by mark: {}; {} subframes sure), {} refused (by number: {}); frames with [{}]; subframes clipped in [none: {}; {}; all four: {}]",
        tally.accepted,
        counts(&digits, &tally.marks),
        tally.sure,
        tally.refused.iter().sum::<u64>(),
        counts(&digits, &tally.refused),
        counts(&met, &tally.met),
        tally.none,
        clipped.join("; "),
        tally.all_four,
    )
}

fn add(sum: &mut [u64], more: &[u64]) {
    sum.iter_mut().zip(more).for_each(|(s, m)| *s += m);
}

/// One set and one recording for it; the folder holds its tables, its recording and nothing else.
fn one(launch: &str, folder: &std::path::Path, kind: &str, seed: u64, frames: u64, lines: usize) -> Result<Tally, String> {
    let tables = sets::set(kind, seed);
    lent::fill(&tables);
    counting::lent::fill(&tables);
    // some begin with `+`, some with two, of which the second is refused, and some cold
    let mut recording = b"+\n".repeat((frames % 3) as usize);
    recording.extend(Native::recording(lines, frames));
    std::fs::write(folder.join("tables.bin"), &tables).unwrap();
    std::fs::write(folder.join("recording"), &recording).unwrap();
    let mut child = Command::new(launch)
        .arg("trace")
        .current_dir(folder)
        .stdin(std::fs::File::open(folder.join("recording")).unwrap())
        .stdout(Stdio::piped())
        .spawn()
        .expect("the program");
    let answer = Native::compare(&recording, &mut BufReader::with_capacity(1 << 16, child.stdout.take().unwrap()));
    let _ = child.kill();
    child.wait().unwrap();
    answer
}

/// So many sets of each kind (the bare set and two_zeros are one each), so many lines each. Stops at the first difference.
pub fn all(launch: &str, each: u64, lines: usize) -> bool {
    let folder = std::env::temp_dir().join(format!("compare-{}", std::process::id()));
    std::fs::create_dir(&folder).unwrap();
    let began = Instant::now();
    let mut sum = Tally::default();
    let mut sets = 0;
    let mut equal = true;
    'sets: for (k, kind) in sets::KINDS.into_iter().enumerate() {
        for seed in 1..=if ["bare", "two_zeros"].contains(&kind) { 1 } else { each } {
            let frames = 100 * (k as u64 + 1) + seed;
            let name = format!("{kind}, set seed {seed}, frames seed {frames}");
            match one(launch, &folder, kind, seed, frames, lines) {
                Ok(tally) => {
                    println!("{name}: {}: equal", said(&tally));
                    sets += 1;
                    sum.accepted += tally.accepted;
                    add(&mut sum.refused, &tally.refused);
                    add(&mut sum.marks, &tally.marks);
                    sum.sure += tally.sure;
                    add(&mut sum.met, &tally.met);
                    add(sum.clipped.as_flattened_mut(), tally.clipped.as_flattened());
                    sum.all_four += tally.all_four;
                    sum.none += tally.none;
                }
                Err(place) => {
                    println!("{name}: DIFFERENT, recording {place}");
                    equal = false;
                    break 'sets;
                }
            }
        }
    }
    println!("in all, {sets} sets, {} s: {}: {}", began.elapsed().as_secs(), said(&sum), if equal { "equal" } else { "DIFFERENT" });
    std::fs::remove_dir_all(&folder).unwrap();
    equal
}
