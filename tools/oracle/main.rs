//! The Rust decoder, untouched, with a table set lent to it, asked and answering in lines of numbers.
//!
//! oracle questions MODULE [SEED]        questions for a module, a line each
//! oracle answers MODULE [TABLES]        the Rust's answers to the questions on standard input
//! oracle trace TABLES [junk]            every figure of every frame of the recording on standard input, which starts cold unless its
//!                                       first line is `+`; with junk in the places that no frame may depend on
//! oracle digest TABLES                  the same in a line for each line of the recording, 32 bits for each part; what was met goes
//!                                       to standard error
//! oracle calls TABLES..                the desk player's calls on standard input, as tools/test_c.c writes them, and whether the Rust answers them alike
//! oracle compare LAUNCH SETS LINES      `LAUNCH trace` on sets of every kind, every figure compared (compare.rs)
//! oracle sure LAUNCH SETS LINES         a sender and a receiver of the Rust and `LAUNCH trace` beside them: what is answered as sure is the sender's (sure.rs)
//! oracle frames COUNT [SEED]            that many random frames as lines of hexadecimal, damaged ones among them
//! oracle recording TABLES COUNT [SEED]  that many lines, most of them frames that the set accepts (recordings.rs)
//! oracle two_zeros TRIES [SEED]         of so many random LSP sets those by which the reflection recursion meets a residual of 0 more than once
//!                                       (probe.rs): the LSPs, the LPC numbers, how often
//! oracle set KIND [SEED]                a table set of 15,834 bytes (sets.rs says which kinds)
use std::io::{self, BufRead, Read, Write};

// config.rs has its bytes by `include_bytes!`: here they are those of the lent set.
macro_rules! include_bytes {
    ($name:literal) => {
        unsafe { &*crate::lent::BYTE_ROOM.get() }
    };
}

mod celp;
mod compare;
mod lent;
mod random;
mod sets;

use celp::Native;

fn show(numbers: &[i64]) -> String {
    numbers
        .iter()
        .map(|n| n.to_string())
        .collect::<Vec<_>>()
        .join(" ")
}

/// One in forty has a padding bit set, one in eighty is no frame at all.
fn frames(count: usize, seed: u64, out: &mut impl Write) {
    let mut r = random::Random::new(seed);
    for _ in 0..count {
        let mut bytes: Vec<u8> = (0..20).map(|_| r.below(256) as u8).collect();
        if r.below(40) != 0 {
            bytes[19] &= 0x3f;
        }
        let mut text: String = bytes.iter().map(|b| format!("{b:02x}")).collect();
        if r.below(80) == 0 {
            text.truncate(r.below(40) as usize);
        }
        writeln!(out, "{text}").unwrap();
    }
}

fn main() {
    let words: Vec<String> = std::env::args().skip(1).collect();
    let mut out = io::BufWriter::new(io::stdout());
    lent::fill_bare();
    counting::lent::fill_bare();
    match words.first().map(String::as_str) {
        Some("questions") => {
            let seed = words.get(2).map_or(1, |s| s.parse().expect("a seed"));
            for q in Native::questions(&words[1], seed) {
                writeln!(out, "{}", show(&q)).unwrap();
            }
        }
        Some("answers") => {
            if let Some(file) = words.get(2) {
                lent::fill(&std::fs::read(file).expect("the table file"));
            }
            for line in io::stdin().lock().lines() {
                let question: Vec<i64> = line
                    .unwrap()
                    .split(' ')
                    .map(|n| n.parse().expect("a number"))
                    .collect();
                writeln!(out, "{}", show(&Native::answer(&words[1], &question))).unwrap();
            }
        }
        Some(how @ ("trace" | "digest")) => {
            let tables = std::fs::read(&words[1]).expect("the table file");
            lent::fill(&tables);
            counting::lent::fill(&tables);
            let mut recording = Vec::new();
            io::stdin().lock().read_to_end(&mut recording).unwrap();
            if how == "trace" {
                Native::trace(&recording, words.get(2).is_some_and(|w| w == "junk"), &mut out);
            } else {
                let name = std::path::Path::new(&words[1]).file_name().unwrap().to_string_lossy().to_string();
                eprintln!("{name}: {}", compare::said(&Native::digest(&name, &recording, &mut out)));
            }
        }
        Some("calls") => {
            let sets: Vec<Vec<u8>> = words[1..].iter().map(|file| std::fs::read(file).expect("the table file")).collect();
            match Native::calls(&sets, &mut io::BufReader::with_capacity(1 << 16, io::stdin().lock())) {
                Ok(said) => println!("{said}: equal"),
                Err(place) => {
                    println!("DIFFERENT: {place}");
                    std::process::exit(1);
                }
            }
        }
        Some("compare") => {
            let number = |k: usize| words[k].parse().expect("a number");
            if !compare::all(&words[1], number(2), number(3) as usize) {
                std::process::exit(1);
            }
        }
        Some("sure") => {
            let number = |k: usize| words[k].parse().expect("a number");
            if !Native::all_sure(&words[1], number(2), number(3) as usize) {
                std::process::exit(1);
            }
        }
        Some("recording") => {
            lent::fill(&std::fs::read(&words[1]).expect("the table file"));
            let count: usize = words[2].parse().expect("a count");
            let seed = words.get(3).map_or(1, |s| s.parse().expect("a seed"));
            out.write_all(&Native::recording(count, seed)).unwrap();
        }
        Some("frames") => {
            let count: usize = words[1].parse().expect("a count");
            let seed = words.get(2).map_or(1, |s| s.parse().expect("a seed"));
            frames(count, seed, &mut out);
        }
        Some("two_zeros") => {
            let tries: u64 = words[1].parse().expect("a count");
            let seed = words.get(2).map_or(1, |s| s.parse().expect("a seed"));
            for found in Native::two_zeros(tries, seed) {
                writeln!(out, "{}", show(&found)).unwrap();
            }
        }
        Some("set") => {
            let seed = words.get(2).map_or(1, |s| s.parse().expect("a seed"));
            out.write_all(&sets::set(&words[1], seed)).unwrap();
        }
        _ => eprintln!("no such command: main.rs lists them"),
    }
}
