//! player TABLES RECORDING OUT.wav [FRAME]: a recording as sound, from any of its frames on (from 0, the first).
//!
//! A recording has a frame a line, 40 hexadecimal digits. A first line `+` says that its call was heard from the first frame on. A line that is no frame
//! stands for one that was lost. Lost and refused frames are silence, so that the rest keeps its time. A frame is decoded as it would be in the whole
//! call: the player keeps an image of the decoder for every second of the call, and goes on from the last one before the frame that it enters at.
use drolkhise::{Decoder, Refusal, Tables, FRAME, IMAGE, SAMPLES};
use std::error::Error;
use std::{env, fs, process};

const RATE: u32 = 8000;
const SECOND: usize = RATE as usize / SAMPLES;

/// A call to be played from anywhere.
struct Player<'t> {
    tables: &'t Tables,
    lines: Vec<Option<[u8; FRAME]>>,
    /// The image before frame 0, and before each frame at a whole second.
    images: Vec<[u8; IMAGE]>,
}

/// The frame of a line; none where it is not 40 hexadecimal digits.
fn frame(line: &[u8]) -> Option<[u8; FRAME]> {
    let digit = |c: u8| Some((c as char).to_digit(16)? as u8);
    let mut bytes = [0; FRAME];
    if line.len() != 2 * FRAME {
        return None;
    }
    for (byte, pair) in bytes.iter_mut().zip(line.chunks_exact(2)) {
        *byte = 16 * digit(pair[0])? + digit(pair[1])?;
    }
    Some(bytes)
}

/// A line decoded, or told to be missing: its samples, silence where there are none.
fn heard(call: &mut Decoder, line: &Option<[u8; FRAME]>) -> Result<[i16; SAMPLES], Option<Refusal>> {
    match line {
        Some(frame) => call.decode(frame).map(|decoded| decoded.samples).map_err(Some),
        None => {
            call.missed();
            Err(None)
        }
    }
}

impl<'t> Player<'t> {
    /// Reads a recording, and tells what of it is refused.
    fn new(tables: &'t Tables, recording: &[u8]) -> Player<'t> {
        let mut lines: Vec<&[u8]> = recording.split(|&c| c == b'\n').collect();
        if lines.last() == Some(&&b""[..]) {
            lines.pop(); // what stands behind the last newline is no line
        }
        let from_start = lines.first() == Some(&&b"+"[..]);
        let mut call = if from_start { Decoder::reset(tables) } else { Decoder::cold(tables) };
        let lines: Vec<_> = lines.into_iter().skip(from_start as usize).map(frame).collect();
        let mut images = Vec::new();
        for (n, line) in lines.iter().enumerate() {
            if n % SECOND == 0 {
                images.push(*call.image());
            }
            match heard(&mut call, line) {
                Ok(_) => {}
                Err(Some(why)) => println!("line {}: {why}", n + 1 + from_start as usize),
                Err(None) => println!("line {}: no frame", n + 1 + from_start as usize),
            }
        }
        Player { tables, lines, images }
    }

    /// The samples from a frame on.
    fn from(&self, first: usize) -> Result<Vec<i16>, Refusal> {
        let Some(image) = self.images.get(first / SECOND) else { return Ok(Vec::new()) };
        let mut call = Decoder::from_image(self.tables, image)?;
        let mut samples = Vec::new();
        for (n, line) in self.lines.iter().enumerate().skip(first / SECOND * SECOND) {
            let sound = heard(&mut call, line).unwrap_or([0; SAMPLES]);
            if n >= first {
                samples.extend(sound);
            }
        }
        Ok(samples)
    }
}

/// A WAV file: 16 bits, one channel.
fn wav(samples: &[i16]) -> Result<Vec<u8>, Box<dyn Error>> {
    let bytes = u32::try_from(2 * samples.len()).ok().filter(|&n| n <= u32::MAX - 36).ok_or("the call is longer than a WAV file can be")?;
    let mut file = Vec::new();
    file.extend(b"RIFF");
    file.extend((36 + bytes).to_le_bytes());
    file.extend(b"WAVEfmt ");
    file.extend(16u32.to_le_bytes());
    file.extend([1, 0, 1, 0]);
    file.extend(RATE.to_le_bytes());
    file.extend((2 * RATE).to_le_bytes());
    file.extend([2, 0, 16, 0]);
    file.extend(b"data");
    file.extend(bytes.to_le_bytes());
    file.extend(samples.iter().flat_map(|sample| sample.to_le_bytes()));
    Ok(file)
}

fn play(tables: &str, recording: &str, out: &str, first: usize) -> Result<(), Box<dyn Error>> {
    let tables = Tables::new(&fs::read(tables).map_err(|why| format!("{tables}: {why}"))?).map_err(|why| format!("{tables}: {why}"))?;
    let player = Player::new(&tables, &fs::read(recording).map_err(|why| format!("{recording}: {why}"))?);
    let samples = player.from(first)?;
    fs::write(out, wav(&samples)?).map_err(|why| format!("{out}: {why}"))?;
    println!("{} of {} frames", samples.len() / SAMPLES, player.lines.len());
    Ok(())
}

fn main() {
    let words: Vec<String> = env::args().skip(1).collect();
    let words: Vec<&str> = words.iter().map(String::as_str).collect();
    let first = match words.get(3) {
        None => Some(0),
        Some(word) => word.parse().ok(),
    };
    let ([tables, recording, out] | [tables, recording, out, _], Some(first)) = (&words[..], first) else {
        eprintln!("player TABLES RECORDING OUT.wav [FRAME]");
        process::exit(2);
    };
    if let Err(why) = play(tables, recording, out, first) {
        eprintln!("player: {why}");
        process::exit(1);
    }
}
