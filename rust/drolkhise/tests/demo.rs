//! The crate beside the program `decode` on the demo's calls, the C header's words and numbers, and everything that is refused.
use drolkhise::{Decoder, Fields, Half, Refusal, Saved, Shelf, Tables, FRAME, IMAGE, MOST_FRAMES, MOST_HANDLES, SAMPLES, SLOTS, TABLES};
use std::fs::{self, File};
use std::path::{Path, PathBuf};
use std::process::Command;

const CALLS: [&str; 3] = ["call", "damaged", "late"];

fn root() -> PathBuf {
    Path::new(env!("CARGO_MANIFEST_DIR")).join("../..")
}

fn file() -> Vec<u8> {
    fs::read(root().join("demo/tables.bin")).unwrap()
}

fn tables() -> Tables {
    Tables::new(&file()).unwrap()
}

/// Cut at newlines alone: a carriage return is part of its line, which is then no frame.
fn lines(call: &str) -> Vec<String> {
    fs::read_to_string(root().join(format!("demo/{call}.hex"))).unwrap().split_terminator('\n').map(String::from).collect()
}

fn frame(line: &str) -> Option<Vec<u8>> {
    if line.len() != 2 * FRAME || !line.bytes().all(|c| c.is_ascii_hexdigit()) {
        return None;
    }
    (0..FRAME).map(|k| u8::from_str_radix(&line[2 * k..2 * k + 2], 16).ok()).collect()
}

/// What a command writes, which is to succeed.
fn said(command: &mut Command) -> Vec<u8> {
    let ran = command.output().unwrap();
    assert!(ran.status.success(), "{command:?}: {}", String::from_utf8_lossy(&ran.stderr));
    ran.stdout
}

/// A call, and its lines: with `+` taken away, which says in which state it begins.
fn begun<'t>(tables: &'t Tables, call: &str) -> (Decoder<'t>, Vec<String>) {
    let mut lines = lines(call);
    if lines[0] == "+" {
        lines.remove(0);
        (Decoder::reset(tables), lines)
    } else {
        (Decoder::cold(tables), lines)
    }
}

/// A line as `decode` answers it.
fn text(call: &mut Decoder, line: &str) -> String {
    let Some(frame) = frame(line) else {
        call.missed();
        return "refused 9\n".into();
    };
    match call.decode(&frame) {
        Ok(heard) => format!("{} {}\n", heard.mark, heard.samples.iter().map(|sample| format!("{sample:04x}")).collect::<String>()),
        Err(why) => format!("refused {}\n", why.number()),
    }
}

#[test]
fn calls_are_decoded_as_decode_does() {
    let tables = tables();
    for call in CALLS {
        let recording = File::open(root().join(format!("demo/{call}.hex"))).unwrap();
        let wanted = said(Command::new("../tools/launch").arg("decode").current_dir(root().join("demo")).stdin(recording));
        let (mut decoder, lines) = begun(&tables, call);
        let got: String = lines.iter().map(|line| text(&mut decoder, line)).collect();
        assert_eq!(got.lines().count(), lines.len());
        assert!(got.as_bytes() == wanted, "demo/{call}.hex: the texts differ");
    }
}

#[test]
fn a_call_goes_on_from_any_image() {
    let tables = tables();
    let (mut whole, lines) = begun(&tables, "damaged");
    for line in &lines {
        let image = whole.image().to_vec();
        let mut again = Decoder::from_image(&tables, &image).unwrap();
        assert_eq!(again.image()[..], image[..]);
        assert_eq!(text(&mut again, line), text(&mut whole, line));
        assert_eq!(again, whole);
    }
}

#[test]
fn a_refused_frame_changes_the_last_two_bytes_alone() {
    let tables = tables();
    let mut call = Decoder::reset(&tables);
    let good = frame(&lines("call")[60]).unwrap();
    call.decode(&good).unwrap();
    let before = *call.image();
    let left = |call: &Decoder| call.image()[..IMAGE - 2] == before[..IMAGE - 2] && call.image()[IMAGE - 2..] == [0, 0] && call.mark() == 0 && !call.is_sure();
    let mut padding = good.clone();
    padding[FRAME - 1] |= 0x40;
    assert_eq!(call.decode(&padding), Err(Refusal::Padding));
    assert!(left(&call));
    for length in (0..80).filter(|&n| n != FRAME) {
        let mut call = Decoder::from_image(&tables, &before).unwrap();
        assert_eq!(call.decode(&vec![0; length]), Err(Refusal::FrameLength), "{length} bytes");
        assert!(left(&call));
    }
    let mut call = Decoder::from_image(&tables, &before).unwrap();
    let no_position = frame(&lines("damaged")[96]).unwrap();
    assert_eq!(call.decode(&no_position), Err(Refusal::CodeIndex));
    assert!(left(&call));
    let mut call = Decoder::from_image(&tables, &before).unwrap();
    call.missed();
    assert!(left(&call));
    let marks: Vec<u8> = (0..4).map(|_| call.decode(&good).unwrap().mark).collect();
    assert_eq!(marks, [0, 1, 2, 2]);
}

#[test]
fn frames_in_one_call_are_their_single_calls() {
    let tables = tables();
    for call in CALLS {
        let (start, lines) = begun(&tables, call);
        let frames: Vec<u8> = lines.iter().filter_map(|line| frame(line)).flatten().collect();
        for count in (1..=MOST_FRAMES).filter(|count| call == "damaged" || [1, 7, MOST_FRAMES].contains(count)) {
            let (mut together, mut single) = (start.clone(), start.clone());
            for some in frames.chunks(count * FRAME) {
                let wanted: Vec<_> = some.chunks_exact(FRAME).map(|one| single.decode(one)).collect();
                assert!(together.decode_frames(some).unwrap() == wanted, "demo/{call}.hex, {count} frames a call");
                assert_eq!(together, single);
            }
        }
    }
}

#[test]
fn other_numbers_of_frames_are_refused() {
    let tables = tables();
    let start = Decoder::reset(&tables);
    let most = MOST_FRAMES * FRAME;
    let whole = |n: usize| n > 0 && n <= most && n % FRAME == 0;
    for length in (0..=2 * most + FRAME).chain([1 << 20]) {
        let mut call = start.clone();
        let answered = call.decode_frames(&vec![0; length]);
        if whole(length) {
            assert_eq!(answered.unwrap().len(), length / FRAME);
        } else {
            assert_eq!(answered, Err(Refusal::FrameLength), "{length} bytes");
            assert_eq!((&call.image()[..IMAGE - 2], &call.image()[IMAGE - 2..]), (&start.image()[..IMAGE - 2], &[0, 0][..]));
        }
    }
}

#[test]
fn tables_of_another_length_or_against_a_rule_are_refused() {
    let file = file();
    let longer: Vec<u8> = file.iter().copied().chain([0; 40]).collect();
    for length in (0..64).chain(TABLES - 40..TABLES + 41).filter(|&n| n != TABLES) {
        assert_eq!(Tables::new(&longer[..length]).unwrap_err(), Refusal::TablesLength, "{length} bytes");
    }
    // the index limit 0, a falling base, four pulses, a selector of 30, a negative position, an ALT entry of 0, an infinite float; of two rules the lower
    let words: [(u8, usize, i16); 6] = [(1, 186, 0), (1, 192, 0), (2, 197, 4), (3, 210, 30), (4, 842, -1), (5, 4682, 0)];
    let float = [0, 0, 0x80, 0x7f];
    let with = |changes: &[(usize, &[u8])]| {
        let mut broken = file.clone();
        changes.iter().for_each(|(at, bytes)| broken[*at..at + bytes.len()].copy_from_slice(bytes));
        Tables::new(&broken).unwrap_err()
    };
    for (rule, place, word) in words {
        let word = word.to_le_bytes();
        assert_eq!(with(&[(2 * place, &word)]), Refusal::TablesRule { rule, place });
        assert_eq!(with(&[(2 * place, &word), (TABLES - 4, &float)]), Refusal::TablesRule { rule, place });
    }
    let why = with(&[(TABLES - 4, &float), (TABLES - 8, &float)]);
    assert_eq!((why, why.number()), (Refusal::TablesRule { rule: 6, place: 3900 }, 4));
    assert_eq!(why.to_string(), "the tables break a set rule: rule 6, at byte 3900");
}

/// What `decode` says of the same file.
#[test]
fn a_broken_rule_is_told_as_decode_tells_it() {
    let room = Path::new(env!("CARGO_TARGET_TMPDIR")).join("tables");
    fs::create_dir_all(&room).unwrap();
    for (at, byte) in [(2 * 186, 0), (2 * 195, 9), (2 * 204, 99), (2 * 800, 0x80), (2 * 1700, 0), (11926 + 4 * 512 + 2, 0x7f)] {
        let mut broken = file();
        broken[at..at + 2].fill(byte);
        fs::write(room.join("tables.bin"), &broken).unwrap();
        let wanted = String::from_utf8(said(Command::new(root().join("tools/launch")).arg("decode").current_dir(&room))).unwrap();
        let Err(Refusal::TablesRule { rule, place }) = Tables::new(&broken) else { panic!("byte {at}: no rule is told") };
        assert_eq!(format!("tables refused 4 {rule} {place}\n"), wanted, "byte {at}");
    }
}

#[test]
fn fields_and_frames_give_each_other_back() {
    let mut accepted = 0;
    for line in CALLS.iter().flat_map(|call| lines(call)) {
        let Some(frame) = frame(&line) else { continue };
        match Fields::unpack(&frame) {
            Ok(fields) => {
                assert_eq!(fields.pack().unwrap()[..], frame[..]);
                assert_eq!(Fields::unpack(&fields.pack().unwrap()), Ok(fields));
                accepted += 1;
            }
            Err(why) => assert_eq!((why, frame[19] & 0xc0 != 0), (Refusal::Padding, true)),
        }
    }
    assert!(accepted > 100);
    for length in (0..80).filter(|&n| n != FRAME) {
        assert_eq!(Fields::unpack(&vec![0; length]), Err(Refusal::FrameLength), "{length} bytes");
    }
    // document 01's case 13: of a frame of zeros stage2_low is 1 then 0, and every other field 0
    let zero = Fields { first: Half { stage2_low: 1, ..Half::default() }, ..Fields::default() };
    assert_eq!(Fields::unpack(&[0; FRAME]), Ok(zero));
}

/// Each field at its largest is packed and comes back alone, one more is refused, and its highest bit is the frame's bit that bits.rs has first.
#[test]
fn fields_have_their_bits() {
    type Field = fn(&mut Half) -> &mut u16;
    let halves: [fn(&mut Fields) -> &mut Half; 2] = [|f| &mut f.first, |f| &mut f.second];
    // how wide it is, and where that bit is in either half
    let fields: [(Field, u32, [usize; 2]); 12] = [
        (|h| &mut h.gain_low0, 4, [23, 62]),
        (|h| &mut h.gain_low1, 4, [35, 74]),
        (|h| &mut h.code0, 16, [18, 57]),
        (|h| &mut h.code1, 16, [30, 69]),
        (|h| &mut h.gain_high0, 3, [20, 59]),
        (|h| &mut h.gain_high1, 3, [32, 71]),
        (|h| &mut h.mode, 1, [0, 39]),
        (|h| &mut h.stage1, 7, [1, 40]),
        (|h| &mut h.stage2_low, 6, [8, 47]),
        (|h| &mut h.stage2_high, 6, [121, 141]),
        (|h| &mut h.absolute_pitch, 8, [12, 51]),
        (|h| &mut h.relative_pitch, 5, [27, 66]),
    ];
    let zero = Fields::default().pack().unwrap();
    let mut bits = [0u8; FRAME];
    for (field, width, places) in fields {
        for (half, place) in halves.into_iter().zip(places) {
            let mut some = Fields::default();
            *field(half(&mut some)) = ((1u32 << width) - 1) as u16;
            let frame = some.pack().unwrap();
            assert_eq!(Fields::unpack(&frame), Ok(some));
            // as many bits as the field is wide differ from no field's frame, and no two fields have one in common
            let changed: Vec<u8> = frame.iter().zip(zero).map(|(a, b)| a ^ b).collect();
            assert_eq!(changed.iter().map(|b| b.count_ones()).sum::<u32>(), width);
            assert!(bits.iter().zip(&changed).all(|(a, b)| a & b == 0));
            bits.iter_mut().zip(&changed).for_each(|(a, b)| *a |= b);
            *field(half(&mut some)) = 1 << (width - 1);
            let highest = some.pack().unwrap();
            assert!((0..8 * FRAME).all(|i| ((highest[i / 8] ^ zero[i / 8]) >> (i % 8) & 1 == 1) == (i == place)));
            if width < 16 {
                *field(half(&mut some)) = 1 << width;
                assert_eq!(some.pack(), Err(Refusal::FieldWidth));
            }
        }
    }
    assert_eq!(bits.map(u8::count_ones).iter().sum::<u32>(), 158);
}

#[test]
fn images_of_another_length_or_no_decoders_are_refused() {
    let tables = tables();
    let (mut call, lines) = begun(&tables, "call");
    lines[..50].iter().for_each(|line| drop(text(&mut call, line)));
    let image = *call.image();
    let longer: Vec<u8> = image.iter().copied().chain([0; 40]).collect();
    for length in (0..IMAGE + 41).filter(|&n| n != IMAGE) {
        assert_eq!(Decoder::from_image(&tables, &longer[..length]).unwrap_err(), Refusal::ImageLength, "{length} bytes");
    }
    for mark in 0..=255 {
        let mut other = image;
        other[IMAGE - 2] = mark;
        let got = Decoder::from_image(&tables, &other).map(|call| call.mark());
        assert_eq!(got, if mark <= 2 { Ok(mark) } else { Err(Refusal::ImageRule) });
        let mut other = image;
        other[IMAGE - 1] = mark;
        let got = Decoder::from_image(&tables, &other).map(|call| call.is_sure());
        assert_eq!(got, if mark <= 2 { Ok(mark == 2) } else { Err(Refusal::ImageRule) });
    }
    let mut nan = image;
    nan[IMAGE - 6..IMAGE - 2].copy_from_slice(&f32::NAN.to_le_bytes());
    assert_eq!(Decoder::from_image(&tables, &nan).unwrap_err(), Refusal::ImageRule);
}

#[test]
fn the_two_beginnings_differ_in_the_last_two_bytes_alone() {
    let tables = tables();
    let (warm, cold) = (Decoder::reset(&tables), Decoder::cold(&tables));
    assert_eq!((warm.mark(), warm.is_sure(), cold.mark(), cold.is_sure()), (2, true, 0, false));
    assert_eq!(warm.image()[..IMAGE - 2], cold.image()[..IMAGE - 2]);
}

#[test]
fn numbers_words_and_lengths_are_the_headers() {
    let header = fs::read_to_string(root().join("include/drolkhise.h")).unwrap();
    let value = |name: &str| -> usize {
        let line = header.lines().find(|line| line.trim().starts_with(&format!("{name} = "))).unwrap_or_else(|| panic!("no {name}"));
        line.split(" = ").nth(1).unwrap().split(|c: char| !c.is_ascii_digit()).next().unwrap().parse().unwrap()
    };
    assert_eq!([TABLES, IMAGE, FRAME, 2 * SAMPLES], ["TABLES", "IMAGE", "PAYLOAD", "SAMPLES"].map(|name| value(&format!("DROLKHISE_{name}"))));
    assert!(header.contains(&format!("DROLKHISE_MOST_FRAMES = {MOST_FRAMES} ")));
    assert!(header.contains(&format!("DROLKHISE_SHELF = {SLOTS} * DROLKHISE_IMAGE ")));
    assert_eq!(value("DROLKHISE_RECORDS"), 5 * SLOTS);
    let refusals = [
        (Refusal::TablesLength, "TABLES_LENGTH"),
        (Refusal::FrameLength, "PAYLOAD_LENGTH"),
        (Refusal::TablesRule { rule: 5, place: 1483 }, "TABLES_RULE"),
        (Refusal::ImageRule, "IMAGE_RULE"),
        (Refusal::Padding, "PADDING"),
        (Refusal::CodeIndex, "CODE_INDEX"),
        (Refusal::FieldWidth, "FIELD_WIDTH"),
        (Refusal::ImageLength, "IMAGE_LENGTH"),
        (Refusal::ShelfLength, "SHELF_LENGTH"),
        (Refusal::NoSlot, "NO_SLOT"),
        (Refusal::SlotFull, "SLOT_FULL"),
        (Refusal::NoFrame, "NO_FRAME"),
    ];
    for (refusal, name) in refusals {
        assert_eq!(refusal.number() as usize, value(&format!("DROLKHISE_{name}")), "{name}");
        let refusal = refusal.to_string();
        let words = format!("case DROLKHISE_{name}: return \"{}\";", refusal.split(": rule").next().unwrap());
        assert!(header.contains(&words), "the header has not: {words}");
    }
    // one more stands there, 2, for rooms that this crate lends itself
    assert_eq!(header.matches(": return \"").count() - 2, refusals.len() + 1);
}

/// A call's decoder before each of its frames.
fn played<'t>(tables: &'t Tables, call: &str) -> Vec<Decoder<'t>> {
    let (start, lines) = begun(tables, call);
    lines.iter().scan(start, |call, line| Some((call.clone(), text(call, line)).0)).collect()
}

/// How many more decoders a shelf takes.
fn free(shelf: &Shelf, call: &Decoder) -> usize {
    let saves: Vec<_> = (0..).map_while(|k| shelf.save(call, k).ok()).collect();
    assert_eq!(shelf.save(call, 0).unwrap_err(), Refusal::SlotFull);
    saves.len()
}

/// April's sequence: a saved state was let go of while a player still pointed at it, another was saved in its place, and the player went on from that one.
/// Pointing at it does not compile (`Shelf`'s examples); with a handle of its own the player has what was saved.
#[test]
fn what_a_player_holds_is_kept() {
    let tables = tables();
    let played = played(&tables, "call");
    let shelf = Shelf::new();
    let saved = shelf.save(&played[60], 60).unwrap();
    let player = saved.hold().unwrap();
    drop(saved);
    let others: Vec<Saved> = (61..61 + SLOTS - 1).map(|k| shelf.save(&played[k], k as u32).unwrap()).collect();
    assert_eq!(shelf.save(&played[0], 0).unwrap_err(), Refusal::SlotFull);
    assert_eq!((player.frame(), player.fetch().unwrap()), (60, played[60].clone()));
    drop(player);
    let next = shelf.save(&played[100], 100).unwrap();
    assert_eq!((next.frame(), next.fetch().unwrap()), (100, played[100].clone()));
    for (k, other) in (61..).zip(&others) {
        assert_eq!((other.frame() as usize, other.fetch().unwrap()), (k, played[k].clone()));
    }
}

#[test]
fn what_is_fetched_is_a_copy() {
    let tables = tables();
    let (start, lines) = begun(&tables, "call");
    let shelf = Shelf::new();
    let saved = shelf.save(&start, 0).unwrap();
    let run = |mut call: Decoder| lines.iter().map(|line| text(&mut call, line)).collect::<String>();
    assert!(run(saved.fetch().unwrap()) == run(start.clone()));
    assert_eq!(saved.fetch().unwrap(), start);
}

#[test]
fn a_slot_has_255_handles_and_a_shelf_16_slots() {
    let tables = tables();
    let call = Decoder::reset(&tables);
    let shelf = Shelf::new();
    assert_eq!(free(&shelf, &call), SLOTS);
    let first = shelf.save(&call, u32::MAX).unwrap();
    let mut handles: Vec<Saved> = (1..MOST_HANDLES).map(|_| first.hold().unwrap()).collect();
    handles.push(first);
    assert_eq!(handles.len(), MOST_HANDLES);
    for handle in [&handles[0], &handles[MOST_HANDLES - 1]] {
        assert_eq!(handle.hold().unwrap_err(), Refusal::SlotFull);
    }
    handles.pop();
    handles.push(handles[7].hold().unwrap());
    assert_eq!(handles[7].hold().unwrap_err(), Refusal::SlotFull);
    while let Some(handle) = handles.pop() {
        assert_eq!((handle.frame(), handle.fetch().unwrap()), (u32::MAX, call.clone()));
        assert_eq!(free(&shelf, &call), SLOTS - 1);
    }
    assert_eq!(free(&shelf, &call), SLOTS);
}

#[test]
fn a_seek_finds_what_playing_gives() {
    let tables = tables();
    for call in CALLS {
        let played = played(&tables, call);
        let recording = fs::read(root().join(format!("demo/{call}.hex"))).unwrap();
        // no save at 0; all at one place; spread, in an order of their own, past the last frame too
        for places in [vec![], vec![0], vec![30], vec![62, 62, 61], (0..SLOTS).map(|k| k * 59 % played.len()).collect(), vec![0, played.len() - 1]] {
            let shelf = Shelf::new();
            let saves: Vec<Saved> = places.iter().map(|&k| shelf.save(&played[k], k as u32).unwrap()).collect();
            let past = shelf.save(&played[0], u32::MAX); // none where sixteen are saved
            for (k, decoder) in played.iter().enumerate() {
                let wanted = if places.iter().any(|&place| place <= k) { Ok(decoder.clone()) } else { Err(Refusal::NoFrame) };
                assert!(shelf.seek(&tables, &recording, k as u32) == wanted, "demo/{call}.hex, frame {k}, saves at {places:?}");
            }
            for k in [played.len() as u32, played.len() as u32 + 1, u32::MAX] {
                assert_eq!(shelf.seek(&tables, &recording, k).unwrap_err(), Refusal::NoFrame);
            }
            for (save, &k) in saves.iter().zip(&places) {
                assert_eq!(save.fetch().unwrap(), played[k], "a seek changes nothing on the shelf");
            }
            assert_eq!(past.is_err(), places.len() == SLOTS);
            drop(saves);
            assert_eq!(shelf.seek(&tables, &recording, 70).unwrap_err(), Refusal::NoFrame);
        }
    }
}

#[test]
fn threads_share_a_shelf() {
    fn shared<T: Send + Sync>(_: &T) {}
    let tables = tables();
    let played = played(&tables, "call");
    let recording = fs::read(root().join("demo/call.hex")).unwrap();
    let shelf = Shelf::new();
    shared(&shelf);
    let start = shelf.save(&played[0], 0).unwrap();
    shared(&start);
    std::thread::scope(|s| {
        for thread in 0..3 {
            let (shelf, played, recording, tables, start) = (&shelf, &played, &recording, &tables, &start);
            s.spawn(move || {
                for n in 0..40 {
                    let k = 1 + (37 * n + 11 * thread) % 80;
                    // three threads have at most three saves each, beside the start
                    let saves = [k, k + 20, k + 40].map(|k| (k, shelf.save(&played[k], k as u32).unwrap()));
                    let held = saves.each_ref().map(|(k, saved)| (*k, saved.hold().unwrap()));
                    drop(saves);
                    assert_eq!(shelf.seek(tables, recording, k as u32 + 41).unwrap(), played[k + 41]);
                    held.iter().for_each(|(k, saved)| assert_eq!(saved.fetch().unwrap(), played[*k]));
                    assert_eq!(start.hold().unwrap().fetch().unwrap(), played[0]);
                }
            });
        }
    });
    assert_eq!(free(&shelf, &played[0]), SLOTS - 1);
}

/// A handle that is dropped while its thread panics lets go, and the shelf serves on.
#[test]
fn a_panic_leaves_a_shelf() {
    let tables = tables();
    let call = Decoder::reset(&tables);
    let shelf = Shelf::new();
    let panicked = std::thread::scope(|s| {
        s.spawn(|| {
            let _saved = shelf.save(&call, 3).unwrap();
            panic!("meant");
        })
        .join()
    });
    assert!(panicked.is_err());
    assert_eq!(free(&shelf, &call), SLOTS);
}

#[test]
fn threads_decode_at_once() {
    fn shared<T: Send + Sync>(_: &T) {}
    let tables = tables();
    shared(&tables);
    let (call, lines) = begun(&tables, "call");
    shared(&call);
    let run = || lines.iter().scan(call.clone(), |call, line| Some(text(call, line))).collect::<String>();
    let alone = run();
    std::thread::scope(|s| {
        let threads: Vec<_> = (0..3).map(|_| s.spawn(run)).collect();
        threads.into_iter().for_each(|thread| assert!(thread.join().unwrap() == alone));
    });
}

#[test]
fn the_example_plays_from_any_frame() {
    // not `current_exe`, which by an emulator is the loader
    let tests = PathBuf::from(std::env::args_os().next().unwrap());
    let player = tests.parent().unwrap().parent().unwrap().join("examples/player");
    assert!(player.exists(), "the example is not built: `cargo test` builds it, `cargo test --test demo` alone does not");
    let room = Path::new(env!("CARGO_TARGET_TMPDIR"));
    let (whole, part) = (room.join("whole.wav"), room.join("part.wav"));
    for call in CALLS {
        let recording = root().join(format!("demo/{call}.hex"));
        said(Command::new(root().join("tools/wav")).args([&root().join("demo/tables.bin"), &recording, &whole]));
        let whole = fs::read(&whole).unwrap();
        let frames = (whole.len() - 44) / (2 * SAMPLES);
        for first in [0, 1, 24, 25, 26, 62, frames - 1, frames, frames + 30] {
            // by tools/launch, since a machine that is not x86-64 runs it by an emulator
            said(Command::new(root().join("tools/launch")).arg(&player).args([&root().join("demo/tables.bin"), &recording, &part]).arg(first.to_string()));
            let part = fs::read(&part).unwrap();
            assert!(part[44..] == whole[44 + 2 * SAMPLES * first.min(frames)..], "demo/{call}.hex from frame {first}");
            if first == 0 {
                assert!(part == whole, "demo/{call}.hex: the sound file is that of tools/wav");
            }
        }
    }
}
