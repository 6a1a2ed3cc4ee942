// Schedules through two programs: ours as a process, and the plain program's crate, which this file is put into as its
// main file. `readings` builds and runs it; its page says what is compared. `explored` is put behind explore.rs.
mod arbiter;
mod audit;
mod config;
mod explore;
mod gen;
mod names;
mod node;
mod points;
mod quorum;
mod reconfig;
mod replica;
mod ring;
mod sched;
mod top;
mod wire;
mod world;

use std::fs::File;
use std::io::Write;
use std::process::{Command, Stdio};
use std::time::{Duration, Instant};

/// SplitMix64.
struct Draws(u64);

impl Draws {
    fn next(&mut self) -> u64 {
        self.0 = self.0.wrapping_add(0x9e37_79b9_7f4a_7c15);
        let mut z = self.0;
        z = (z ^ (z >> 30)).wrapping_mul(0xbf58_476d_1ce4_e5b9);
        z = (z ^ (z >> 27)).wrapping_mul(0x94d0_49bb_1331_11eb);
        z ^ (z >> 31)
    }

    fn below(&mut self, end: usize) -> usize {
        (self.next() % end.max(1) as u64) as usize
    }

    fn pick<'a>(&mut self, from: &'a [&'a str]) -> &'a str {
        from[self.below(from.len())]
    }
}

const NUMBERS: [&str; 22] = [
    "0", "1", "2", "3", "9", "10", "63", "64", "65", "999", "1000", "65535", "65536", "4294967295", "4294967296",
    "1000000000", "1000000001", "1000000000000000", "1000000000000001", "18446744073709551615", "18446744073709551616",
    "00",
];
const SIGNS: &[u8] = b" \t\r\0\xff09-,:{}\"[]#";
const WORDS: [&str; 24] = [
    "start", "stop", "tick", "fire", "give", "do", "junk", "a1", "a9", "a10", "link", "for", "part", "near", "all",
    "join", "find", "0000000000000000", "ffffffffffffffff", "ffffffffffffffff-0000000000000000", "-", "", "write",
    "# no event",
];

/// The words of a line, where the places of the blanks are lost.
fn change_word(draws: &mut Draws, line: &[u8]) -> Vec<u8> {
    let mut words: Vec<&[u8]> = line.split(|it| *it == b' ').collect();
    let at = draws.below(words.len());
    match draws.below(6) {
        0 => words[at] = draws.pick(&NUMBERS).as_bytes(),
        1 => words[at] = draws.pick(&WORDS).as_bytes(),
        2 => {
            words.remove(at);
        }
        3 => words.insert(at, words[at]),
        4 => words.insert(at, draws.pick(&NUMBERS).as_bytes()),
        _ => {
            let other = draws.below(words.len());
            words.swap(at, other);
        }
    }
    words.join(&b' ')
}

/// A number of the line gets another value, in JSON too.
fn change_number(draws: &mut Draws, line: &[u8]) -> Vec<u8> {
    let starts: Vec<usize> = (0..line.len())
        .filter(|at| line[*at].is_ascii_digit() && (*at == 0 || !line[at - 1].is_ascii_digit()))
        .collect();
    if starts.is_empty() {
        return line.to_vec();
    }
    let from = starts[draws.below(starts.len())];
    let to = (from..line.len()).find(|at| !line[*at].is_ascii_digit()).unwrap_or(line.len());
    let mut text = line[..from].to_vec();
    text.extend_from_slice(draws.pick(&NUMBERS).as_bytes());
    text.extend_from_slice(&line[to..]);
    text
}

fn change_bytes(draws: &mut Draws, line: &[u8]) -> Vec<u8> {
    let mut text = line.to_vec();
    for _ in 0..=draws.below(3) {
        let at = draws.below(text.len().max(1));
        match draws.below(4) {
            0 if !text.is_empty() => text[at] = draws.next() as u8,
            1 if !text.is_empty() => text[at] ^= 1 << draws.below(8),
            2 if !text.is_empty() => {
                text.remove(at);
            }
            _ => text.insert(at.min(text.len()), SIGNS[draws.below(SIGNS.len())]),
        }
    }
    text
}

/// A line at a limit: of 4,096 bytes, one more, or 65,536 for the first.
fn long_line(draws: &mut Draws, line: &[u8], is_first: bool) -> Vec<u8> {
    let limit = if is_first { 65_536 } else { 4_096 };
    let mut text = line.to_vec();
    let fill = if draws.below(2) == 0 { b' ' } else { b'x' };
    text.resize((limit + draws.below(3)).saturating_sub(1), fill);
    text
}

/// The schedule with one to three changes.
fn spoilt(draws: &mut Draws, source: &[u8]) -> Vec<u8> {
    let mut lines: Vec<Vec<u8>> = source.split(|it| *it == b'\n').map(|it| it.to_vec()).collect();
    lines.pop();
    for _ in 0..=draws.below(3) {
        if lines.is_empty() {
            break;
        }
        let at = draws.below(lines.len());
        match draws.below(40) {
            0..=9 => lines[at] = change_word(draws, &lines[at].clone()),
            10..=19 => lines[at] = change_number(draws, &lines[at].clone()),
            20..=25 => lines[at] = change_bytes(draws, &lines[at].clone()),
            26..=28 => {
                lines.remove(at);
            }
            29..=31 => {
                let copy = lines[at].clone();
                lines.insert(draws.below(lines.len()), copy);
            }
            32..=34 => {
                let other = draws.below(lines.len());
                lines.swap(at, other);
            }
            35 => lines[at] = long_line(draws, &lines[at].clone(), at == 0),
            36 => lines.insert(at, Vec::new()),
            37 => lines.insert(at, b"#\x00 any bytes".to_vec()),
            38 => lines.truncate(at),
            _ => lines[0] = change_number(draws, &lines[0].clone()),
        }
    }
    let mut text = lines.join(&b'\n');
    if draws.below(8) > 0 {
        text.push(b'\n');
    } else if draws.below(2) == 0 {
        text.truncate(draws.below(text.len() + 1));
    }
    text
}

/// A schedule of `generate` or of the explorer, whose steps are few.
fn schedule(draws: &mut Draws, seed: u64) -> (Vec<u8>, bool) {
    if draws.below(8) == 0 {
        let mut text = Vec::new();
        gen::generate(seed, 1 + draws.below(6) as u64, 1 + draws.below(12) as u64, &mut |line| {
            text.extend_from_slice(line.as_bytes());
            text.push(b'\n');
        });
        return (text, true);
    }
    let steps = [10, 25, 60, 150][draws.below(4)];
    (explore::explored(seed, steps).into_bytes(), false)
}

fn plain(word: &str, source: &[u8]) -> (i32, Vec<u8>) {
    let mut written = Vec::new();
    let code = top::fabric_main(&[word], &mut || source.to_vec(), &mut written);
    (code as i32, written)
}

/// Ours, as a process whose standard input is this file.
fn ours(program: &str, word: &str, path: &str, source: &[u8]) -> (i32, Vec<u8>) {
    File::create(path).and_then(|mut it| it.write_all(source)).expect("the schedule is written");
    let given = File::open(path).expect("the schedule is there");
    let done = Command::new(program).arg(word).stdin(given).stderr(Stdio::null()).output().expect("it runs");
    (done.status.code().unwrap_or(-1), done.stdout)
}

struct Counts {
    schedules: u64,
    generated: u64,
    spoilt: u64,
    refused: u64,
    differences: u64,
    bytes: u64,
}

/// The words with which a schedule is read: mostly `replay`; `audit` reads a trace.
fn word_of(draws: &mut Draws) -> &'static str {
    match draws.below(20) {
        0..=1 => "trace",
        2..=3 => "writes",
        4..=5 => "audit",
        _ => "replay",
    }
}

fn compare(counts: &mut Counts, program: &str, folder: &str, seed: u64) {
    let mut draws = Draws(seed);
    let (good, is_generated) = schedule(&mut draws, seed);
    let word = word_of(&mut draws);
    let mut source = if word == "audit" { plain("trace", &good).1 } else { good };
    let is_spoilt = draws.below(2) == 0;
    if is_spoilt {
        source = spoilt(&mut draws, &source);
    }
    let wanted = plain(word, &source);
    let given = ours(program, word, &format!("{folder}/schedule"), &source);
    counts.schedules += 1;
    counts.generated += u64::from(is_generated);
    counts.spoilt += u64::from(is_spoilt);
    counts.refused += u64::from(wanted.0 != 0);
    counts.bytes += source.len() as u64;
    if given != wanted {
        counts.differences += 1;
        let kept = format!("{folder}/{word}-{seed}");
        let _ = std::fs::write(&kept, &source);
        println!("difference: {kept}: ours ends with {}, plain with {}", given.0, wanted.0);
    }
}

fn main() {
    let words: Vec<String> = std::env::args().skip(1).collect();
    let (program, folder) = (&words[0], &words[1]);
    let (first, count): (u64, u64) = (words[2].parse().unwrap(), words[3].parse().unwrap());
    let most = Duration::from_secs(words[4].parse().unwrap());
    let began = Instant::now();
    let mut counts = Counts { schedules: 0, generated: 0, spoilt: 0, refused: 0, differences: 0, bytes: 0 };
    for seed in first..first + count {
        if began.elapsed() >= most {
            break;
        }
        compare(&mut counts, program, folder, seed);
    }
    println!(
        "counts {} {} {} {} {} {}",
        counts.schedules, counts.generated, counts.spoilt, counts.refused, counts.differences, counts.bytes
    );
    if counts.differences > 0 {
        std::process::exit(1);
    }
}
