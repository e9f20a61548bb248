// Throws random and mutated lines at `rehearse`, and checks that every line is answered and that it ends well.
//   fuzz PROGRAM LINES SEED
// The lines are played in games of two thousand, each by a process of its own. Each line that is sent has just one answer: lines that have none,
// or more than one, are not sent.
use std::collections::BTreeMap;
use std::io::{BufRead, BufReader, BufWriter, Write};
use std::process::{Child, Command, Stdio, exit};
use std::time::Instant;

const GAME: u64 = 2_000;
const LONGEST: usize = 4096;

// xorshift64*
struct Random(u64);

impl Random {
    fn next(&mut self) -> u64 {
        self.0 ^= self.0 >> 12;
        self.0 ^= self.0 << 25;
        self.0 ^= self.0 >> 27;
        self.0.wrapping_mul(0x2545_F491_4F6C_DD1D)
    }

    fn below(&mut self, n: u64) -> u64 {
        (self.next() >> 11) % n
    }

    fn one_in(&mut self, n: u64) -> bool {
        self.below(n) == 0
    }
}

// ---- messages

// A number that is mostly small, at times one at an end of its width.
fn number(r: &mut Random, width: u32) -> u64 {
    match r.below(12) {
        0 => (1u64 << width) - 1,
        1 => r.next() & ((1u64 << width) - 1),
        2 => 0,
        _ => 1 + r.below(5),
    }
}

fn put(out: &mut Vec<u8>, value: u64, bytes: usize) {
    out.extend_from_slice(&value.to_be_bytes()[8 - bytes..]);
}

fn train(r: &mut Random) -> u64 {
    if r.one_in(20) { number(r, 32) } else { 1 + r.below(3) }
}

// A stretch that is mostly one of the trains'.
fn stretch(r: &mut Random) -> (u64, u64) {
    if r.one_in(6) {
        return (number(r, 8), number(r, 8));
    }
    let from = r.below(4);
    (from, from + 1 + r.below(4 - from))
}

fn people(r: &mut Random) -> u64 {
    if r.one_in(10) { number(r, 8) } else { 1 + r.below(3) }
}

fn message(r: &mut Random) -> Vec<u8> {
    let kind = 1 + r.below(5);
    let (from, to) = stretch(r);
    let fields = match kind {
        1 => vec![(number(r, 32), 4), (train(r), 4), (number(r, 16) % 5, 2), (from, 1), (to, 1)],
        2 => vec![(number(r, 32), 4)],
        3 => vec![(train(r), 4), (from, 1), (to, 1), (people(r), 1), (number(r, 32), 4)],
        4 => vec![(number(r, 32), 4), (people(r), 1)],
        _ => vec![(train(r), 4), (number(r, 16), 2), (number(r, 16), 2)],
    };
    let mut out = vec![kind as u8];
    for (value, bytes) in fields {
        put(&mut out, value, bytes);
    }
    out
}

fn mutate(r: &mut Random, bytes: &mut Vec<u8>) {
    for _ in 0..1 + r.below(3) {
        let at = r.below(bytes.len() as u64 + 1) as usize;
        match r.below(6) {
            0 => bytes.truncate(at),
            1 => bytes.insert(at, r.next() as u8),
            2 if at < bytes.len() => bytes[at] ^= 1 << r.below(8),
            3 if at < bytes.len() => bytes[at] = r.next() as u8,
            4 if at < bytes.len() => {
                bytes.remove(at);
            }
            _ => {
                let copy = bytes[at..].to_vec();
                bytes.extend_from_slice(&copy);
            }
        }
    }
}

fn random_bytes(r: &mut Random) -> Vec<u8> {
    let length = if r.one_in(50) { r.below(1900) } else { r.below(24) };
    (0..length).map(|_| r.next() as u8).collect()
}

fn hex(r: &mut Random, bytes: &[u8]) -> String {
    let great = r.one_in(8);
    bytes
        .iter()
        .map(|b| if great { format!("{b:02X}") } else { format!("{b:02x}") })
        .collect()
}

// ---- lines

fn made_up(r: &mut Random) -> String {
    let bytes = match r.below(10) {
        0 => random_bytes(r),
        1..=3 => {
            let mut bytes = message(r);
            mutate(r, &mut bytes);
            bytes
        }
        _ => message(r),
    };
    let from = if r.one_in(20) { number(r, 32) } else { r.below(5) };
    format!("{} < {} {}", r.below(4), from, hex(r, &bytes))
}

fn wish(r: &mut Random) -> String {
    let (from, to) = stretch(r);
    format!("{} {from} {to} {}", train(r), people(r))
}

fn command(r: &mut Random) -> String {
    let who = r.below(5);
    match r.below(40) {
        0..=11 => format!("{who} sell {}", wish(r)),
        12..=17 => format!("{who} undo {}", number(r, 32)),
        18..=23 => format!("{who} give {} {}", r.below(5), wish(r)),
        24..=29 => format!("{who} ask {}", wish(r)),
        30..=33 => format!("{who} open {} 4 5 {}", train(r), r.below(4)),
        34 if r.one_in(20) => format!("{who} close {}", train(r)),
        35 => format!("{who} lost {}", r.below(6)),
        36 if r.one_in(4) => format!("{who} tick"),
        37 => format!("cut {who}"),
        _ => "pass".to_string(),
    }
}

fn line(r: &mut Random) -> Vec<u8> {
    let mut line = match r.below(20) {
        0..=9 => made_up(r),
        10..=16 => command(r),
        17..=18 => "pass".to_string(),
        _ => ["lose", "twice", "late", "pass"][r.below(4) as usize].to_string(),
    }
    .into_bytes();
    if r.one_in(12) {
        mutate(r, &mut line);
    }
    if r.one_in(2000) {
        let longer = LONGEST + 1 + r.below(3000) as usize;
        line.resize(longer, b'7');
    }
    line.retain(|b| *b != b'\n');
    line
}

// Whether a line has just one answer: it is no blank one and no note, and none of the lines about several messages, a cut to come, and the map.
fn has_one_answer(line: &[u8]) -> bool {
    let line = line.trim_ascii();
    let mut words = line.split(|b| b.is_ascii_whitespace()).filter(|word| !word.is_empty());
    let first = words.next().unwrap_or_default();
    let several = match first {
        b"pass" | b"cut" => words.count() > if first == b"cut" { 1 } else { 0 },
        b"where" => true,
        _ => false,
    };
    !line.is_empty() && !line.starts_with(b"#") && !several
}

// ---- answers

// The kind of answer that a line of the output is, or none: what is said, what comes and the map are no answers.
fn kind_of(line: &str) -> Option<String> {
    let words: Vec<&str> = line.split(' ').collect();
    match words[..] {
        [_, "out" | "<", _, _] => None,
        [_, seat, ..] if seat.ends_with(':') => None,
        ["no", number] => Some(format!("no {number} (no command)")),
        [word] => Some(word.to_string()),
        [_, "no" | "passed", number] => Some(format!("{} {number}", words[1])),
        [_, word, ..] => Some(word.to_string()),
        [] => None,
    }
}

fn read_answers(child: &mut Child) -> BTreeMap<String, u64> {
    let mut kinds = BTreeMap::new();
    let out = child.stdout.take().expect("its output");
    for line in BufReader::new(out).lines() {
        let line = line.expect("a line of text");
        if let Some(kind) = kind_of(&line) {
            *kinds.entry(kind).or_insert(0) += 1;
        }
    }
    kinds
}

// Plays one game of so many lines, and gives its answers; none where it did not end well or a line was not answered.
fn play(program: &str, lines: u64, seed: u64) -> Option<BTreeMap<String, u64>> {
    let mut child = Command::new(program)
        .stdin(Stdio::piped())
        .stdout(Stdio::piped())
        .spawn()
        .expect("the program");
    let input = child.stdin.take().expect("its input");
    let writer = std::thread::spawn(move || {
        let mut r = Random(seed.wrapping_mul(0x9E37_79B9_7F4A_7C15) | 1);
        let mut input = BufWriter::new(input);
        let mut sent = 0;
        let begun = input.write_all(b"stations 4\n0 open 1 4 5 0\n1 open 2 4 5 1\n");
        let mut going = begun.is_ok();
        while going && sent < lines {
            let mut text = line(&mut r);
            if has_one_answer(&text) {
                text.push(b'\n');
                going = input.write_all(&text).is_ok();
                sent += 1;
            }
        }
        going && input.flush().is_ok()
    });
    let answers = read_answers(&mut child);
    let all_sent = writer.join().expect("the writer");
    let ended = child.wait().expect("its end").success();
    // the two openings are answered too
    let count: u64 = answers.values().sum();
    if all_sent && ended && count == lines + 2 {
        return Some(answers);
    }
    println!("seed {seed}: sent all {all_sent}, ended well {ended}, {count} answers to {} lines", lines + 2);
    None
}

fn main() {
    let args: Vec<String> = std::env::args().collect();
    let [_, program, lines, seed] = &args[..] else {
        eprintln!("fuzz PROGRAM LINES SEED");
        exit(2);
    };
    let lines: u64 = lines.parse().expect("how many lines");
    let seed: u64 = seed.parse().expect("a seed");
    let begun = Instant::now();
    let mut all: BTreeMap<String, u64> = BTreeMap::new();
    for game in 0..lines.div_ceil(GAME) {
        let Some(answers) = play(program, GAME.min(lines - game * GAME), seed + game) else {
            exit(1);
        };
        for (kind, count) in answers {
            *all.entry(kind).or_insert(0) += count;
        }
    }
    for (kind, count) in &all {
        println!("{count:>12} {kind}");
    }
    println!("{lines} lines, every one answered, in {:.0} s", begun.elapsed().as_secs_f64());
}
