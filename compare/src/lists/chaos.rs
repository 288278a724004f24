//! Lines of any sort: calls with boundary numbers, malformed lines, long lines, bytes that are no text.

use super::List;
use crate::random::Random;

const NUMBERS: [&str; 30] = [
    "0",
    "1",
    "2",
    "3",
    "7",
    "8",
    "9",
    "15",
    "16",
    "00",
    "007",
    "16384",
    "16385",
    "2048",
    "2049",
    "65535",
    "65536",
    "2147483648",
    "4294967295",
    "4294967296",
    "17592186044416",
    "281474976710655",
    "281474976710656",
    "281474976710657",
    "18446744073709551615",
    "18446744073709551616",
    "99999999999999999999",
    "00000000000000000001",
    "000000000000000000001",
    "100000000000000000000",
];

/// What stands where a number should.
const WRONG: [&str; 16] = [
    "", "-", "--", "-1", "+1", " 1", "1 ", "1\r", "1\t", "0x1", "1.0", "1e3", "a", "\0", "1\0",
    "\u{b2}",
];

/// The words with the number of their fields.
const WORDS: [(&str, usize); 13] = [
    ("open", 1),
    ("take", 9),
    ("plan", 5),
    ("retire", 3),
    ("write", 7),
    ("regen", 1),
    ("pop", 1),
    ("park", 2),
    ("note", 1),
    ("doomed", 0),
    ("drain", 0),
    ("trim", 1),
    ("forget", 1),
];

pub fn fill(list: &mut List) {
    let before = list.random.within(0, 40);
    for _ in 0..before {
        let line = line(&mut list.random);
        list.say(&line);
    }
    let working_set = list.random.one_of(&[0, 7, 8_000, 800_000, u64::MAX]);
    list.say(format!("open,{working_set}").as_bytes());
    while !list.is_full() {
        let line = line(&mut list.random);
        list.say(&line);
    }
}

fn line(random: &mut Random) -> Vec<u8> {
    let mut line = match random.below(20) {
        0..=8 => tame(random).into_bytes(),
        9..=15 => bold(random).into_bytes(),
        16 => other_words(random).into_bytes(),
        17 => noise(random),
        18 => Vec::new(),
        _ if random.once_in(100) => long(random),
        _ => bold(random).into_bytes(),
    };
    if random.once_in(8) {
        spoil(random, &mut line);
    }
    line.retain(|byte| *byte != b'\n');
    line
}

/// A call with numbers that mostly fit a small pool.
fn tame(random: &mut Random) -> String {
    let id = random.below(10);
    let seq = random.below(40);
    match random.below(20) {
        0..=4 => {
            let (format, width) = (random.below(9), random.one_of(&[1, 16, 33, 64, 600]));
            let (levels, kind) = (random.within(1, 3), random.one_of(&[0, 0, 0, 1, 2]));
            let records = random.below(2);
            format!("take,{id},{format},{width},64,2,{levels},{kind},{records},{seq}")
        }
        5..=7 => {
            let held = random.below(12);
            let held = if held > 9 {
                "-".to_string()
            } else {
                held.to_string()
            };
            let (slice, level) = (random.below(3), random.below(3));
            format!("plan,{id},{held},{slice},{level},{}", random.below(2))
        }
        8..=10 => format!("retire,{id},{},{}", random.next(), seq.max(20)),
        11..=13 => {
            let (level, x, y) = (random.below(2), random.below(70), random.below(70));
            let (width, height) = (random.coordinate(64), random.coordinate(64));
            format!("write,{id},0,{level},{x},{y},{width},{height}")
        }
        14 => format!("regen,{id}"),
        15 | 16 => format!("pop,{}", seq + 20),
        17 | 18 => format!("park,{},{seq}", random.one_of(&[0, 0, 10, 30])),
        _ => ["doomed", "drain", "trim,30", "note,9000", "forget,3"][random.below(5) as usize]
            .to_string(),
    }
}

/// A word with mostly as many fields as it has, any number in each.
fn bold(random: &mut Random) -> String {
    let (word, fields) = WORDS[random.below(13) as usize];
    let mut line = word.to_string();
    let count = match random.below(14) {
        0 => fields + 1,
        1 => fields.saturating_sub(1),
        _ => fields,
    };
    for _ in 0..count {
        line.push(',');
        line.push_str(&field(random));
    }
    match random.below(40) {
        0 => line.push(','),
        1 => line.push('\r'),
        2 => line.push(' '),
        3 => line.insert(0, ' '),
        _ => {}
    }
    line
}

fn field(random: &mut Random) -> String {
    match random.below(30) {
        0 => WRONG[random.below(16) as usize].to_string(),
        1..=11 => NUMBERS[random.below(30) as usize].to_string(),
        12 => format!(
            "{:0width$}",
            random.below(9),
            width = random.within(1, 22) as usize
        ),
        13 => random.next().to_string(),
        14 | 15 => random.below(70).to_string(),
        _ => random.below(3).to_string(),
    }
}

/// Words that only begin as a call does, or end so.
fn other_words(random: &mut Random) -> String {
    let (word, fields) = WORDS[random.below(13) as usize];
    let word = match random.below(6) {
        0 => format!("{word}s"),
        1 => word[..word.len() - 1].to_string(),
        2 => word.to_uppercase(),
        3 => format!("{word} "),
        4 => word[1..].to_string(),
        _ => format!("{word}{word}"),
    };
    word + &",1".repeat(fields)
}

/// Any bytes.
fn noise(random: &mut Random) -> Vec<u8> {
    let count = random.below(40);
    (0..count).map(|_| random.next() as u8).collect()
}

/// Up to some 200 KB: a number of very many digits, very many fields, or any bytes.
fn long(random: &mut Random) -> Vec<u8> {
    let count = random.one_of(&[300, 4_095, 4_096, 4_097, 8_192, 65_536, 200_000]) as usize;
    match random.below(5) {
        0 => [b"open,", vec![b'0'; count].as_slice(), b"1"].concat(),
        1 => [b"pop", b",1".repeat(count / 2).as_slice()].concat(),
        2 => b"trim,7".repeat(count / 6),
        3 => [vec![b' '; count].as_slice(), b"drain"].concat(),
        _ => [b"drain", vec![0xc3; count].as_slice()].concat(),
    }
}

/// Changes, doubles or takes out one byte.
fn spoil(random: &mut Random, line: &mut Vec<u8>) {
    if line.is_empty() {
        return;
    }
    let at = random.below(line.len() as u64) as usize;
    match random.below(4) {
        0 => line[at] = random.next() as u8,
        1 => line.insert(at, line[at]),
        2 => line.insert(at, b','),
        _ => {
            line.remove(at);
        }
    }
}
