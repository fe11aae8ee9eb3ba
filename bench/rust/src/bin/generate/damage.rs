//! Jobs that are wrong in their text: lines, numbers, offsets, bytes.

use crate::random::Random;
use crate::text::Job;

const NUMBERS: [&str; 26] = [
    "65536",
    "65535",
    "70000",
    "99999",
    "100000",
    "4294967296",
    "4294967297",
    "65536000000",
    "18446744073709551616",
    "18446744073709551617",
    "340282366920938463463374607431768211456",
    "99999999999999999999999999999999999999999999",
    "0",
    "1",
    "2",
    "3",
    "4",
    "5",
    "8",
    "9",
    "64",
    "65",
    "00",
    "01",
    "007",
    "000000000000000000000000000000000000000000001",
];
const NO_NUMBERS: [&str; 12] =
    ["", "-1", "+1", "1.0", "0x1", "a", " 1", "1 ", "1\t", "\u{0}", "1\r", "\u{661}"];

/// A line with one thing changed. The line comes without its line feed and is given back with
/// whatever now stands in its place.
fn damaged_line(random: &mut Random, line: &str) -> String {
    let mut words: Vec<String> = line.split(' ').map(String::from).collect();
    let field = if words.len() > 1 { random.within(1, words.len() - 1) } else { 0 };
    match random.below(24) {
        20..=23 if field > 0 => {
            // Around the numbers of threads, locations, modes and registers.
            let place = if random.chance(60) { 1 } else { field };
            words[place] = random.within(1, 9).to_string();
        }
        0..=6 if field > 0 => words[field] = random.pick(&NUMBERS).into(),
        7 | 8 if field > 0 => words[field] = random.pick(&NO_NUMBERS).into(),
        9 if field > 0 => words[field] = format!("0{}", words[field]),
        10 if field > 0 => {
            words.remove(field);
        }
        11 => words.push(random.pick(&NUMBERS).into()),
        12 => words[0] = words[0].to_lowercase(),
        13 => words[0] = random.pick(&["A", "Z", "K", "Q", "JJ", "", "[", "@", "D", "J"]).into(),
        14 => return words.join("  ") + "\n",
        15 => return words.join(" ") + " \n",
        16 => return words.join(" ") + random.pick(&["\r\n", "\r", "", "\n\n", "\0\n", "\n\r"]),
        17 => return " ".to_owned() + &words.join(" ") + "\n",
        18 => return words.join(random.pick(&["\t", "", ",", "\0", " 0"])) + "\n",
        19 => words[0] = random.pick(&["R", "W", "S", "U", "N", "T", "G", "H", "X", "E"]).into(),
        _ => words.push("0".into()),
    }
    words.join(" ") + "\n"
}

/// One of the lines; each letter that stands among them is as likely as the others.
fn some_line(random: &mut Random, lines: &[String]) -> usize {
    let mut letters: Vec<char> = lines.iter().filter_map(|line| line.chars().next()).collect();
    letters.sort_unstable();
    letters.dedup();
    let letter = random.pick(&letters);
    let places: Vec<usize> =
        (0..lines.len()).filter(|&place| lines[place].starts_with(letter)).collect();
    random.pick(&places)
}

/// Damages one line of one section, now and then twice; the head fits what comes out.
pub fn damage_line(random: &mut Random, job: &mut Job) {
    let filled: Vec<usize> =
        (0..job.sections.len()).filter(|&k| !job.sections[k].is_empty()).collect();
    if filled.is_empty() {
        return;
    }
    let section = &mut job.sections[random.pick(&filled)];
    let text = String::from_utf8_lossy(section).into_owned();
    let mut lines: Vec<String> = text.split_inclusive('\n').map(String::from).collect();
    let place = some_line(random, &lines);
    let times = if random.chance(25) { 2 } else { 1 };
    for _ in 0..times {
        let bare = lines[place].trim_end_matches('\n').to_owned();
        lines[place] = damaged_line(random, &bare);
    }
    *section = lines.concat().into_bytes();
}

/// Damages one line of the head.
pub fn damage_head(random: &mut Random, job: &Job) -> Vec<u8> {
    let head = job.head(&job.right_pairs());
    let mut lines: Vec<String> = head.split_inclusive('\n').map(String::from).collect();
    let times = if random.chance(25) { 2 } else { 1 };
    for _ in 0..times {
        let place = random.below(lines.len());
        match random.below(12) {
            0 => lines[place] = String::new(),
            1 => lines[place] = lines[place].repeat(2),
            2 => {
                let other = random.below(lines.len());
                lines.swap(place, other);
            }
            _ => {
                let bare = lines[place].trim_end_matches('\n').to_owned();
                lines[place] = damaged_line(random, &bare);
            }
        }
    }
    let mut bytes = lines.concat().into_bytes();
    if random.chance(90) {
        bytes.extend(job.sections.concat());
    }
    bytes
}

/// Offsets and lengths that do not fit, or that fit but cut a line in two.
pub fn damage_pairs(random: &mut Random, job: &Job) -> Vec<u8> {
    let mut pairs = job.right_pairs();
    for _ in 0..random.within(1, 2) {
        let place = random.below(pairs.len());
        let by = random.within(1, 3);
        let (offset, length) = pairs[place];
        pairs[place] = match random.below(9) {
            0 => (offset + by, length),
            1 => (offset.saturating_sub(by), length),
            2 => (offset, length + by),
            3 => (offset, length.saturating_sub(by)),
            4 => (random.below(65_536), length),
            5 => (offset, random.below(65_536)),
            6 => (offset + by, length.saturating_sub(by)),
            _ => {
                if place + 1 < pairs.len() && length >= by {
                    let (_, next) = pairs[place + 1];
                    pairs[place + 1] = (offset + length - by, next + by);
                    (offset, length - by)
                } else {
                    (offset, 0)
                }
            }
        };
    }
    job.with_pairs(&pairs)
}

/// Bytes changed anywhere.
pub fn damage_bytes(random: &mut Random, mut bytes: Vec<u8>) -> Vec<u8> {
    for _ in 0..random.within(1, 3) {
        if bytes.is_empty() {
            break;
        }
        let place = random.below(bytes.len());
        let odd = random.pick(b"\0\r\n\t 0019:/@AZ[az\x7f\x80\xff");
        match random.below(9) {
            0 => bytes.truncate(place),
            1 => bytes[place] ^= 1 << random.below(8),
            2 => bytes[place] = odd,
            3 => bytes.insert(place, odd),
            4 => {
                bytes.remove(place);
            }
            5 => bytes.push(odd),
            6 => bytes[place] = random.below(256) as u8,
            7 => {
                let end = (place + random.within(1, 12)).min(bytes.len());
                bytes.drain(place..end);
            }
            _ => {
                let other = random.below(bytes.len());
                bytes.swap(place, other);
            }
        }
    }
    bytes
}
