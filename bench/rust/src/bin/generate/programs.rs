//! Random programs in both languages.

use crate::random::Random;

/// What a program mostly does.
#[derive(Clone, Copy, PartialEq, Eq)]
pub enum Taste {
    Any,
    Buffering,
    Writes,
    Prints,
    Updates,
    Fences,
}

pub fn taste(random: &mut Random) -> Taste {
    match random.below(10) {
        0..=2 => Taste::Any,
        3..=6 => Taste::Buffering,
        7 => Taste::Fences,
        _ => random.pick(&[Taste::Writes, Taste::Prints, Taste::Updates]),
    }
}

fn value(random: &mut Random) -> usize {
    match random.below(20) {
        0 => 65_535,
        1 => random.below(65_536),
        2 => 9,
        3..=10 => 1,
        11..=14 => 0,
        _ => random.below(4),
    }
}

/// A read mode and a write mode.
fn modes(random: &mut Random, taste: Taste) -> (usize, usize) {
    let (acquire, release) = if taste == Taste::Fences { (40, 35) } else { (30, 20) };
    (usize::from(random.chance(acquire)), usize::from(random.chance(release)))
}

/// Outside of programs about fences mostly the one that may be taken while something is owed.
fn fence(random: &mut Random, taste: Taste) -> usize {
    if taste == Taste::Fences || random.chance(50) {
        random.below(4)
    } else {
        0
    }
}

fn letter(random: &mut Random, taste: Taste, any: &str) -> u8 {
    let letters = match taste {
        Taste::Any => any,
        Taste::Buffering => "LLLLSSSSSCFAU",
        Taste::Writes => "SSSSSSSSSSCL",
        Taste::Prints => "PPPPPPPPCSL",
        Taste::Updates => "UUUUUUKKKKCSLF",
        Taste::Fences => "LLLLSSSSFFFUC",
    };
    random.pick(letters.as_bytes())
}

pub fn register_program(random: &mut Random, locations: usize, taste: Taste) -> String {
    let count = match random.below(8) {
        0 => random.within(0, 2),
        1 => 64,
        2 => random.within(20, 64),
        _ => random.within(3, 14),
    };
    let mut text = String::new();
    let loops = random.chance(if taste == Taste::Fences { 25 } else { 60 });
    for line in 0..count {
        if line == 0 && loops {
            text += "C 7 1\n";
        } else if line + 1 == count && loops {
            text += &format!("B 7 {}\n", random.within(0, line));
        } else {
            text += &register_line(random, locations, taste, count, loops);
        }
    }
    text
}

/// In a program that loops, register 7 stays as it is.
fn register_line(
    random: &mut Random,
    locations: usize,
    taste: Taste,
    count: usize,
    loops: bool,
) -> String {
    let letter = letter(random, taste, "CCAQBLLLSSSUKFPP");
    let x = random.below(locations);
    let few = if loops { 7 } else { 8 };
    let r = if random.chance(80) { random.below(3) } else { random.below(few) };
    let s = if random.chance(80) { random.below(3) } else { random.below(8) };
    let u = random.below(4);
    let fence = fence(random, taste);
    let (read, write) = modes(random, taste);
    match letter {
        b'C' => format!("C {r} {}\n", value(random)),
        b'A' => format!("A {r} {s} {u}\n"),
        b'Q' => format!("Q {r} {s} {u}\n"),
        b'B' => format!("B {s} {}\n", random.below((count + 2).min(65))),
        b'L' => format!("L {r} {x} {read}\n"),
        b'S' => format!("S {x} {s} {write}\n"),
        b'U' => format!("U {r} {x} {s} {read} {write}\n"),
        b'K' => format!("K {r} {x} {s} {u} {read} {write}\n"),
        b'F' => format!("F {fence}\n"),
        _ => format!("P {s}\n"),
    }
}

pub fn strip_program(random: &mut Random, locations: usize, taste: Taste) -> String {
    let count = match random.below(8) {
        0 => random.within(0, 2),
        1 => 64,
        2 => random.within(20, 64),
        _ => random.within(3, 14),
    };
    let mut text = String::new();
    for _ in 0..count {
        let letter = letter(random, taste, "LLLSSSUUFPP");
        let x = random.below(locations);
        let v = value(random);
        let wanted = if random.chance(75) { 0 } else { v };
        let fence = fence(random, taste);
        let (read, write) = modes(random, taste);
        text += &match letter {
            b'L' => format!("R {x} {wanted} {read}\n"),
            b'S' | b'C' | b'A' => format!("S {x} {v} {write}\n"),
            b'U' | b'K' => format!("U {x} {v} {read} {write}\n"),
            b'F' => format!("F {fence}\n"),
            _ => format!("P {v}\n"),
        };
    }
    text
}
