//! Random sheets, good and damaged, random layers and random scripts of calls.

use crate::plain::{triples, open, Sheet};

/// A small generator of random numbers (xorshift), so that a run can be repeated by its seed.
pub struct Random(u64);

impl Random {
    pub fn new(seed: u64) -> Random {
        let mut random = Random(seed.wrapping_mul(0x9E37_79B9_7F4A_7C15) | 1);
        for _ in 0..8 {
            random.next();
        }
        random
    }

    fn next(&mut self) -> u64 {
        self.0 ^= self.0 << 13;
        self.0 ^= self.0 >> 7;
        self.0 ^= self.0 << 17;
        self.0
    }

    pub fn below(&mut self, limit: usize) -> usize {
        (self.next() >> 11) as usize % limit
    }

    pub fn one_in(&mut self, chance: usize) -> bool {
        self.below(chance) == 0
    }

    fn pick<'a, T>(&mut self, from: &'a [T]) -> &'a T {
        &from[self.below(from.len())]
    }
}

/// Small counts often, greatest ones now and then.
fn count(random: &mut Random, greatest: usize) -> usize {
    match random.below(40) {
        0 => greatest,
        1..=4 => random.below(greatest + 1),
        _ => random.below(greatest.min(12) + 1),
    }
}

fn places(random: &mut Random) -> Vec<(i64, i64)> {
    let n = count(random, 128);
    let reach = *random.pick(&[3, 8, 40, 1_000, 10_000, 10_000, 10_000]);
    let coordinate = |random: &mut Random| random.below(2 * reach + 1) as i64 - reach as i64;
    (0..n).map(|_| (coordinate(random), coordinate(random))).collect()
}

/// Places of which many lie on one line: in rows, in columns, on a lattice, or nearly all of them on one line; now and then anywhere. Now and
/// then two are alike.
fn flat_places(random: &mut Random) -> Vec<(i64, i64)> {
    let form = random.below(5);
    if form == 4 {
        return places(random);
    }
    let n = count(random, 128);
    let few = 1 + random.below(4) as i64;
    let step = *random.pick(&[1, 1, 7, 60]);
    let line = (random.below(7) as i64 - 3, random.below(7) as i64 - 3);
    let from = (random.below(9) as i64 - 4, random.below(9) as i64 - 4);
    let along = |random: &mut Random| random.below(2 * n + 1) as i64 - n as i64;
    let twins = random.one_in(10);
    let mut all = Vec::new();
    for _ in 0..n {
        let (x, y) = match form {
            0 => (along(random), random.below(few as usize) as i64),
            1 => (random.below(few as usize) as i64, along(random)),
            2 => (random.below(12) as i64, random.below(12) as i64),
            _ if random.one_in(8) => (along(random), along(random)),
            _ => {
                let t = along(random);
                (from.0 + t * line.0, from.1 + t * line.1)
            }
        };
        let place = ((x * step).clamp(-10_000, 10_000), (y * step).clamp(-10_000, 10_000));
        if twins || !all.contains(&place) {
            all.push(place);
        }
    }
    all
}

/// So many places in general position, all over the range.
pub fn scattered(n: usize) -> Vec<(i64, i64)> {
    for seed in 1.. {
        let mut random = Random::new(seed);
        let mut coordinate = || random.below(20_001) as i64 - 10_000;
        let places: Vec<(i64, i64)> = (0..n).map(|_| (coordinate(), coordinate())).collect();
        if open(&Sheet::Places(places.clone())).is_ok() {
            return places;
        }
    }
    unreachable!()
}

fn crossings(random: &mut Random) -> (usize, Vec<usize>) {
    let n = count(random, 32);
    let mut wires: Vec<usize> = (0..n).collect();
    let mut all = Vec::new();
    loop {
        let legal: Vec<usize> = (1..n).map(|k| k - 1).filter(|&k| wires[k] < wires[k + 1]).collect();
        if legal.is_empty() {
            break;
        }
        let k = *random.pick(&legal);
        wires.swap(k, k + 1);
        all.push(k);
    }
    if random.one_in(4) && !all.is_empty() {
        let entry = random.below(all.len());
        all[entry] = random.below(n - 1);
    }
    (n, all)
}

fn turns(random: &mut Random) -> (usize, Vec<bool>) {
    // those of places, of places on lines, or of a network, or any
    let from = loop {
        let sheet = match random.below(4) {
            0 => Sheet::Places(places(random)),
            1 => Sheet::FlatPlaces(flat_places(random)),
            2 => {
                let (n, crossings) = crossings(random);
                Sheet::Crossings(n, crossings)
            }
            _ => {
                let n = random.below(7);
                let turns = triples(n).iter().map(|_| random.one_in(2)).collect();
                return (n, turns);
            }
        };
        match open(&sheet) {
            Ok(system) if system.count <= 24 => break system,
            _ => {}
        }
    };
    let mut turns: Vec<bool> = triples(from.count).iter().map(|t| from.left(t[0], t[1], t[2])).collect();
    if random.one_in(3) && !turns.is_empty() {
        let entry = random.below(turns.len());
        turns[entry] = !turns[entry];
    }
    (from.count, turns)
}

/// The text of a sheet.
pub fn written(sheet: &Sheet) -> Vec<u8> {
    let mut text = String::new();
    match sheet {
        Sheet::Places(places) | Sheet::FlatPlaces(places) => {
            let letter = if matches!(sheet, Sheet::Places(_)) { "P" } else { "F" };
            text += &format!("{letter}\t{}\n", places.len());
            for (x, y) in places {
                text += &format!("m\t{x}\t{y}\n");
            }
        }
        Sheet::Crossings(n, crossings) => {
            text += &format!("W\t{n}\n");
            for k in crossings {
                text += &format!("c\t{k}\n");
            }
        }
        Sheet::Turns(n, turns) => {
            text += &format!("T\t{n}\n");
            for ([i, j, k], left) in triples(*n).into_iter().zip(turns) {
                text += &format!("t\t{i}\t{j}\t{k}\t{}\n", if *left { "L" } else { "R" });
            }
        }
    }
    text.into_bytes()
}

/// A sheet that keeps its form.
pub fn sheet(random: &mut Random) -> Vec<u8> {
    written(&match random.below(4) {
        0 => Sheet::Places(places(random)),
        1 => Sheet::FlatPlaces(flat_places(random)),
        2 => {
            let (n, crossings) = crossings(random);
            Sheet::Crossings(n, crossings)
        }
        _ => {
            let (n, turns) = turns(random);
            Sheet::Turns(n, turns)
        }
    })
}

/// A sheet of places; now and then another, or a damaged one.
pub fn sheet_for_a_star(random: &mut Random) -> Vec<u8> {
    match random.below(20) {
        0 => sheet(random),
        1 => damaged(random),
        _ => written(&Sheet::Places(places(random))),
    }
}

/// A table of which one turn line ends in another field: an empty one, a longer one, another letter, or now and then a good one.
fn with_other_turn_field(random: &mut Random) -> Vec<u8> {
    let (n, turns) = turns(random);
    let mut lines: Vec<Vec<u8>> = written(&Sheet::Turns(n, turns)).split_inclusive(|&b| b == 10).map(<[u8]>::to_vec).collect();
    if lines.len() > 1 {
        let line = 1 + random.below(lines.len() - 1);
        let field = *random.pick(&["", "L", "R", "LR", "RL", "LL", "RR", "l", "r", "lr", "L ", " R", "L\r", "R\t", "L\tR", "\tL", "0", "left"]);
        let kept = lines[line].len() - 2;
        lines[line].truncate(kept);
        lines[line].extend(field.bytes().chain([10]));
    }
    lines.concat()
}

/// A sheet with some bytes changed, left out or put in, cut off, or with a line doubled or left out. Now and then it is still a sheet.
pub fn damaged(random: &mut Random) -> Vec<u8> {
    if random.one_in(8) {
        return with_other_turn_field(random);
    }
    let mut text = sheet(random);
    if random.one_in(200) {
        text.resize(*random.pick(&[32_768, 32_769, 40_000]), b'm');
    }
    for _ in 0..1 + random.below(3) {
        let byte = *random.pick(b"0123456789-\t\n\rPFWTmctLR l+\x00\xff");
        let at = random.below(text.len() + 1);
        match random.below(5) {
            0 => text.insert(at, byte),
            1 if at < text.len() => text[at] = byte,
            2 if at < text.len() => {
                text.remove(at);
            }
            3 => text.truncate(at),
            _ => {
                // a line once more, or a line less
                let mut lines: Vec<Vec<u8>> = text.split_inclusive(|&b| b == 10).map(<[u8]>::to_vec).collect();
                if !lines.is_empty() {
                    let line = random.below(lines.len());
                    if random.one_in(2) {
                        lines.insert(line, lines[line].clone());
                    } else {
                        lines.remove(line);
                    }
                }
                text = lines.concat();
            }
        }
    }
    text
}

/// The words of at most two layers, for a system of so many marks, and the count of the whole pile. Now and then there is a word more,
/// which names nothing.
pub fn words(random: &mut Random, mut count: usize) -> (String, usize) {
    let mut all = Vec::new();
    for _ in 0..random.below(3) {
        if random.one_in(2) {
            all.push("mirror".to_string());
            continue;
        }
        let mut names: Vec<usize> = (0..count).collect();
        for last in (1..names.len()).rev() {
            names.swap(last, random.below(last + 1));
        }
        names.truncate(if random.one_in(2) { count } else { random.below(count + 1) });
        if random.one_in(12) && !names.is_empty() {
            let entry = random.below(names.len());
            names[entry] = random.below(count + 3);
        }
        if random.one_in(100) {
            names.resize(129, 0);
        }
        count = names.len().min(128);
        let words: Vec<String> = names.iter().map(usize::to_string).collect();
        all.push(format!("rename:{}", words.join(",")));
    }
    if random.one_in(20) {
        let wrong = ["", "Mirror", "mirror:", "rename", "rename:,", "rename:1,", "rename:01", "rename:1;0", "rename:18446744073709551616", "star:", "star:00", "star:0", "star:0,1", "star 0"];
        let at = random.below(all.len() + 1);
        all.insert(at, random.pick(&wrong).to_string());
    }
    (all.join(" "), count)
}

/// Calls as pairs of bytes, a letter and a number, over so many marks; some letters are those of no call.
pub fn calls(random: &mut Random, count: usize, many: usize) -> Vec<u8> {
    let mut calls = Vec::new();
    for _ in 0..many {
        calls.push(*random.pick(b"aaaaadddpppnnorx\x00\xff"));
        let beyond = random.one_in(8);
        calls.push(if beyond { random.below(256) } else { random.below(count.max(1)) } as u8);
        // a list is long enough more often than not
        if matches!(calls[calls.len() - 2], b'o' | b'r') && random.one_in(2) {
            *calls.last_mut().unwrap() = 128;
        }
    }
    if random.one_in(5) {
        calls.pop();
    }
    calls
}

/// A script of calls over so many marks, with refused calls and lines that are no call.
pub fn script(random: &mut Random, count: usize, calls: usize) -> String {
    let mut text = String::new();
    let adds = 2 + random.below(6);
    for _ in 0..calls {
        let strangers = if random.one_in(8) { 2 } else { usize::from(count == 0) };
        let mark = random.below(count + strangers);
        let room = if random.one_in(3) { random.below(count + 2) } else { 128 + random.below(2) };
        text += &match random.below(adds + 9) {
            0 => format!("drop {mark}\n"),
            1 => format!("drop {mark}\n"),
            2 => format!("place {mark}\n"),
            3 => format!("place {mark}\n"),
            4 => format!("neighbours {mark}\n"),
            5 => format!("outline {room}\n"),
            6 => format!("rounds {room}\n"),
            7 => "census\n".to_string(),
            8 if random.one_in(4) => {
                let wrong = ["", "add", "add 07", "add  1", "Add 1", "drop 18446744073709551616", "add 18446744073709551615", "census 1", "rounds 340282366920938463463374607431768211456", "neighbours +1", "place 1 ", "outline -1", "add 1\r", "add\t1", "census "];
                format!("{}\n", random.pick(&wrong))
            }
            _ => format!("add {mark}\n"),
        };
    }
    if random.one_in(5) {
        text.pop();
    }
    text
}
