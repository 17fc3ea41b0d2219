//! Compares the proved library, linked as a static library, with a plain implementation, answer by answer, and measures what calls cost
//! (docs/DIFFERENTIAL.md):
//!
//!     differential compare SHEETS HISTORIES [SEED]
//!     differential programs SHEETS HISTORIES [SEED]      the same through the programs `report` and `console`
//!     differential measure
//!     differential placing

mod cases;
mod library;
mod matched;
mod measuring;
mod placing;
mod plain;
mod programs;
mod tallies;
mod texts;

use cases::Random;
use plain::{Hull, Sheet};

/// The first difference ends the run, with its case and its seed.
fn same(what: &str, seed: u64, input: &[u8], got: &[u8], wanted: &[u8]) {
    if got != wanted {
        let text = String::from_utf8_lossy;
        println!("{what} differs at seed {seed}\n--- input\n{}\n--- the library\n{}\n--- the plain implementation\n{}", text(input), text(got), text(wanted));
        std::process::exit(1)
    }
}

/// Room for a text: mostly more than enough, now and then too little.
fn room(random: &mut Random) -> usize {
    if random.one_in(4) {
        random.below(300)
    } else {
        1 << 16
    }
}

/// Reports of sheets, good and damaged.
fn compare_sheets(sheets: u64, seed: u64, report: impl Fn(&[u8], usize) -> Vec<u8>) {
    let mut told = 0;
    for case in seed..seed + sheets {
        let mut random = Random::new(case);
        let text = if random.one_in(2) { cases::sheet(&mut random) } else { cases::damaged(&mut random) };
        let wanted = texts::report(&text);
        let got = report(&text, room(&mut random));
        same("a report", case, &text, &got, wanted.as_bytes());
        told += u64::from(wanted.starts_with("kind"));
    }
    println!("{sheets} sheets, {told} of them told and the rest refused");
}

/// How many histories there were of each system, and what came of their calls.
#[derive(Default)]
struct Histories {
    systems: [usize; 4],
    layers: [usize; 3],
    calls: usize,
    declined: usize,
}

/// Histories as scripts of the console: over points, flat points, networks and tables, under layers.
/// `given` makes of the words those that are put to both: the program is run without empty words before all others.
fn compare_histories(histories: u64, seed: u64, given: impl Fn(&str) -> &str, console: impl Fn(&[u8], &str, &[u8], usize) -> Vec<u8>) {
    let mut seen = Histories::default();
    for case in seed..seed + histories {
        let mut random = Random::new(case ^ 0xA5A5_0000_0000);
        let text = cases::sheet(&mut random);
        let sheet = plain::read(&text).expect("a sheet that keeps its form");
        let count = plain::open(&sheet).map_or(0, |system| system.count);
        let (words, count) = cases::words(&mut random, count);
        let words = given(&words);
        let script = cases::script(&mut random, count, if count > 40 { 60 } else { 200 });
        let wanted = texts::console(&text, words, &script);
        let got = console(&text, words, script.as_bytes(), room(&mut random));
        same("a history", case, &[&text[..], words.as_bytes(), b"\n", script.as_bytes()].concat(), &got, wanted.as_bytes());
        let kind = match sheet {
            Sheet::Places(_) => 0,
            Sheet::FlatPlaces(_) => 1,
            Sheet::Crossings(..) => 2,
            Sheet::Turns(..) => 3,
        };
        seen.systems[kind] += 1;
        seen.layers[(words.matches("mirror").count() + words.matches("rename").count()).min(2)] += 1;
        seen.calls += wanted.lines().count();
        seen.declined += wanted.lines().filter(|line| line.contains("\tno\t")).count();
    }
    println!("{histories} histories of {} calls, {} of them declined", seen.calls, seen.declined);
    let [points, flat_points, networks, tables] = seen.systems;
    println!("over points {points}, flat points {flat_points}, networks {networks}, tables {tables}");
    println!("under no layer {}, one {}, two {}", seen.layers[0], seen.layers[1], seen.layers[2]);
}

/// Histories as scripts over stars of places, under layers.
fn compare_stars(histories: u64, seed: u64) {
    let (mut calls, mut declined, mut told) = (0, 0, 0);
    for case in seed..seed + histories {
        let mut random = Random::new(case ^ 0x3C3C_0000_0000);
        let text = cases::sheet_for_a_star(&mut random);
        let count = match plain::read(&text) {
            Ok(Sheet::Places(places)) => places.len(),
            _ => 0,
        };
        let strangers = usize::from(random.one_in(20) || count == 0);
        let centre = random.below(count + strangers);
        let (words, count) = cases::words(&mut random, count.saturating_sub(1));
        let script = cases::script(&mut random, count, if count > 40 { 60 } else { 200 });
        let wanted = texts::star_console(&text, centre, &words, &script);
        let got = library::star_console(&text, centre, words.as_bytes(), script.as_bytes(), room(&mut random));
        let input = [&text[..], format!("star {centre}\n{words}\n{script}").as_bytes()].concat();
        same("a history over a star", case, &input, &got, wanted.as_bytes());
        told += u64::from(wanted.lines().count() > 1);
        calls += wanted.lines().count();
        declined += wanted.lines().filter(|line| line.contains("\tno\t")).count();
    }
    println!("{histories} histories over stars, {told} of them of more than one line; {calls} lines, {declined} calls declined");
}

/// Histories as pairs of bytes, by what their answers are worth.
fn compare_tallies(histories: u64, seed: u64) {
    let mut calls_made = 0;
    for case in seed..seed + histories {
        let mut random = Random::new(case ^ 0x5A5A_0000_0000);
        let text = if random.one_in(8) { cases::damaged(&mut random) } else { cases::sheet(&mut random) };
        let system = plain::read(&text).and_then(|sheet| plain::open(&sheet));
        let count = system.as_ref().map_or(3, |system| system.count);
        let calls = cases::calls(&mut random, count, if count > 40 { 60 } else { 200 });
        let times = random.below(4);
        let once = system.map_or(0, |system| tallies::tally(&mut Hull::over(system), &calls));
        let wanted = once.wrapping_mul(times as u64).to_string();
        let got = library::tally(&text, &calls, times).to_string();
        same("a tally", case, &[&text[..], &calls[..]].concat(), got.as_bytes(), wanted.as_bytes());
        calls_made += calls.len() / 2 * times;
    }
    println!("{histories} tallies of {calls_made} calls");
}

fn main() {
    let arguments: Vec<String> = std::env::args().collect();
    let number = |at: usize, otherwise: u64| arguments.get(at).map_or(otherwise, |word| word.parse().expect("a number"));
    match arguments.get(1).map(String::as_str) {
        Some("compare") => {
            let (sheets, histories, seed) = (number(2, 1_000), number(3, 1_000), number(4, 1));
            compare_sheets(sheets, seed, library::report);
            compare_histories(histories, seed, |words| words, |text, words, script, room| library::console(text, words.as_bytes(), script, room));
            compare_stars(histories, seed);
            compare_tallies(histories, seed);
        }
        Some("programs") => {
            let (sheets, histories, seed) = (number(2, 1_000), number(3, 1_000), number(4, 1));
            compare_sheets(sheets, seed, |text, _| programs::report(text));
            compare_histories(histories, seed, |words| words.trim_start_matches(' '), |text, words, script, _| programs::console(text, words, script));
        }
        Some("measure") => measuring::measure(),
        Some("placing") => placing::measure(),
        _ => println!("differential compare SHEETS HISTORIES [SEED] | differential programs SHEETS HISTORIES [SEED] | differential measure | differential placing"),
    }
}
