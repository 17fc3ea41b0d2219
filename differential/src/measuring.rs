//! What calls cost: the proved library against the plain implementation, and against the same steps in ordinary Rust.

use crate::matched::Matched;
use crate::plain::{self, Hull, Sheet};
use crate::tallies::{tally, Calls};
use crate::{cases, library, texts};
use std::hint::black_box;
use std::time::Instant;

/// The counts that are measured.
const COUNTS: [usize; 3] = [16, 64, 128];

/// The time of a run is the least of so many.
const RUNS: usize = 5;

/// Seconds that the work takes once. A run does it so often that the run is long enough to be measured; the least of several runs counts.
fn seconds(mut work: impl FnMut()) -> f64 {
    let mut turns = 1;
    loop {
        let began = Instant::now();
        for _ in 0..turns {
            work();
        }
        let took = began.elapsed().as_secs_f64();
        if took > 0.01 {
            let more = (1..RUNS).map(|_| {
                let began = Instant::now();
                for _ in 0..turns {
                    work();
                }
                began.elapsed().as_secs_f64()
            });
            return more.fold(took, f64::min) / turns as f64;
        }
        turns *= 2;
    }
}

/// Calls of one letter on each mark, in rising order.
fn on_each(letter: u8, count: usize) -> Vec<u8> {
    (0..count).flat_map(|mark| [letter, mark as u8]).collect()
}

/// A kind of call: its name, the calls that are made before, and those that are measured.
struct Kind {
    name: &'static str,
    before: Vec<u8>,
    measured: Vec<u8>,
}

fn kinds(count: usize) -> Vec<Kind> {
    let adds = on_each(b'a', count);
    // places, outlines and rounds are asked for many times, so that they weigh more than the adds before them
    vec![
        Kind { name: "add", before: vec![], measured: adds.clone() },
        Kind { name: "drop", before: adds.clone(), measured: on_each(b'd', count) },
        Kind { name: "place", before: adds.clone(), measured: on_each(b'p', count).repeat(64) },
        Kind { name: "outline", before: adds.clone(), measured: [b'o', count as u8].repeat(64 * count) },
        Kind { name: "rounds", before: adds, measured: [b'r', count as u8].repeat(count) },
    ]
}

/// Seconds of one measured call: all calls on an unused hull, less those that are made before.
fn of_call(kind: &Kind, mut run: impl FnMut(&[u8])) -> f64 {
    let all = [&kind.before[..], &kind.measured[..]].concat();
    let (whole, before) = (seconds(|| run(&all)), seconds(|| run(&kind.before)));
    (whole - before).max(0.0) / (kind.measured.len() / 2) as f64
}

/// Seconds that the library takes to make the calls once: they are made many times over one opening, and the opening is taken off.
fn library_run(text: &[u8], calls: &[u8]) -> f64 {
    let mut times = 1;
    loop {
        let began = Instant::now();
        black_box(library::tally(text, calls, times));
        if began.elapsed().as_secs_f64() > 0.01 || times > 1 << 22 {
            break;
        }
        times *= 2;
    }
    let least = |times: usize| {
        let run = |_| {
            let began = Instant::now();
            black_box(library::tally(text, calls, times));
            began.elapsed().as_secs_f64()
        };
        (0..RUNS).map(run).fold(f64::INFINITY, f64::min)
    };
    (least(times) - least(0)).max(0.0) / times as f64
}

/// The same as `of_call`, of the library.
fn library_call(text: &[u8], kind: &Kind) -> f64 {
    let all = [&kind.before[..], &kind.measured[..]].concat();
    (library_run(text, &all) - library_run(text, &kind.before)).max(0.0) / (kind.measured.len() / 2) as f64
}

/// Stops unless the answers are worth the same in all three, so that the same work is measured.
fn agree(text: &[u8], calls: &[u8], plain: &mut impl Calls, matched: &mut impl Calls) {
    let worth = library::tally(text, calls, 1);
    assert!(worth == tally(plain, calls) && worth == tally(matched, calls), "the tallies differ");
}

fn row(name: &str, count: usize, library: f64, plain: f64, matched: Option<f64>) {
    let matched_fields = match matched {
        Some(matched) => format!("{:.3} | {:.2}", matched * 1e6, library / matched),
        None => " | ".to_string(),
    };
    println!("| {name} | {count} | {:.3} | {:.3} | {:.3} | {matched_fields} |", library * 1e6, plain * 1e6, library / plain);
}

fn measure_section(title: &str, section: impl Fn(usize) -> Vec<(i64, i64)>) {
    println!("\n{title}\n\n| call | marks | library, µs | plain, µs | library / plain | same steps, µs | library / same steps |\n|---|---|---|---|---|---|---|");
    for count in COUNTS {
        let places = section(count);
        let text = cases::written(&Sheet::Places(places.clone()));
        let system = plain::open(&Sheet::Places(places.clone())).expect("places in general position");
        for kind in kinds(count) {
            let all = [&kind.before[..], &kind.measured[..]].concat();
            agree(&text, &all, &mut Hull::over(system.clone()), &mut Matched::over(&places));
            let mut hull = Hull::over(system.clone());
            let plain = of_call(&kind, |calls| {
                hull.clear();
                black_box(tally(&mut hull, calls));
            });
            let matched = of_call(&kind, |calls| {
                black_box(tally(&mut Matched::over(&places), calls));
            });
            row(kind.name, count, library_call(&text, &kind), plain, Some(matched));
        }
        let library = seconds(|| {
            black_box(library::report(&text, 1 << 16));
        });
        let plain = seconds(|| {
            black_box(texts::report(&text));
        });
        row("report", count, library, plain, None);
    }
}

pub fn measure() {
    measure_section("Scattered places:", |count| cases::scattered(count));
    measure_section("All places on the outline:", |count| (0..count as i64).map(|i| (i - 64, (i - 64) * (i - 64))).collect());
}
