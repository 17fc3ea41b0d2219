//! How long a place takes on a long outline: the proved library against a program that tries the triangles of the fan one after another.

use crate::cases::{self, Random};
use crate::library;
use crate::plain::{self, det, Placed, Sheet};
use std::hint::black_box;
use std::time::Instant;

/// How many marks the section has, and how many of them are on its outline.
const MARKS: usize = 128;
const OUTLINE: usize = 100;

/// How many calls are measured, and how often; the least time counts.
const CALLS: usize = 100_000;
const ROUNDS: usize = 100;

/// The fan triangles with a mark in them: triangle i is that of the ring's marks 0, i and i + 1.
fn triangles() -> impl Iterator<Item = usize> {
    (1..=82).step_by(3)
}

/// The mark that is made as the k-th: the marks of the outline and those inside it are numbered in among each other.
fn mark(made: usize) -> usize {
    made * 37 % MARKS
}

/// A place inside the triangle.
fn within(random: &mut Random, corners: [(i64, i64); 3]) -> (i64, i64) {
    let [p, q, r] = corners;
    loop {
        let [a, b, c] = [0; 3].map(|_| 1 + random.below(100) as i64);
        let mean = |p: i64, q: i64, r: i64| (a * p + b * q + c * r) / (a + b + c);
        let x = (mean(p.0, q.0, r.0), mean(p.1, q.1, r.1));
        if det(p, q, x) > 0 && det(q, r, x) > 0 && det(r, p, x) > 0 {
            return x;
        }
    }
}

/// Places of which 100 are the outline, about a circle, and one of the other 28 is in each of the triangles.
fn section() -> Vec<(i64, i64)> {
    let about = |k: usize| {
        let angle = std::f64::consts::TAU * (k as f64 + 0.25) / OUTLINE as f64;
        ((9_999.0 * angle.cos()).round() as i64, (9_999.0 * angle.sin()).round() as i64)
    };
    let ring: Vec<(i64, i64)> = (0..OUTLINE).map(about).collect();
    // until no three are on a line
    for seed in 1.. {
        let mut random = Random::new(seed);
        let inside = triangles().map(|i| within(&mut random, [ring[0], ring[i], ring[i + 1]]));
        let mut places = vec![(0, 0); MARKS];
        for (made, place) in ring.iter().copied().chain(inside).enumerate() {
            places[mark(made)] = place;
        }
        if plain::open(&Sheet::Places(places.clone())).is_ok() {
            return places;
        }
    }
    unreachable!()
}

/// The ring as it is read out, a flag for each mark that is on it, and where the marks are: a place is found by trying one triangle of the
/// fan after another, by its three turns.
struct Tried<'a> {
    places: &'a [(i64, i64)],
    ring: Vec<usize>,
    on_ring: Vec<bool>,
}

impl Tried<'_> {
    fn left(&self, p: usize, q: usize, r: usize) -> bool {
        det(self.places[p], self.places[q], self.places[r]) > 0
    }

    fn place(&self, x: usize) -> Placed {
        if self.on_ring[x] {
            return Placed::Edge(self.ring.iter().position(|&p| p == x).expect("a mark of the ring"));
        }
        let first = self.ring[0];
        let around = |&(p, q): &(usize, usize)| self.left(first, p, x) && self.left(p, q, x) && self.left(q, first, x);
        let mut fan = self.ring[1..].iter().copied().zip(self.ring[2..].iter().copied());
        let (p, q) = fan.find(around).expect("a triangle around a mark inside");
        Placed::Inside(p, q)
    }

    /// What the answers are worth, added up as the library's are.
    fn worth(&self, marks: &[u8]) -> u64 {
        let worth = |&x: &u8| match self.place(usize::from(x)) {
            Placed::Edge(position) => position as u64,
            Placed::Inside(p, q) => (p + q) as u64,
        };
        marks.iter().map(worth).sum()
    }
}

/// The ring of all marks, and the marks inside it in the order of their triangles, as the library answers; stops unless there are 100 and 28,
/// one in each of the triangles.
fn read_out(text: &[u8]) -> (Vec<usize>, Vec<usize>) {
    let adds = (0..MARKS).map(|x| format!("add {x}\n"));
    let places = (0..MARKS).map(|x| format!("place {x}\n"));
    let script: String = adds.chain([format!("outline {MARKS}\n")]).chain(places).collect();
    let answers = String::from_utf8(library::console(text, b"", script.as_bytes(), 1 << 16)).expect("a text");
    let answers: Vec<Vec<&str>> = answers.lines().map(|line| line.split('\t').collect()).collect();
    let number = |word: &&str| word.parse::<usize>().expect("a number");
    let ring: Vec<usize> = answers[MARKS][3..].iter().map(number).collect();
    assert_eq!(ring.len(), OUTLINE, "the marks of the outline");
    let mut inside = Vec::new();
    for answer in &answers[MARKS + 1..] {
        let x = number(&answer[1]);
        match answer[2] {
            "edge" => assert_eq!(ring[number(&answer[3])], x, "the mark at a position of the ring"),
            _ => {
                let i = ring.iter().position(|&p| p == number(&answer[3])).expect("a mark of the ring");
                assert_eq!(ring[i + 1], number(&answer[4]), "a triangle of the fan");
                inside.push((i, x));
            }
        }
    }
    inside.sort();
    let (in_triangles, inside): (Vec<usize>, Vec<usize>) = inside.into_iter().unzip();
    assert_eq!(in_triangles, triangles().collect::<Vec<_>>(), "the triangles with a mark in them");
    (ring, inside)
}

/// Seconds that the work takes.
fn seconds(work: impl FnOnce() -> u64) -> f64 {
    let began = Instant::now();
    black_box(work());
    began.elapsed().as_secs_f64()
}

pub fn measure() {
    let places = section();
    let text = cases::written(&Sheet::Places(places.clone()));
    let (ring, inside) = read_out(&text);
    let on_ring = (0..MARKS).map(|x| ring.contains(&x)).collect();
    let tried = Tried { places: &places, ring, on_ring };

    let marks: Vec<u8> = inside.iter().map(|&x| x as u8).cycle().take(CALLS).collect();
    let adds: Vec<u8> = (0..MARKS).flat_map(|x| [b'a', x as u8]).collect();
    let calls = [&adds[..], &marks.iter().flat_map(|&x| [b'p', x]).collect::<Vec<u8>>()].concat();
    let worth = library::tally(&text, &calls, 1) - library::tally(&text, &adds, 1);
    assert_eq!(worth, tried.worth(&marks), "the answers");

    // the library opens the sheet and adds all marks at each call, so this is measured alone too, and taken off
    let (mut library, mut before, mut trying) = (f64::INFINITY, f64::INFINITY, f64::INFINITY);
    for _ in 0..ROUNDS {
        before = before.min(seconds(|| library::tally(&text, black_box(&adds), 1)));
        library = library.min(seconds(|| library::tally(&text, black_box(&calls), 1)));
        trying = trying.min(seconds(|| tried.worth(black_box(&marks))));
    }
    let of_call = |seconds: f64| seconds / CALLS as f64 * 1e9;
    println!("{CALLS} places of {} marks inside an outline of {OUTLINE}", inside.len());
    println!("the library {:.1} ns, trying each triangle {:.1} ns", of_call(library - before), of_call(trying));
    println!("ratio {:.2}", (library - before) / trying);
}
