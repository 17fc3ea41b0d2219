//! The hull by the steps that the proved code takes, in ordinary Rust, to see what it costs that the code is written so as to be proved.
//! An add asks each arc of the old ring once; place and neighbours look up the mark's position, and place bisects the fan; a drop goes from
//! the mark before the dropped one to the mark after it; rounds finds outlines by adding mark after mark.

use crate::plain::{det, no, Added, Answer, Placed};
use crate::tallies::Calls;

pub struct Matched<'a> {
    places: &'a [(i64, i64)],
    held: [bool; 128],
    before: [usize; 128],
    after: [usize; 128],
    position: [usize; 128],
    ring: Ring,
}

#[derive(Clone, Copy)]
struct Ring {
    marks: [usize; 128],
    length: usize,
}

impl Ring {
    fn new() -> Ring {
        Ring { marks: [0; 128], length: 0 }
    }

    fn marks(&self) -> &[usize] {
        &self.marks[..self.length]
    }

    fn push(&mut self, mark: usize) {
        self.marks[self.length] = mark;
        self.length += 1;
    }

    fn lowest_first(mut self) -> Ring {
        let length = self.length;
        let ring = &mut self.marks[..length];
        let lowest = (0..length).min_by_key(|&at| ring[at]).unwrap_or(0);
        ring.rotate_left(lowest);
        self
    }
}

impl<'a> Matched<'a> {
    pub fn over(places: &'a [(i64, i64)]) -> Matched<'a> {
        Matched { places, held: [false; 128], before: [0; 128], after: [0; 128], position: [0; 128], ring: Ring::new() }
    }

    /// Whether x lies to the right of the way from p to q, and the units of that turn.
    fn look(&self, p: usize, q: usize, x: usize) -> (bool, usize) {
        (det(self.places[p], self.places[q], self.places[x]) < 0, 1)
    }

    fn right(&self, p: usize, q: usize, x: usize) -> bool {
        self.look(p, q, x).0
    }

    /// The ring around the marks of this one and x, and the units of the turns that are asked for.
    fn grown(&self, ring: &Ring, x: usize) -> (Ring, usize) {
        let mut new = Ring::new();
        let marks = ring.marks();
        if marks.len() < 2 {
            new = *ring;
            new.push(x);
            return (new.lowest_first(), 0);
        }
        let last = marks.len() - 1;
        let (seen_last, mut units) = self.look(marks[last], marks[0], x);
        let mut seen_to = seen_last;
        for (at, &mark) in marks.iter().enumerate() {
            let seen_from = if at < last {
                let (seen, of_turn) = self.look(mark, marks[at + 1], x);
                units += of_turn;
                seen
            } else {
                seen_last
            };
            match (seen_to, seen_from) {
                (true, true) => {}
                (false, true) => {
                    new.push(mark);
                    new.push(x);
                }
                (_, false) => new.push(mark),
            }
            seen_to = seen_from;
        }
        (new.lowest_first(), units)
    }

    fn outline_of(&self, held: &[bool; 128]) -> Ring {
        let mut ring = Ring::new();
        for mark in 0..self.places.len() {
            if held[mark] {
                ring = self.grown(&ring, mark).0;
            }
        }
        ring
    }

    /// The mark to which an arc of the held marks leads from p: the first of them about p. `some` is one of them.
    fn follower(&self, held: &[bool], p: usize, some: usize) -> usize {
        let mut first = some;
        for (mark, &is_held) in held.iter().enumerate() {
            if is_held && mark != p && mark != first && self.right(p, first, mark) {
                first = mark;
            }
        }
        first
    }

    /// The ring around the held marks, from the one around these and the mark at the position.
    fn shrunk(&self, held: &[bool], position: usize) -> Ring {
        let mut ring = self.ring;
        ring.marks[..self.ring.length].rotate_left(position + 1);
        ring.length -= 1;
        if ring.length > 1 {
            let first = ring.marks[0];
            let mut next = self.follower(held, ring.marks[ring.length - 1], first);
            while next != first {
                ring.push(next);
                next = self.follower(held, next, first);
            }
        }
        ring.lowest_first()
    }

    fn settle(&mut self, ring: Ring) {
        self.ring = ring;
        let marks = ring.marks();
        for (at, &mark) in marks.iter().enumerate() {
            let next = if at + 1 < marks.len() { marks[at + 1] } else { marks[0] };
            self.position[mark] = at;
            self.after[mark] = next;
            self.before[next] = mark;
        }
    }

    fn holds(&self, mark: usize) -> Answer<()> {
        if mark >= self.places.len() {
            return no(9, &[mark]);
        }
        if !self.held[mark] {
            return no(11, &[mark]);
        }
        Ok(())
    }

    fn position(&self, mark: usize) -> Option<usize> {
        let at = self.position[mark];
        (self.ring.marks().get(at) == Some(&mark)).then_some(at)
    }
}

impl Calls for Matched<'_> {
    fn add(&mut self, mark: usize) -> Answer<Added> {
        if mark >= self.places.len() {
            return no(9, &[mark]);
        }
        if self.held[mark] {
            return no(10, &[mark]);
        }
        let old = self.ring.length;
        let (ring, units) = self.grown(&self.ring, mark);
        let edge = ring.marks().contains(&mark);
        self.held[mark] = true;
        self.settle(ring);
        Ok(Added { edge, left: if edge { old + 1 - self.ring.length } else { 0 }, units })
    }

    fn drop(&mut self, mark: usize) -> Answer<usize> {
        self.holds(mark)?;
        let old = self.ring.length;
        let position = self.position(mark);
        self.held[mark] = false;
        let Some(position) = position else {
            return Ok(0);
        };
        let ring = self.shrunk(&self.held[..self.places.len()], position);
        self.settle(ring);
        Ok(ring.length + 1 - old)
    }

    fn place(&self, mark: usize) -> Answer<Placed> {
        self.holds(mark)?;
        if let Some(position) = self.position(mark) {
            return Ok(Placed::Edge(position));
        }
        let ring = self.ring.marks();
        let (mut low, mut high) = (1, ring.len() - 1);
        while low + 1 < high {
            let middle = low + (high - low) / 2;
            if self.right(ring[0], ring[middle], mark) {
                high = middle;
            } else {
                low = middle;
            }
        }
        Ok(Placed::Inside(ring[low], ring[high]))
    }

    fn neighbours(&self, mark: usize) -> Answer<(usize, usize)> {
        self.holds(mark)?;
        match self.position(mark) {
            Some(_) => Ok((self.before[mark], self.after[mark])),
            None => no(14, &[mark]),
        }
    }

    fn outline(&self, list: &mut [usize]) -> Answer<usize> {
        let ring = self.ring.marks();
        if ring.len() > list.len() {
            return no(13, &[ring.len()]);
        }
        list[..ring.len()].copy_from_slice(ring);
        Ok(ring.len())
    }

    fn rounds(&self, list: &mut [usize]) -> Answer<usize> {
        let count = self.places.len();
        if count > list.len() {
            return no(13, &[count]);
        }
        let mut held = self.held;
        list[..count].fill(0);
        for round in 0..count {
            let ring = self.outline_of(&held);
            if ring.length == 0 {
                return Ok(round);
            }
            for &mark in ring.marks() {
                list[mark] = round + 1;
                held[mark] = false;
            }
        }
        Ok(count)
    }
}
