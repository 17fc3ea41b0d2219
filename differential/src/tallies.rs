//! What the answers to calls are worth, added up: compared, and timed, without any text.

use crate::plain::{Added, Answer, Hull, Placed};

/// The calls on a hull, of the plain implementation or of the matched one; `outline` and `rounds` write into the caller's list.
pub trait Calls {
    fn add(&mut self, mark: usize) -> Answer<Added>;
    fn drop(&mut self, mark: usize) -> Answer<usize>;
    fn place(&self, mark: usize) -> Answer<Placed>;
    fn neighbours(&self, mark: usize) -> Answer<(usize, usize)>;
    fn outline(&self, list: &mut [usize]) -> Answer<usize>;
    fn rounds(&self, list: &mut [usize]) -> Answer<usize>;
}

impl Calls for Hull {
    fn add(&mut self, mark: usize) -> Answer<Added> {
        Hull::add(self, mark)
    }

    fn drop(&mut self, mark: usize) -> Answer<usize> {
        Hull::drop(self, mark)
    }

    fn place(&self, mark: usize) -> Answer<Placed> {
        Hull::place(self, mark)
    }

    fn neighbours(&self, mark: usize) -> Answer<(usize, usize)> {
        Hull::neighbours(self, mark)
    }

    fn outline(&self, list: &mut [usize]) -> Answer<usize> {
        let ring = Hull::outline(self, list.len())?;
        list[..ring.len()].copy_from_slice(&ring);
        Ok(ring.len())
    }

    fn rounds(&self, list: &mut [usize]) -> Answer<usize> {
        let (rounds, entries) = Hull::rounds(self, list.len())?;
        list[..entries.len()].copy_from_slice(&entries);
        Ok(rounds)
    }
}

/// A number and all that a list holds, added up.
fn sum(number: usize, list: &[usize]) -> usize {
    number + list.iter().sum::<usize>()
}

/// What the answer to one call is worth; nothing where the letter is none. A list is handed over as zeros, and counts with all that it holds.
fn worth(hull: &mut impl Calls, letter: u8, number: usize) -> usize {
    let mut zeros = [0; 128];
    let list = &mut zeros[..number.min(128)];
    let answer = match letter {
        b'a' => hull.add(number).map(|added| added.left + usize::from(added.edge) + added.units),
        b'd' => hull.drop(number),
        b'p' => hull.place(number).map(|placed| match placed {
            Placed::Edge(position) => position,
            Placed::Inside(p, q) => p + q,
        }),
        b'n' => hull.neighbours(number).map(|(before, after)| before + after),
        b'o' => hull.outline(list).map(|length| sum(length, list)),
        b'r' => hull.rounds(list).map(|rounds| sum(rounds, list)),
        _ => Ok(0),
    };
    answer.unwrap_or_else(|fault| fault.0 as usize)
}

/// What the calls are worth on an unused hull.
pub fn tally(hull: &mut impl Calls, calls: &[u8]) -> u64 {
    calls.chunks_exact(2).map(|call| worth(hull, call[0], usize::from(call[1])) as u64).sum()
}
