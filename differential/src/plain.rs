//! A plain implementation of systems, layers, sheets, the hull, star and tape, straight from docs/CALLS.md and docs/SHEETS.md: nothing
//! clever, and nothing shared with the proved text.

/// A refusal: its number and its used places.
#[derive(Clone, Debug, PartialEq, Eq)]
pub struct Refusal(pub u32, pub Vec<usize>);

pub type Answer<T> = Result<T, Refusal>;

pub fn no<T>(number: u32, places: &[usize]) -> Answer<T> {
    Err(Refusal(number, places.to_vec()))
}

/// What a sheet tells.
#[derive(Clone, Debug)]
pub enum Sheet {
    Places(Vec<(i64, i64)>),
    FlatPlaces(Vec<(i64, i64)>),
    Crossings(usize, Vec<usize>),
    Turns(usize, Vec<bool>),
}

/// A number of one to six digits without a needless zero; a minus only where it may stand.
fn number(field: &str, minus: bool) -> Option<i64> {
    let (sign, digits) = match field.strip_prefix('-') {
        Some(rest) if minus => (-1, rest),
        Some(_) => return None,
        None => (1, field),
    };
    let plain = !digits.is_empty() && digits.len() <= 6 && digits.bytes().all(|b| b.is_ascii_digit());
    if !plain || (digits.len() > 1 && digits.starts_with('0')) || (sign < 0 && digits == "0") {
        return None;
    }
    digits.parse::<i64>().ok().map(|value| sign * value)
}

/// All i < j < k below n, in rising order.
pub fn triples(n: usize) -> Vec<[usize; 3]> {
    let mut all = Vec::new();
    for i in 0..n {
        for j in i + 1..n {
            for k in j + 1..n {
                all.push([i, j, k]);
            }
        }
    }
    all
}

/// The sheet that a text is.
pub fn read(text: &[u8]) -> Answer<Sheet> {
    if text.len() > 32_768 {
        return no(2, &[0]);
    }
    // the lines, and whether the text goes on after them without byte 10
    let mut lines: Vec<String> = Vec::new();
    let mut rest = text;
    while let Some(end) = rest.iter().position(|&b| b == 10) {
        lines.push(rest[..end].iter().map(|&b| b as char).collect());
        rest = &rest[end + 1..];
    }
    let tail = !rest.is_empty();
    if lines.is_empty() {
        return no(1, &[1]);
    }
    let head: Vec<&str> = lines[0].split('\t').collect();
    let torn = |line: usize| no(1, &[line]);
    if head.len() != 2 {
        return torn(1);
    }
    let Some(count) = number(head[1], false) else { return torn(1) };
    let count = count as usize;
    let limit = match head[0] {
        "P" | "F" => 128,
        "W" => 32,
        "T" => 24,
        _ => return torn(1),
    };
    if count > limit {
        return no(2, &[1]);
    }
    let due = match head[0] {
        "P" | "F" => count,
        "W" => count * count.saturating_sub(1) / 2,
        _ => count * count.saturating_sub(1) * count.saturating_sub(2) / 6,
    };
    let threes = triples(if head[0] == "T" { count } else { 0 });
    let (mut places, mut crossings, mut turns) = (Vec::new(), Vec::new(), Vec::new());
    for value in 0..due {
        let at = value + 2;
        if value + 1 >= lines.len() {
            return if tail { torn(at) } else { no(3, &[at]) };
        }
        let fields: Vec<&str> = lines[value + 1].split('\t').collect();
        match (head[0], &fields[..]) {
            ("P" | "F", ["m", x, y]) => {
                let (Some(x), Some(y)) = (number(x, true), number(y, true)) else { return torn(at) };
                if x.abs() > 10_000 || y.abs() > 10_000 {
                    return no(2, &[at]);
                }
                places.push((x, y));
            }
            ("W", ["c", k]) => {
                let Some(k) = number(k, false) else { return torn(at) };
                if k as usize + 2 > count {
                    return no(2, &[at]);
                }
                crossings.push(k as usize);
            }
            ("T", ["t", i, j, k, turn @ ("L" | "R")]) => {
                let three = [i, j, k].map(|field| number(field, false).map(|value| value as usize));
                if three != threes[value].map(Some) {
                    return torn(at);
                }
                turns.push(*turn == "L");
            }
            _ => return torn(at),
        }
    }
    if lines.len() > due + 1 || tail {
        return no(3, &[due + 2]);
    }
    Ok(match head[0] {
        "P" => Sheet::Places(places),
        "F" => Sheet::FlatPlaces(places),
        "W" => Sheet::Crossings(count, crossings),
        _ => Sheet::Turns(count, turns),
    })
}

/// A system: its count, the units of its turns, and for each three different marks whether they turn left.
#[derive(Clone)]
pub struct System {
    pub count: usize,
    units: usize,
    left: Vec<bool>,
}

/// The units of a layer, which adds some to those of the system below.
fn layer_units(below: usize, added: usize) -> Answer<usize> {
    match below + added {
        units if units > 1_000 => no(22, &[units]),
        units => Ok(units),
    }
}

impl System {
    fn of(count: usize, units: usize, left: impl Fn(usize, usize, usize) -> bool) -> System {
        let mut all = vec![false; count * count * count];
        for p in 0..count {
            for q in 0..count {
                for r in 0..count {
                    if p != q && q != r && p != r {
                        all[(p * count + q) * count + r] = left(p, q, r);
                    }
                }
            }
        }
        System { count, units, left: all }
    }

    pub fn left(&self, p: usize, q: usize, r: usize) -> bool {
        self.left[(p * self.count + q) * self.count + r]
    }

    pub fn mirror(&self) -> Answer<System> {
        let units = layer_units(self.units, 1)?;
        Ok(System::of(self.count, units, |p, q, r| !self.left(p, q, r)))
    }

    pub fn rename(&self, names: &[usize]) -> Answer<System> {
        if names.len() > 128 {
            return no(12, &[128]);
        }
        for (entry, name) in names.iter().enumerate() {
            if *name >= self.count || names[..entry].contains(name) {
                return no(12, &[entry]);
            }
        }
        let units = layer_units(self.units, 3)?;
        Ok(System::of(names.len(), units, |p, q, r| self.left(names[p], names[q], names[r])))
    }
}

/// Twice the signed area of the triangle p q r, above 0 where they turn left.
pub fn det(p: (i64, i64), q: (i64, i64), r: (i64, i64)) -> i64 {
    (q.0 - p.0) * (r.1 - p.1) - (q.1 - p.1) * (r.0 - p.0)
}

/// Whether three places turn left among flat points. On one line they do where their order by x and then by y is p, q, r, or one of its cyclic
/// shifts.
fn flat_left(p: (i64, i64), q: (i64, i64), r: (i64, i64)) -> bool {
    let area = det(p, q, r);
    if area != 0 {
        return area > 0;
    }
    let mut order = [p, q, r];
    order.sort();
    [[p, q, r], [q, r, p], [r, p, q]].contains(&order)
}

/// The first two places that are alike.
fn twins(places: &[(i64, i64)]) -> Answer<()> {
    for i in 0..places.len() {
        for j in i + 1..places.len() {
            if places[i] == places[j] {
                return no(4, &[i, j]);
            }
        }
    }
    Ok(())
}

/// The incircle determinant of three places seen from c.
fn circle(c: (i64, i64), p: (i64, i64), q: (i64, i64), r: (i64, i64)) -> i128 {
    let seen = |s: (i64, i64)| {
        let (a, b) = ((s.0 - c.0) as i128, (s.1 - c.1) as i128);
        (a, b, a * a + b * b)
    };
    let ((a1, b1, w1), (a2, b2, w2), (a3, b3, w3)) = (seen(p), seen(q), seen(r));
    w1 * (a2 * b3 - a3 * b2) - w2 * (a1 * b3 - a3 * b1) + w3 * (a1 * b2 - a2 * b1)
}

/// The turn of any three marks from those of the rising ones.
fn by_rising(p: usize, q: usize, r: usize, rising: impl Fn(usize, usize, usize) -> bool) -> bool {
    let mut marks = [p, q, r];
    marks.sort();
    let exchanges = usize::from(p > q) + usize::from(q > r) + usize::from(p > r);
    rising(marks[0], marks[1], marks[2]) == (exchanges % 2 == 0)
}

/// All orders of the marks.
fn orders(marks: &[usize]) -> Vec<Vec<usize>> {
    if marks.is_empty() {
        return vec![vec![]];
    }
    let mut all = Vec::new();
    for first in 0..marks.len() {
        let mut others = marks.to_vec();
        let mark = others.remove(first);
        for mut order in orders(&others) {
            order.insert(0, mark);
            all.push(order);
        }
    }
    all
}

/// All groups of so many marks below n, each rising, in rising order.
fn groups(n: usize, size: usize) -> Vec<Vec<usize>> {
    fn from(first: usize, n: usize, size: usize, group: &mut Vec<usize>, all: &mut Vec<Vec<usize>>) {
        if size == 0 {
            all.push(group.clone());
            return;
        }
        for mark in first..n {
            group.push(mark);
            from(mark + 1, n, size - 1, group, all);
            group.pop();
        }
    }
    let mut all = Vec::new();
    from(0, n, size, &mut Vec::new(), &mut all);
    all
}

/// The system that a sheet tells of.
pub fn open(sheet: &Sheet) -> Answer<System> {
    match sheet {
        Sheet::Places(places) => {
            let n = places.len();
            twins(places)?;
            for [i, j, k] in triples(n) {
                if det(places[i], places[j], places[k]) == 0 {
                    return no(5, &[i, j, k]);
                }
            }
            Ok(System::of(n, 1, |p, q, r| det(places[p], places[q], places[r]) > 0))
        }
        Sheet::FlatPlaces(places) => {
            twins(places)?;
            Ok(System::of(places.len(), 1, |p, q, r| flat_left(places[p], places[q], places[r])))
        }
        Sheet::Crossings(n, crossings) => {
            let mut wires: Vec<usize> = (0..*n).collect();
            let mut when = vec![0; n * n];
            for (entry, &k) in crossings.iter().enumerate() {
                if wires[k] > wires[k + 1] {
                    return no(7, &[entry]);
                }
                when[wires[k] * n + wires[k + 1]] = entry;
                wires.swap(k, k + 1);
            }
            Ok(System::of(*n, 2, |p, q, r| by_rising(p, q, r, |i, j, k| when[i * n + j] < when[j * n + k])))
        }
        Sheet::Turns(n, turns) => {
            let threes = triples(*n);
            let mut rising = vec![false; n * n * n];
            for (three, turn) in threes.iter().zip(turns) {
                rising[(three[0] * n + three[1]) * n + three[2]] = *turn;
            }
            let system = System::of(*n, 1, |p, q, r| by_rising(p, q, r, |i, j, k| rising[(i * n + j) * n + k]));
            let left = |p: usize, q: usize, r: usize| system.left(p, q, r);
            let four_orders = orders(&[0, 1, 2, 3]);
            for four in groups(*n, 4) {
                for order in &four_orders {
                    let [p, q, r, t] = [0, 1, 2, 3].map(|at| four[order[at]]);
                    if left(t, q, r) && left(p, t, r) && left(p, q, t) && !left(p, q, r) {
                        return no(8, &four);
                    }
                }
            }
            let five_orders = orders(&[0, 1, 2, 3, 4]);
            for five in groups(*n, 5) {
                for order in &five_orders {
                    let [p, q, r, s, t] = [0, 1, 2, 3, 4].map(|at| five[order[at]]);
                    if left(t, s, p) && left(t, s, q) && left(t, s, r) && left(t, p, q) && left(t, q, r) && !left(t, p, r) {
                        return no(8, &five);
                    }
                }
            }
            Ok(system)
        }
    }
}

/// The outline of some marks, read out from its lowest mark.
pub fn outline(system: &System, held: &[bool]) -> Vec<usize> {
    let marks: Vec<usize> = (0..held.len()).filter(|&mark| held[mark]).collect();
    if marks.len() <= 1 {
        return marks;
    }
    let arc = |p: usize, q: usize| p != q && marks.iter().all(|&r| r == p || r == q || system.left(p, q, r));
    let after = |p: usize| marks.iter().copied().find(|&q| arc(p, q));
    let Some(first) = marks.iter().copied().find(|&p| after(p).is_some()) else { panic!("marks without an arc") };
    let mut ring = vec![first];
    loop {
        let next = after(*ring.last().unwrap()).expect("a ring that does not close");
        if next == first {
            return ring;
        }
        ring.push(next);
    }
}

/// The round of each mark, 0 for a mark that is not in, and the number of rounds.
pub fn rounds(system: &System, held: &[bool]) -> (usize, Vec<usize>) {
    let mut rest = held.to_vec();
    let mut entries = vec![0; held.len()];
    let mut number = 0;
    while rest.contains(&true) {
        number += 1;
        for mark in outline(system, &rest) {
            entries[mark] = number;
            rest[mark] = false;
        }
    }
    (number, entries)
}

/// What an add did.
pub struct Added {
    /// whether the mark stands on the outline
    pub edge: bool,
    /// how many marks left the outline
    pub left: usize,
    /// the units of the turns that an add asks for
    pub units: usize,
}

pub enum Placed {
    Edge(usize),
    Inside(usize, usize),
}

/// The hull: which marks are in; everything else is found anew at each call.
pub struct Hull {
    pub system: System,
    held: Vec<bool>,
}

impl Hull {
    pub fn over(system: System) -> Hull {
        let held = vec![false; system.count];
        Hull { system, held }
    }

    /// Takes all marks out.
    pub fn clear(&mut self) {
        self.held.fill(false);
    }

    fn ring(&self) -> Vec<usize> {
        outline(&self.system, &self.held)
    }

    fn held(&self, mark: usize) -> Answer<()> {
        match self.held.get(mark) {
            None => no(9, &[mark]),
            Some(false) => no(11, &[mark]),
            Some(true) => Ok(()),
        }
    }

    pub fn add(&mut self, mark: usize) -> Answer<Added> {
        match self.held.get(mark) {
            None => return no(9, &[mark]),
            Some(true) => return no(10, &[mark]),
            Some(false) => {}
        }
        let before = self.ring();
        self.held[mark] = true;
        let after = self.ring();
        let arcs = if before.len() < 2 { 0 } else { before.len() };
        Ok(Added {
            edge: after.contains(&mark),
            left: before.iter().filter(|p| !after.contains(p)).count(),
            units: arcs * self.system.units,
        })
    }

    pub fn drop(&mut self, mark: usize) -> Answer<usize> {
        self.held(mark)?;
        let before = self.ring();
        self.held[mark] = false;
        Ok(self.ring().iter().filter(|p| !before.contains(p)).count())
    }

    pub fn place(&self, mark: usize) -> Answer<Placed> {
        self.held(mark)?;
        let ring = self.ring();
        if let Some(position) = ring.iter().position(|&p| p == mark) {
            return Ok(Placed::Edge(position));
        }
        let left = |p: usize, q: usize| self.system.left(p, q, mark);
        let within = |&i: &usize| left(ring[0], ring[i]) && left(ring[i], ring[i + 1]) && left(ring[i + 1], ring[0]);
        let mut found = (1..ring.len() - 1).filter(within);
        let i = found.next().expect("a mark in no triangle of the fan");
        assert!(found.next().is_none(), "a mark in two triangles of the fan");
        Ok(Placed::Inside(ring[i], ring[i + 1]))
    }

    pub fn neighbours(&self, mark: usize) -> Answer<(usize, usize)> {
        self.held(mark)?;
        let ring = self.ring();
        match ring.iter().position(|&p| p == mark) {
            None => no(14, &[mark]),
            Some(at) => Ok((ring[(at + ring.len() - 1) % ring.len()], ring[(at + 1) % ring.len()])),
        }
    }

    pub fn outline(&self, room: usize) -> Answer<Vec<usize>> {
        let ring = self.ring();
        if ring.len() > room {
            return no(13, &[ring.len()]);
        }
        Ok(ring)
    }

    pub fn rounds(&self, room: usize) -> Answer<(usize, Vec<usize>)> {
        if self.system.count > room {
            return no(13, &[self.system.count]);
        }
        Ok(rounds(&self.system, &self.held))
    }

    pub fn census(&self) -> ([u64; 2], usize) {
        let mut words = [0u64; 2];
        let mut number = 0;
        for mark in (0..self.held.len()).filter(|&mark| self.held[mark]) {
            words[mark / 64] |= 1 << (mark % 64);
            number += 1;
        }
        (words, number)
    }
}

/// The points of the star about mark c, all but c itself; none where c is no mark, or three of them lie on one circle with it.
fn others(places: &[(i64, i64)], c: usize) -> Answer<Vec<usize>> {
    if c >= places.len() {
        return no(9, &[c]);
    }
    let others: Vec<usize> = (0..places.len()).filter(|&p| p != c).collect();
    for [i, j, k] in triples(others.len()) {
        let three = [others[i], others[j], others[k]];
        if circle(places[c], places[three[0]], places[three[1]], places[three[2]]) == 0 {
            return no(6, &three);
        }
    }
    Ok(others)
}

/// The star about mark c as a system of the other points, in rising order.
pub fn star_system(places: &[(i64, i64)], c: usize) -> Answer<System> {
    let others = others(places, c)?;
    let place = |mark: usize| places[others[mark]];
    Ok(System::of(others.len(), 3, |p, q, r| circle(places[c], place(p), place(q), place(r)) > 0))
}

/// The Delaunay pairs about mark c.
pub fn star(places: &[(i64, i64)], c: usize) -> Answer<Vec<(usize, usize)>> {
    let others = others(places, c)?;
    let mut pairs = Vec::new();
    for &p in &others {
        for &q in &others {
            let faces = p != q && det(places[c], places[p], places[q]) > 0;
            // c, p, q turn left, so r is outside their circle exactly when the incircle determinant of c, p, q, r is below 0
            let empty = |&r: &usize| r == p || r == q || circle(places[r], places[c], places[p], places[q]) < 0;
            if faces && others.iter().all(empty) {
                pairs.push((p, q));
            }
        }
    }
    Ok(pairs)
}

/// The greatest whole number whose square is at most this one.
fn root(square: i64) -> i64 {
    let mut root = (square as f64).sqrt() as i64;
    while root * root > square {
        root -= 1;
    }
    while (root + 1) * (root + 1) <= square {
        root += 1;
    }
    root
}

/// The length of a tape around a ring, found in parts, of which 1,024 make a twentieth of a millimetre.
pub fn tape(places: &[(i64, i64)], ring: &[usize]) -> i64 {
    let parts: i64 = (0..ring.len())
        .map(|at| {
            let (p, q) = (places[ring[at]], places[ring[(at + 1) % ring.len()]]);
            root(1_048_576 * ((p.0 - q.0).pow(2) + (p.1 - q.1).pow(2)))
        })
        .sum();
    (parts + 512) / 1_024
}
