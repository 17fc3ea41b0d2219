//! What the report and the console print, from the plain implementation.

use crate::plain::{self, Answer, Hull, Placed, Refusal, Sheet, System};

fn line(fields: &[String]) -> String {
    fields.join("\t") + "\n"
}

fn words_of<T: ToString>(word: &str, numbers: &[T]) -> Vec<String> {
    let mut fields = vec![word.to_string()];
    fields.extend(numbers.iter().map(|number| number.to_string()));
    fields
}

fn refusal(Refusal(number, places): &Refusal) -> Vec<String> {
    let mut fields = words_of("no", &[number]);
    fields.extend(places.iter().map(|place| place.to_string()));
    fields
}

/// The report of a text.
pub fn report(text: &[u8]) -> String {
    told(text).unwrap_or_else(|fault| line(&refusal(&fault)))
}

fn told(text: &[u8]) -> Answer<String> {
    let sheet = plain::read(text)?;
    let system = plain::open(&sheet)?;
    let n = system.count;
    let all = vec![true; n];
    let ring = plain::outline(&system, &all);
    let letter = match sheet {
        Sheet::Places(_) => "P",
        Sheet::FlatPlaces(_) => "F",
        Sheet::Crossings(..) => "W",
        Sheet::Turns(..) => "T",
    };
    let mut out = line(&["kind".into(), letter.into(), n.to_string()]);
    out += &line(&words_of("ring", &ring));
    for (mark, round) in plain::rounds(&system, &all).1.iter().enumerate() {
        out += &line(&words_of("round", &[mark, *round]));
    }
    if let Sheet::Places(places) = &sheet {
        if n > 0 {
            match plain::star(places, 0) {
                Ok(pairs) => pairs.iter().for_each(|(p, q)| out += &line(&words_of("star", &[*p, *q]))),
                Err(fault) => out += &format!("star\t{}", line(&refusal(&fault))),
            }
        }
    }
    if let Sheet::Places(places) | Sheet::FlatPlaces(places) = &sheet {
        out += &line(&words_of("tape", &[plain::tape(places, &ring)]));
    }
    Ok(out)
}

/// A number of at most 64 bits, written without a needless zero.
fn number(word: &str) -> Option<usize> {
    let value = word.parse::<usize>().ok()?;
    (value.to_string() == word).then_some(value)
}

/// What the console prints for a sheet, the words of layers, and a script.
pub fn console(sheet: &[u8], words: &str, script: &str) -> String {
    let system = plain::read(sheet).and_then(|sheet| plain::open(&sheet));
    over(system, words, script)
}

/// The same over the star about a mark of the sheet's places.
pub fn star_console(text: &[u8], centre: usize, words: &str, script: &str) -> String {
    let opened = plain::read(text).and_then(|sheet| plain::open(&sheet).map(|_| sheet));
    match opened {
        Ok(Sheet::Places(places)) => over(plain::star_system(&places, centre), words, script),
        Ok(_) => line(&words_of("?", &["star"])),
        Err(fault) => line(&refusal(&fault)),
    }
}

/// What is printed over a system, or its refusal.
fn over(system: Answer<System>, words: &str, script: &str) -> String {
    match system.map_err(Stop::from).and_then(|system| opened(system, words)) {
        Ok(Some(system)) => dialogue(system, script),
        Ok(None) => line(&words_of("?", &["layer", "1"])),
        Err(Stop::Refused(fault)) => line(&refusal(&fault)),
        Err(Stop::SecondUnknown) => line(&words_of("?", &["layer", "2"])),
    }
}

/// Why no call is made.
enum Stop {
    Refused(Refusal),
    SecondUnknown,
}

impl From<Refusal> for Stop {
    fn from(fault: Refusal) -> Stop {
        Stop::Refused(fault)
    }
}

/// The system that the calls are made on, under the layers that the words name, the first directly over the system; none where the first word names no layer.
fn opened(system: System, words: &str) -> Result<Option<System>, Stop> {
    if words.is_empty() {
        return Ok(Some(system));
    }
    let Some((first, second)) = words.split_once(' ') else {
        let Some(layer) = layer(words) else { return Ok(None) };
        return Ok(Some(layered(&system, &layer)?));
    };
    let Some(first) = layer(first) else { return Ok(None) };
    let Some(second) = layer(second) else { return Err(Stop::SecondUnknown) };
    Ok(Some(layered(&layered(&system, &first)?, &second)?))
}

enum Layer {
    Mirror,
    Renaming(Vec<usize>),
}

fn layer(word: &str) -> Option<Layer> {
    if word == "mirror" {
        return Some(Layer::Mirror);
    }
    match word.strip_prefix("rename:")? {
        "" => Some(Layer::Renaming(vec![])),
        names => names.split(',').map(number).collect::<Option<Vec<_>>>().map(Layer::Renaming),
    }
}

fn layered(system: &System, layer: &Layer) -> Answer<System> {
    match layer {
        Layer::Mirror => system.mirror(),
        Layer::Renaming(names) => system.rename(names),
    }
}

fn dialogue(system: System, script: &str) -> String {
    let mut hull = Hull::over(system);
    let mut out = String::new();
    for (at, asked) in script.split_inclusive('\n').enumerate() {
        let asked = asked.strip_suffix('\n').unwrap_or(asked);
        let fields = exchange(&mut hull, asked).unwrap_or_else(|| words_of("?", &[at + 1]));
        out += &line(&fields);
    }
    out
}

fn exchange(hull: &mut Hull, asked: &str) -> Option<Vec<String>> {
    if asked == "census" {
        let ([low, high], size) = hull.census();
        return Some(words_of("census", &[low, high, size as u64]));
    }
    let (verb, argument) = asked.split_once(' ')?;
    let x = number(argument)?;
    let answer = match verb {
        "add" => hull.add(x).map(|added| words_of(if added.edge { "edge" } else { "inside" }, &[added.left, added.units])),
        "drop" => hull.drop(x).map(|come| vec![come.to_string()]),
        "place" => hull.place(x).map(|placed| match placed {
            Placed::Edge(position) => words_of("edge", &[position]),
            Placed::Inside(p, q) => words_of("inside", &[p, q]),
        }),
        "neighbours" => hull.neighbours(x).map(|(before, after)| vec![before.to_string(), after.to_string()]),
        "outline" => hull.outline(x).map(|ring| words_of(&ring.len().to_string(), &ring)),
        "rounds" => hull.rounds(x).map(|(number, entries)| words_of(&number.to_string(), &entries)),
        _ => return None,
    };
    let mut fields = words_of(verb, &[x]);
    fields.extend(answer.unwrap_or_else(|fault| refusal(&fault)));
    Some(fields)
}
