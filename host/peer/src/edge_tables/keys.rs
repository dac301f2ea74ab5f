//! Names and uniques with one key: a check may decide by the exclusive or of a place's words of four bytes (or eight)
//! and must look closer where keys are equal, or are 0 as that of an empty place.
#![forbid(unsafe_code)]

use super::*;
use crate::server::{FUNCTIONS, JOBS};

/// Different texts with one key, by a number up to 31, for a place of so many bytes.
type Family = fn(usize, usize) -> Vec<u8>;

const FAMILIES: [(&str, Family); 3] = [("words exchanged", exchanged), ("key 0", zero), ("two equal words more", more)];

pub fn all() -> Vec<Base> {
    let mut bases = vec![free_places(), rests(), empty_uniques()];
    for (name, family) in FAMILIES {
        bases.push(names(name, family));
        bases.push(two_names(name, family));
        bases.push(uniques(name, family, false));
        bases.push(uniques(name, family, true));
        bases.push(shared_by_functions(name, family));
    }
    bases
}

/// Four bytes without a zero, different for numbers up to 60.
fn word(number: usize) -> [u8; 4] {
    let number = number as u8;
    [b'!' + number, b'~' - number, b'0' + number % 10, b'A' + number % 26]
}

/// The place full of different words, two of them exchanged; which two depends on the number.
fn exchanged(number: usize, room: usize) -> Vec<u8> {
    let mut words: Vec<[u8; 4]> = (0..room / 4).map(word).collect();
    let two: Vec<(usize, usize)> = pairs(words.len()).collect();
    if number > 0 {
        // 37 has no factor in common with 28 or 120, so the pairs differ and spread.
        let (low, high) = two[number * 37 % two.len()];
        words.swap(low, high);
    }
    words.concat()
}

/// One word twice, or as often as the place holds it.
fn zero(number: usize, room: usize) -> Vec<u8> {
    word(number).repeat([2, room / 4][number % 2])
}

/// The same first word, then no word or one word twice.
fn more(number: usize, _room: usize) -> Vec<u8> {
    let twice = if number == 0 { vec![] } else { word(number).repeat(2) };
    [&word(40)[..], &twice].concat()
}

/// 16 functions with names of one key; any two alike are refused, and so is a name that nobody needs.
fn names(what: &str, family: Family) -> Base {
    let mut server = opened();
    let text = |q: usize| family(q, NAME_BYTES);
    (0..FUNCTIONS).for_each(|q| run(&mut server, 1, 1, &[&text(q)]));
    let mut changes = Vec::new();
    for (low, high) in pairs(FUNCTIONS) {
        changes.push(Change::breaking("known functions distinct", vec![name(high, &text(low))]));
        changes.push(Change::good(vec![name(high, &text(low)), name(low, &text(high))]));
    }
    for q in 0..FUNCTIONS {
        changes.push(Change::breaking("known functions as defined", vec![able(q, 0)]));
        changes.push(Change::breaking("known functions as defined", vec![name(q, b"")]));
        changes.push(Change::good(vec![name(q, b""), able(q, 0)]));
    }
    Base { name: format!("16 names, {what}"), server, changes }
}

/// Two functions at any two places, all others free.
fn two_names(what: &str, family: Family) -> Base {
    let mut changes = Vec::new();
    for (low, high) in pairs(FUNCTIONS) {
        let two = |other: usize| {
            let texts = [family(low, NAME_BYTES), family(other, NAME_BYTES)];
            vec![name(low, &texts[0]), able(low, 1), name(high, &texts[1]), able(high, 2)]
        };
        changes.push(Change::good(two(high)));
        changes.push(Change::breaking("known functions distinct", two(low)));
    }
    Base { name: format!("two names, {what}"), server: opened(), changes }
}

/// 32 jobs with uniques of one key, under one function or by turns under two; equal ones are refused under one.
fn uniques(what: &str, family: Family, two_functions: bool) -> Base {
    let mut server = opened();
    let text = |p: usize| family(p, UNIQUE_BYTES);
    let function = |p: usize| if two_functions { p % 2 } else { 0 };
    for p in 0..JOBS {
        run(&mut server, 0, 7, &[[&b"reverse"[..], b"sort"][function(p)], &text(p), b"w"]);
    }
    let changes = pairs(JOBS)
        .map(|(low, high)| {
            let sets = vec![unique(high, &text(low))];
            if function(low) == function(high) {
                Change::breaking("no two jobs share", sets)
            } else {
                Change::good(sets)
            }
        })
        .collect();
    Base { name: format!("uniques by turns under two functions: {two_functions}, {what}"), server, changes }
}

/// Each unique under two functions, which is allowed; a job that goes over to the other function is refused.
fn shared_by_functions(what: &str, family: Family) -> Base {
    let mut server = opened();
    for function in [&b"reverse"[..], b"sort"] {
        run(&mut server, 1, 1, &[function]);
    }
    for p in 0..JOBS {
        run(&mut server, 0, 7, &[[&b"reverse"[..], b"sort"][p % 2], &family(p / 2, UNIQUE_BYTES), b"w"]);
    }
    let over = |p: usize| vec![(FUNCTION + p, vec![(p % 2) as u8 ^ 1])];
    let changes = (0..JOBS).map(|p| Change::breaking("no two jobs share", over(p))).collect();
    Base { name: format!("each unique under two functions, {what}"), server, changes }
}

/// 32 jobs of one function without a unique; two get one of key 0, the same or another.
fn empty_uniques() -> Base {
    let mut server = opened();
    (0..JOBS).for_each(|_| run(&mut server, 0, 7, &[b"reverse", b"", b"w"]));
    let mut changes = Vec::new();
    for (low, high) in pairs(JOBS) {
        let two = |other: usize| vec![unique(low, &zero(low, UNIQUE_BYTES)), unique(high, &zero(other, UNIQUE_BYTES))];
        changes.push(Change::good(two(high)));
        changes.push(Change::breaking("no two jobs share", two(low)));
    }
    Base { name: "empty uniques and two of key 0".to_string(), server, changes }
}

/// Free places that are not empty, though their key is 0.
fn free_places() -> Base {
    let mut changes = Vec::new();
    for number in [0, 1] {
        for p in 0..JOBS {
            let sets = vec![unique(p, &zero(number, UNIQUE_BYTES))];
            changes.push(Change::breaking("every field with a meaning: a free job place", sets));
        }
        for q in 0..FUNCTIONS {
            let text = zero(number, NAME_BYTES);
            changes.push(Change::breaking("known functions as defined", vec![name(q, &text)]));
            changes.push(Change::good(vec![name(q, &text), able(q, 1)]));
        }
    }
    Base { name: "free places of key 0".to_string(), server: opened(), changes }
}

/// Two equal words after the end of a text: they leave the key as it was.
fn rests() -> Base {
    let rule = "every field with a meaning: zeros";
    let mut server = opened();
    (0..JOBS).for_each(|p| run(&mut server, 0, 7, &[format!("{}", p % 15).as_bytes(), b"", b"w"]));
    let mut changes = Vec::new();
    let two = |at: usize, first: usize, second: usize| {
        vec![(at + 4 * first, word(7).to_vec()), (at + 4 * second, word(7).to_vec())]
    };
    // Place 15 is free: there the rest begins at the second word as well, after an empty text.
    for q in 0..FUNCTIONS {
        for (first, second) in pairs(8).filter(|pair| pair.0 > 0) {
            changes.push(Change::breaking(rule, two(NAME + NAME_BYTES * q, first, second)));
        }
    }
    for p in 0..JOBS {
        for first in 1..15 {
            changes.push(Change::breaking(rule, two(UNIQUE + UNIQUE_BYTES * p, first, 15)));
        }
    }
    Base { name: "equal words after a text".to_string(), server, changes }
}

#[cfg(test)]
mod tests {
    use super::*;
    use std::collections::HashSet;

    /// The exclusive or of the words of so many bytes.
    fn key(place: &[u8], bytes: usize) -> Vec<u8> {
        let mut key = vec![0; bytes];
        place.iter().enumerate().for_each(|(at, byte)| key[at % bytes] ^= byte);
        key
    }

    #[test]
    fn the_texts_of_a_family_differ_and_have_one_key() {
        for (what, family) in FAMILIES {
            for (room, count) in [(NAME_BYTES, FUNCTIONS), (UNIQUE_BYTES, JOBS)] {
                let texts: HashSet<Vec<u8>> = (0..count).map(|number| place(&family(number, room), room)).collect();
                assert_eq!(texts.len(), count, "{what}");
                let keys: HashSet<Vec<u8>> = texts.iter().map(|text| key(text, 4)).collect();
                assert_eq!(keys.len(), 1, "{what}");
                assert!(what != "key 0" || keys.contains(&vec![0; 4]));
            }
        }
        // Some exchanges keep the key of words of eight bytes too.
        let eights: Vec<_> = (0..JOBS).map(|number| key(&exchanged(number, UNIQUE_BYTES), 8)).collect();
        assert!(eights[1..].iter().filter(|eight| **eight == eights[0]).count() > 5);
    }
}
