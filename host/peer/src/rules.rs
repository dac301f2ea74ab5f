//! The table rules of document 01, word by word, and those of document 02's client ids and hub names, over any bytes of
//! the layout's length.
//! Each rule is one function named after it; none takes for granted that another one holds.
#![forbid(unsafe_code)]

use crate::hub;
use crate::layout::*;
use crate::server::{CONNECTIONS, FUNCTIONS, JOBS};

/// Whether the first 4,836 bytes obey every table rule.
pub fn obeys(bytes: &[u8]) -> bool {
    RULES.iter().all(|(_, rule)| rule(Table(&bytes[..TABLE])))
}

/// The names of the rules that the bytes break.
pub fn broken(bytes: &[u8]) -> Vec<&'static str> {
    RULES.iter().filter(|(_, rule)| !rule(Table(&bytes[..TABLE]))).map(|(name, _)| *name).collect()
}

type Rule = fn(Table) -> bool;

pub const RULES: [(&str, Rule); 17] = [
    ("serials distinct", serials_distinct),
    ("serials from 1 and below the next", serials_below_the_next),
    ("names within sizes", names_within_sizes),
    ("stored texts within sizes", stored_texts_within_sizes),
    ("function, unique and workload at most 1,022 bytes together", together_at_most_1022),
    ("every field with a meaning: numbers", numbers_with_a_meaning),
    ("every field with a meaning: zeros after a text", zeros_after_texts),
    ("every field with a meaning: a free job place is zero", free_places_are_zero),
    ("every field with a meaning: a job's function is a place with a name", functions_of_jobs_have_names),
    ("known functions distinct", known_functions_distinct),
    ("known functions as defined", known_functions_as_defined),
    ("abilities, listeners, holders, options and sleep only on open connections", only_on_open_connections),
    ("client ids only on open connections", ids_only_on_open_connections),
    ("a queued job is background or has a listener", queued_is_background_or_has_a_listener),
    ("no two jobs share function and non-empty unique", no_shared_unique),
    ("no sleeper has a grabbable job", no_sleeper_has_a_grabbable_job),
    ("the hub's name has 1 to 15 lowercase letters and digits", hub_has_a_name),
];

/// The fields of a table's bytes, read with no look at their meaning.
#[derive(Clone, Copy)]
pub struct Table<'a>(pub &'a [u8]);

impl<'a> Table<'a> {
    fn two(self, at: usize) -> u16 {
        u16::from_le_bytes([self.0[at], self.0[at + 1]])
    }
    fn four(self, at: usize) -> u32 {
        u32::from_le_bytes([self.0[at], self.0[at + 1], self.0[at + 2], self.0[at + 3]])
    }
    pub fn last_serial(self) -> u32 {
        self.four(LAST_SERIAL)
    }
    pub fn serial(self, p: usize) -> u32 {
        self.four(SERIAL + 4 * p)
    }
    pub fn size(self, p: usize) -> u16 {
        self.two(SIZE + 2 * p)
    }
    pub fn holder(self, p: usize) -> u16 {
        self.two(HOLDER + 2 * p)
    }
    pub fn priority(self, p: usize) -> u8 {
        self.0[PRIORITY + p]
    }
    pub fn background(self, p: usize) -> u8 {
        self.0[BACKGROUND + p]
    }
    pub fn function(self, p: usize) -> u8 {
        self.0[FUNCTION + p]
    }
    /// The whole place of a name, zeros included; the same for the three texts below.
    pub fn name_place(self, q: usize) -> &'a [u8] {
        &self.0[NAME + NAME_BYTES * q..][..NAME_BYTES]
    }
    pub fn unique_place(self, p: usize) -> &'a [u8] {
        &self.0[UNIQUE + UNIQUE_BYTES * p..][..UNIQUE_BYTES]
    }
    pub fn numerator_place(self, p: usize) -> &'a [u8] {
        &self.0[NUMERATOR + DIGITS_BYTES * p..][..DIGITS_BYTES]
    }
    pub fn denominator_place(self, p: usize) -> &'a [u8] {
        &self.0[DENOMINATOR + DIGITS_BYTES * p..][..DIGITS_BYTES]
    }
    /// The whole place of the hub's name.
    pub fn hub_place(self) -> &'a [u8] {
        &self.0[HUB..][..HUB_BYTES]
    }
    pub fn able(self, q: usize) -> u32 {
        self.four(ABLE + 4 * q)
    }
    pub fn listeners(self, p: usize) -> u32 {
        self.four(LISTENERS + 4 * p)
    }
    pub fn open(self, c: usize) -> u8 {
        self.0[OPEN + c]
    }
    pub fn asleep(self, c: usize) -> u8 {
        self.0[ASLEEP + c]
    }
    pub fn exceptions(self, c: usize) -> u8 {
        self.0[EXCEPTIONS + c]
    }
    /// The whole place of a client id.
    pub fn id_place(self, c: usize) -> &'a [u8] {
        &self.0[IDS + ID_BYTES * c..][..ID_BYTES]
    }
    pub fn is_job(self, p: usize) -> bool {
        self.serial(p) != 0
    }
    fn is_queued(self, p: usize) -> bool {
        self.is_job(p) && self.holder(p) == 0
    }
    fn is_open(self, c: usize) -> bool {
        c < CONNECTIONS && self.open(c) == 1
    }
    /// The able set of a job's function; empty if there is no such place.
    fn able_for(self, p: usize) -> u32 {
        let q = usize::from(self.function(p));
        if q < FUNCTIONS {
            self.able(q)
        } else {
            0
        }
    }
}

/// A text without its place: it ends at the first zero byte or at the end of its place.
pub fn text(place: &[u8]) -> &[u8] {
    &place[..place.iter().position(|&byte| byte == 0).unwrap_or(place.len())]
}

fn jobs(table: Table<'_>) -> impl Iterator<Item = usize> + '_ {
    (0..JOBS).filter(move |&p| table.is_job(p))
}

fn serials_distinct(table: Table) -> bool {
    jobs(table).all(|p| jobs(table).all(|other| p == other || table.serial(p) != table.serial(other)))
}

/// The next serial is one more than the last, so at most 4,294,967,296 by its four bytes.
fn serials_below_the_next(table: Table) -> bool {
    let next = u64::from(table.last_serial()) + 1;
    jobs(table).all(|p| (1..next).contains(&u64::from(table.serial(p))))
}

/// A name has 1 to 32 bytes where a function is known, a unique 0 to 64, a client id 1 to 64 where one was set; no
/// place holds more. That a free function place has no name, and a connection without an id an empty one, is the
/// meaning of an empty text, so only the sizes are left, and the places bound them.
fn names_within_sizes(table: Table) -> bool {
    let names = (0..FUNCTIONS).all(|q| text(table.name_place(q)).len() <= 32);
    let uniques = jobs(table).all(|p| text(table.unique_place(p)).len() <= 64);
    let ids = (0..CONNECTIONS).all(|c| text(table.id_place(c)).len() <= 64);
    names && uniques && ids
}

fn stored_texts_within_sizes(table: Table) -> bool {
    let digits = |place: &[u8]| (1..=10).contains(&text(place).len()) && text(place).iter().all(u8::is_ascii_digit);
    jobs(table).all(|p| digits(table.numerator_place(p)) && digits(table.denominator_place(p)))
}

fn together_at_most_1022(table: Table) -> bool {
    jobs(table).all(|p| {
        let q = usize::from(table.function(p));
        let function = if q < FUNCTIONS { text(table.name_place(q)).len() } else { 0 };
        function + text(table.unique_place(p)).len() + usize::from(table.size(p)) <= 1_022
    })
}

fn numbers_with_a_meaning(table: Table) -> bool {
    let rows = (0..JOBS).all(|p| {
        table.priority(p) <= 2 && table.background(p) <= 1 && table.function(p) <= 15 && table.holder(p) <= 16
    });
    let flags = (0..CONNECTIONS).all(|c| table.open(c) <= 1 && table.asleep(c) <= 1 && table.exceptions(c) <= 1);
    rows && flags
}

fn zeros_after_texts(table: Table) -> bool {
    let clean = |place: &[u8]| place[text(place).len()..].iter().all(|&byte| byte == 0);
    let names = (0..FUNCTIONS).all(|q| clean(table.name_place(q)));
    let rows = (0..JOBS)
        .all(|p| clean(table.unique_place(p)) && clean(table.numerator_place(p)) && clean(table.denominator_place(p)));
    let ids = (0..CONNECTIONS).all(|c| clean(table.id_place(c)));
    names && rows && ids && clean(table.hub_place())
}

fn free_places_are_zero(table: Table) -> bool {
    let zeros = |place: &[u8]| place.iter().all(|&byte| byte == 0);
    (0..JOBS).filter(|&p| !table.is_job(p)).all(|p| {
        table.listeners(p) == 0
            && table.size(p) == 0
            && table.holder(p) == 0
            && table.priority(p) == 0
            && table.background(p) == 0
            && table.function(p) == 0
            && zeros(table.unique_place(p))
            && zeros(table.numerator_place(p))
            && zeros(table.denominator_place(p))
    })
}

fn functions_of_jobs_have_names(table: Table) -> bool {
    jobs(table).all(|p| {
        let q = usize::from(table.function(p));
        q < FUNCTIONS && !text(table.name_place(q)).is_empty()
    })
}

fn known_functions_distinct(table: Table) -> bool {
    let known = || (0..FUNCTIONS).filter(|&q| !text(table.name_place(q)).is_empty());
    known().all(|q| known().all(|other| q == other || text(table.name_place(q)) != text(table.name_place(other))))
}

/// A place has a name exactly if some connection can do the function or an unfinished job names it.
fn known_functions_as_defined(table: Table) -> bool {
    (0..FUNCTIONS).all(|q| {
        let named = jobs(table).any(|p| usize::from(table.function(p)) == q);
        text(table.name_place(q)).is_empty() != (table.able(q) != 0 || named)
    })
}

fn only_on_open_connections(table: Table) -> bool {
    let all_open = |set: u32| (0..32).all(|c| set >> c & 1 == 0 || table.is_open(c));
    let abilities = (0..FUNCTIONS).all(|q| all_open(table.able(q)));
    let listeners = (0..JOBS).all(|p| all_open(table.listeners(p)));
    let holders = (0..JOBS).all(|p| table.holder(p) == 0 || table.is_open(usize::from(table.holder(p)) - 1));
    let flags = (0..CONNECTIONS).all(|c| (table.asleep(c) == 0 && table.exceptions(c) == 0) || table.is_open(c));
    abilities && listeners && holders && flags
}

/// Close clears the id, and only an open connection sets one.
fn ids_only_on_open_connections(table: Table) -> bool {
    (0..CONNECTIONS).all(|c| text(table.id_place(c)).is_empty() || table.is_open(c))
}

fn queued_is_background_or_has_a_listener(table: Table) -> bool {
    jobs(table).all(|p| !table.is_queued(p) || table.background(p) != 0 || table.listeners(p) != 0)
}

fn no_shared_unique(table: Table) -> bool {
    let unique = |p: usize| text(table.unique_place(p));
    jobs(table).all(|p| {
        unique(p).is_empty()
            || jobs(table)
                .all(|other| p == other || table.function(p) != table.function(other) || unique(p) != unique(other))
    })
}

fn no_sleeper_has_a_grabbable_job(table: Table) -> bool {
    (0..CONNECTIONS)
        .filter(|&c| table.asleep(c) != 0)
        .all(|c| jobs(table).all(|p| !table.is_queued(p) || table.able_for(p) >> c & 1 == 0))
}

/// A full place of 16 bytes is too long; what follows a shorter name is another rule's.
fn hub_has_a_name(table: Table) -> bool {
    hub::is_name(text(table.hub_place()))
}
