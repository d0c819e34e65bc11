//! The classes of cases, by name.
use crate::crossed::crossed;
use crate::damaged::damaged;
use crate::dress::{dress, dress_for};
use crate::grammar::grammar;
use crate::list::List;
use crate::long::long;
use crate::mutated::mutate;
use crate::named;
use crate::real::real;
use crate::rng::Rng;
use crate::rooms::rooms;
use crate::short::short;
use crate::steered::steered;
use records::{Case, Settings};

/// Cases that are made one after another.
pub type Cases = Box<dyn Iterator<Item = Case> + Send>;

/// How a class makes its cases.
enum Maker {
    /// In an order of its own; the seed is the number of the page of `count` cases.
    Listed(fn() -> Cases),
    /// Each drawn by itself from seed and index.
    Drawn(fn(&mut Rng) -> Case),
}

/// A class: its name, what it holds, how it is made.
pub struct Class {
    pub name: &'static str,
    pub about: &'static str,
    maker: Maker,
}

pub const CLASSES: [Class; 10] = [
    Class {
        name: "named",
        about: "lists a to l of document 01 and the traps, with answers written by hand",
        maker: Maker::Listed(|| Box::new(named::all().map(|named| named.case))),
    },
    Class {
        name: "crossed",
        about: "every state before every kind",
        maker: Maker::Listed(|| Box::new(crossed())),
    },
    Class {
        name: "short",
        about: "every list over five small alphabets, shortest first; never ends",
        maker: Maker::Listed(|| Box::new(short())),
    },
    Class {
        name: "grammar",
        about: "lists that every setting accepts",
        maker: Maker::Drawn(|rng| {
            let list = sized(rng);
            dress(rng, &list)
        }),
    },
    Class {
        name: "mutated",
        about: "the same with one to three edits",
        maker: Maker::Drawn(|rng| {
            let mut list = sized(rng);
            mutate(rng, &mut list);
            dress(rng, &list)
        }),
    },
    Class {
        name: "steered",
        about: "lists grown by asking the Rust which token goes on",
        maker: Maker::Drawn(|rng| {
            let settings = rng.pick(&Settings::ALL);
            let list = steered(rng, settings);
            dress_for(rng, &list, settings)
        }),
    },
    Class {
        name: "damaged",
        about: "records, lengths and texts that are not sound, rubbish where nothing is read",
        maker: Maker::Drawn(damaged),
    },
    Class { name: "rooms", about: "rooms at, under and over the need", maker: Maker::Drawn(rooms) },
    Class {
        name: "long",
        about: "lists at the limits: 65,536 tokens, 65,535 deep, 9,000 anchors",
        maker: Maker::Listed(|| Box::new(long())),
    },
    Class {
        name: "real",
        about: "YAML files through the real scanner",
        maker: Maker::Listed(|| Box::new(real())),
    },
];

fn sized(rng: &mut Rng) -> List {
    let size = 2 + rng.below(30);
    grammar(rng, size)
}

/// `count` cases of a class; fewer where a listed class ends before. None if there is no such class.
pub fn class(name: &str, seed: u64, count: usize) -> Option<Cases> {
    let class = CLASSES.iter().find(|class| class.name == name)?;
    Some(match class.maker {
        Maker::Listed(list) => {
            Box::new(list().skip(count.saturating_mul(seed as usize)).take(count))
        }
        Maker::Drawn(draw) => {
            Box::new((0..count as u64).map(move |index| draw(&mut Rng::for_case(seed, index))))
        }
    })
}
