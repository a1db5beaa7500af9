//! Document 02's note 7: "keep .. one 64-bit word a part, a bit for each part it
//! has an arc from". Merging in such words proposes what the reference does, and
//! with a wrong bit other parts for many schemas of one seed.

use checks::parting::{atom_arcs, proposed_alone};
use checks::{report, shows_in};
use generate::proposing::crowded_task;
use generate::Random;
use reference::propose::MAX_WIDTH;
use reference::table::{used_arguments, Schema, MAX_PARTS};

const TASKS: usize = 200;

/// Two parts by their numbers, the lower first.
type Pair = [usize; 2];

/// How arcs stand in the words.
#[derive(Clone, Copy)]
struct Form {
    /// The bit of an arc from an atom's part.
    from: fn(usize) -> u64,
    /// All of so many parts.
    all: fn(usize) -> u64,
    /// The word of a merged part, from those of both.
    both: fn([u64; 2], Pair) -> u64,
    /// A word once the higher part has the lower number and higher ones have
    /// closed up.
    closed_up: fn(u64, Pair) -> u64,
}

const RIGHT: Form = Form {
    from: |part| 1 << part,
    all: |parts| u64::MAX >> (64 - parts),
    both: |[first, second], pair| (first | second) & !bits(pair),
    closed_up: |word, [lower, higher]| {
        below(word, higher) | above(word, higher) | (word >> higher & 1) << lower
    },
};

fn bits([lower, higher]: Pair) -> u64 {
    1 << lower | 1 << higher
}

/// The bits of parts below one, as they are.
fn below(word: u64, part: usize) -> u64 {
    word & ((1 << part) - 1)
}

/// The bits of parts above one, each in the place below it.
fn above(word: u64, part: usize) -> u64 {
    word >> 1 >> part << part
}

/// The parts of a schema while they are merged.
#[derive(Clone)]
struct Parts {
    /// The part of each atom.
    of_atoms: Vec<usize>,
    /// "A bit for each part it has an arc from."
    words: Vec<u64>,
    /// A bit for each parameter that a part has.
    parameters: Vec<u16>,
}

impl Parts {
    /// Each atom in its own part.
    fn of(form: &Form, schema: &Schema, arities: &[u16]) -> Parts {
        let atoms = schema.atoms.len();
        let mut words = vec![0; atoms];
        for (from, to) in atom_arcs(schema.clone()) {
            words[to] |= (form.from)(from);
        }
        let parameters = schema.atoms.iter().map(|atom| {
            let used = used_arguments(&atom.atom, arities).iter();
            used.fold(0, |parameters, used| parameters | 1 << used.0)
        });
        Parts {
            of_atoms: (0..atoms).collect(),
            words,
            parameters: parameters.collect(),
        }
    }

    fn width(&self, [lower, higher]: Pair) -> u32 {
        (self.parameters[lower] | self.parameters[higher]).count_ones()
    }

    fn merged(&self, form: &Form, pair: Pair) -> Parts {
        let [lower, higher] = pair;
        let mut parts = self.clone();
        for part in &mut parts.of_atoms {
            if *part == higher {
                *part = lower;
            } else if *part > higher {
                *part -= 1;
            }
        }
        parts.words[lower] = (form.both)(pair.map(|part| self.words[part]), pair);
        parts.words.remove(higher);
        for word in &mut parts.words {
            *word = (form.closed_up)(*word, pair);
        }
        parts.parameters[lower] |= self.parameters[higher];
        parts.parameters.remove(higher);
        parts
    }

    /// Whether some order complies: the free parts, to which no part left has an
    /// arc, are placed until there is none.
    fn have_an_order(&self, form: &Form) -> bool {
        let mut left = (form.all)(self.words.len());
        loop {
            let is_free = |part: &usize| left >> part & 1 == 1 && self.words[*part] & left == 0;
            let free = (0..self.words.len()).filter(is_free);
            let free = free.fold(0, |free, part| free | 1 << part);
            if free == 0 {
                return left == 0;
            }
            left &= !free;
        }
    }

    fn first_merge(&self, form: &Form, width: usize) -> Option<Parts> {
        let parts = self.words.len();
        (0..parts)
            .flat_map(|lower| (lower + 1..parts).map(move |higher| [lower, higher]))
            .filter(|pair| self.width(*pair) <= width as u32)
            .map(|pair| self.merged(form, pair))
            .find(|merged| merged.have_an_order(form))
    }
}

/// The part of each atom, `None` where there are more than a table takes.
fn partition(form: &Form, schema: &Schema, arities: &[u16], width: usize) -> Option<Vec<usize>> {
    let mut parts = Parts::of(form, schema, arities);
    while let Some(merged) = parts.first_merge(form, width) {
        parts = merged;
    }
    (parts.words.len() <= MAX_PARTS).then_some(parts.of_atoms)
}

const fn setting(from: fn(usize) -> u64) -> Form {
    Form { from, ..RIGHT }
}

const fn joining(both: fn([u64; 2], Pair) -> u64) -> Form {
    Form { both, ..RIGHT }
}

const fn closing_up(closed_up: fn(u64, Pair) -> u64) -> Form {
    Form { closed_up, ..RIGHT }
}

/// The bit of a part below a bound alone.
fn up_to(bound: usize, part: usize) -> u64 {
    u64::from(part < bound) << part
}

/// Wrong forms, each with a number of schemas that it must reach.
const WRONG: [(&str, Form, usize); 13] = [
    ("arcs from 16 parts", setting(|part| up_to(16, part)), 80),
    ("arcs from 32 parts", setting(|part| up_to(32, part)), 80),
    ("arcs from 62 parts", setting(|part| up_to(62, part)), 6),
    ("arcs from 63 parts", setting(|part| up_to(63, part)), 0),
    (
        "bits of 32 over again",
        setting(|part| 1 << (part % 32)),
        80,
    ),
    (
        "the last part left out",
        Form {
            all: |parts| (RIGHT.all)(parts) >> 1,
            ..RIGHT
        },
        50,
    ),
    (
        "arcs to the higher lost",
        joining(|[first, _], pair| first & !bits(pair)),
        80,
    ),
    (
        "arcs to the lower lost",
        joining(|[_, second], pair| second & !bits(pair)),
        60,
    ),
    (
        "arcs inside a part kept",
        joining(|[first, second], _| first | second),
        80,
    ),
    (
        "arcs from the higher lost",
        closing_up(|word, [_, higher]| below(word, higher) | above(word, higher)),
        80,
    ),
    (
        "bits not closed up",
        closing_up(|word, [lower, higher]| word & !(1 << higher) | (word >> higher & 1) << lower),
        80,
    ),
    (
        "bits below the higher closed up too",
        closing_up(|word, [lower, higher]| word >> 1 | (word >> higher & 1) << lower),
        80,
    ),
    (
        "32 bits closed up",
        closing_up(|word, pair| (RIGHT.closed_up)(word & 0xffff_ffff, pair)),
        80,
    ),
];

#[test]
fn a_wrong_bit_proposes_other_parts() {
    let mut random = Random::new(46);
    let mut others = [0; WRONG.len()];
    for _ in 0..TASKS {
        let task = crowded_task(&mut random);
        let width = random.below(MAX_WIDTH as usize + 1);
        let schema = &task.schemas[0];
        let expected = proposed_alone(schema, &task, width);
        let found = |form: &Form| partition(form, schema, &task.arities, width);
        assert_eq!(found(&RIGHT), expected, "width {width}, {task}");
        for (other, (_, form, _)) in others.iter_mut().zip(&WRONG) {
            *other += usize::from(found(form) != expected);
        }
    }
    report("the right words, tasks", TASKS);
    for ((name, _, least), other) in WRONG.into_iter().zip(others) {
        shows_in(name, other, least);
    }
}
