//! Tasks at both sides of every limit.

use reference::table::{
    Atom, ObjectNumber, Pair, ParameterNumber, PartNumber, Role, Schema, SchemaAtom, Task,
    MAX_PAIRS, MAX_PARAMETERS, MAX_PREDICATES, MAX_SCHEMAS,
};

use crate::differing::every_pair;
use crate::random::Random;

/// A task that still passes and one that is turned back.
#[derive(Clone, Debug)]
pub struct Limit {
    pub name: &'static str,
    pub inside: Task,
    pub outside: Task,
    /// How the outside one is refused.
    pub number: u32,
    pub place: u64,
}

/// A task with predicates of arity 0 alone and nothing else.
fn bare(predicates: usize) -> Task {
    Task {
        objects: 1,
        arities: vec![0; predicates],
        schemas: Vec::new(),
        initial: Vec::new(),
        goal: Vec::new(),
    }
}

fn precondition(part: usize, atom: Atom<ParameterNumber>) -> SchemaAtom {
    SchemaAtom {
        role: Role::Precondition,
        part: PartNumber(part as u16),
        atom,
    }
}

/// A schema that tests the first predicates, in the parts given for them.
fn tests(parts: impl IntoIterator<Item = usize>) -> Schema {
    Schema {
        parameters: 0,
        pairs: Vec::new(),
        atoms: (0..)
            .zip(parts)
            .map(|(predicate, part)| precondition(part, Atom::new(predicate, &[])))
            .collect(),
    }
}

fn one_part(atoms: usize) -> Schema {
    tests(std::iter::repeat_n(0, atoms))
}

/// A schema that tests every parameter in every part, with the predicate of the
/// part's number, which has arity 1.
fn sharing(parameters: u16, parts: u16) -> Schema {
    let atoms = (0..parts).flat_map(|part| {
        (0..parameters).map(move |parameter| {
            let atom = Atom::new(part, &[ParameterNumber(parameter)]);
            precondition(part.into(), atom)
        })
    });
    Schema {
        parameters,
        pairs: Vec::new(),
        atoms: atoms.collect(),
    }
}

/// A schema of twelve parameters, each in every part, with the first so many of
/// their 66 pairs.
fn differing(pairs: usize, parts: u16) -> Schema {
    let mut schema = sharing(MAX_PARAMETERS as u16, parts);
    schema.pairs = every_pair(schema.parameters);
    schema.pairs.truncate(pairs);
    schema
}

/// A task of so many pairs: three times 66, then the rest.
fn with_pairs(count: usize) -> Task {
    let mut schemas = vec![differing(66, 1); 3];
    schemas.push(differing(count - 198, 1));
    Task {
        arities: vec![1],
        ..with_schemas(1, schemas)
    }
}

/// A task of 100 pairs in two parts each, so that its split has 200, and so many
/// in one part.
fn with_pairs_in_two_parts(more: usize) -> Task {
    let schemas = vec![differing(66, 2), differing(34, 2), differing(more, 1)];
    Task {
        arities: vec![1; 2],
        ..with_schemas(2, schemas)
    }
}

fn with_objects(objects: usize) -> Task {
    Task {
        objects: objects as u16,
        ..bare(1)
    }
}

fn with_arity(arity: usize) -> Task {
    Task {
        arities: vec![arity as u16],
        ..bare(1)
    }
}

fn with_parameters(count: usize) -> Task {
    Task {
        arities: vec![1],
        ..with_schemas(1, vec![sharing(count as u16, 1)])
    }
}

/// A task of 20 schemas, the last of which has so many atoms.
fn with_last(others: usize, last: usize) -> Task {
    let mut schemas = vec![one_part(others); 19];
    schemas.push(one_part(last));
    with_schemas(64, schemas)
}

fn with_schemas(predicates: usize, schemas: Vec<Schema>) -> Task {
    Task {
        schemas,
        ..bare(predicates)
    }
}

/// Atoms of predicate 0, of arity 1, with the first objects.
fn ground(count: usize) -> Vec<Atom<ObjectNumber>> {
    (0..count)
        .map(|object| Atom::new(0, &[ObjectNumber(object as u16)]))
        .collect()
}

fn with_ground(initial: usize, goal: usize) -> Task {
    Task {
        objects: 1000,
        arities: vec![1],
        initial: ground(initial),
        goal: ground(goal),
        ..bare(1)
    }
}

fn limit(
    name: &'static str,
    number: u32,
    place: u64,
    [inside, outside]: [usize; 2],
    task: impl Fn(usize) -> Task,
) -> Limit {
    Limit {
        name,
        inside: task(inside),
        outside: task(outside),
        number,
        place,
    }
}

/// The limit of pairs; the 201st stands in the last schema, the third there.
pub fn pairs() -> Limit {
    limit("pairs", 21, 247, [MAX_PAIRS, MAX_PAIRS + 1], with_pairs)
}

/// The limits of a table, with the refusal of its text and the line of that.
pub fn reading() -> Vec<Limit> {
    vec![
        limit("no object", 4, 2, [1, 0], with_objects),
        limit("objects", 4, 2, [1000, 1001], with_objects),
        limit("predicates", 4, 3, [400, 401], bare),
        limit("arity", 4, 3, [4, 5], with_arity),
        limit("schemas", 4, 604, [200, 201], |count| {
            with_schemas(1, vec![one_part(1); count])
        }),
        limit("parameters", 4, 4, [12, 13], with_parameters),
        limit("no atom of a schema", 7, 5, [1, 0], |count| {
            with_schemas(1, vec![one_part(count)])
        }),
        limit("atoms of a schema", 4, 69, [64, 65], |count| {
            with_schemas(65, vec![one_part(count)])
        }),
        limit("parts", 8, 22, [16, 17], |count| {
            with_schemas(17, vec![tests((0..17).map(|part| part % count))])
        }),
        limit("schema atoms", 4, 1043, [50, 51], |last| {
            with_last(50, last)
        }),
        limit("initial atoms", 4, 504, [500, 501], |count| {
            with_ground(count, 0)
        }),
        limit("goal atoms", 4, 104, [100, 101], |count| {
            with_ground(0, count)
        }),
        pairs(),
    ]
}

/// The limits of a table that a split reaches and passes, which is refusal 10.
pub fn splitting() -> Vec<Limit> {
    let limit = |name, sides, task: &dyn Fn(usize) -> Task| limit(name, 10, 0, sides, task);
    let shared = |predicates: usize, parameters: u16| Task {
        arities: vec![1; predicates],
        ..with_schemas(predicates, vec![sharing(parameters, 2)])
    };
    vec![
        limit("predicates by procnone", [399, 400], &bare),
        limit("predicates by dos", [396, 397], &|count| {
            with_schemas(count, vec![tests(0..3), tests(0..2)])
        }),
        limit("predicates by pars", [395, 396], &|count| shared(count, 3)),
        limit("schemas", [198, 199], &|count| {
            let mut schemas = vec![one_part(1); count];
            schemas.push(tests(0..2));
            with_schemas(2, schemas)
        }),
        limit("schema atoms", [49, 50], &|last| with_last(49, last)),
        limit("atoms of a schema", [63, 64], &|count| {
            with_schemas(64, vec![one_part(count)])
        }),
        limit("atoms of a first part", [61, 62], &|count| {
            let parts = (0..=count).map(|atom| usize::from(atom == count));
            with_schemas(64, vec![tests(parts)])
        }),
        limit("initial atoms", [499, 500], &|count| with_ground(count, 0)),
        limit("goal atoms", [99, 100], &|count| with_ground(0, count)),
        limit("pairs", [0, 1], &with_pairs_in_two_parts),
    ]
}

/// The task at one side of some limit, which may be no table.
pub fn any_side(random: &mut Random) -> Task {
    let mut limits = reading();
    let limit = limits.swap_remove(random.below(limits.len()));
    if random.chance(1, 2) {
        limit.inside
    } else {
        limit.outside
    }
}

/// A table at a limit, or one whose split is at one side of a limit.
pub fn any_table(random: &mut Random) -> Task {
    let mut tables: Vec<Task> = reading().into_iter().map(|limit| limit.inside).collect();
    tables.extend(
        splitting()
            .into_iter()
            .flat_map(|limit| [limit.inside, limit.outside]),
    );
    tables.swap_remove(random.below(tables.len()))
}

/// An atom whose arguments count down, from the highest less the number given.
fn atom_from_the_top<Argument: Copy + Default + From<u16>>(
    predicate: usize,
    highest: usize,
    number: usize,
) -> Atom<Argument> {
    let arguments: [Argument; 4] = std::array::from_fn(|place| {
        let below = (number + place) % (highest + 1);
        Argument::from((highest - below) as u16)
    });
    Atom::new(predicate as u16, &arguments)
}

/// The pair whose text is the longest, both of its numbers having two digits.
const LONGEST_PAIR: Pair = Pair {
    lower: ParameterNumber(10),
    higher: ParameterNumber(11),
};

/// A task at every limit at once but those of a schema's atoms and parts; its
/// text is as long as texts get, or nearly.
pub fn largest() -> Task {
    let schema = |number: usize| Schema {
        parameters: 12,
        pairs: vec![LONGEST_PAIR],
        atoms: (0..5)
            .map(|atom| precondition(atom, atom_from_the_top(399 - number % 200, 11, 2 * atom)))
            .collect(),
    };
    let ground = |count: usize| {
        let mut atoms: Vec<Atom<ObjectNumber>> = (0..count)
            .map(|number| atom_from_the_top(399, 999, number))
            .collect();
        atoms.sort();
        atoms
    };
    Task {
        objects: 1000,
        arities: vec![4; 400],
        schemas: (0..200).map(schema).collect(),
        initial: ground(500),
        goal: ground(100),
    }
}

/// How many bytes the PDDL of a task has at most: 66,672 of the domain, of which
/// the requirements have 58 and an action up to 288, and 21,156 of the problem.
pub const LONGEST_PDDL: usize = 87_828;

/// The task whose PDDL is the longest: its atoms are deletes, five for each
/// schema, with each parameter of one digit once and else those of two; and each
/// schema has a pair.
pub fn longest_pddl() -> Task {
    let delete = |pair: u16| SchemaAtom {
        role: Role::Delete,
        part: PartNumber(0),
        atom: Atom::new(
            MAX_PREDICATES as u16 - 1,
            &[2 * pair, 2 * pair + 1, 10, 11].map(ParameterNumber),
        ),
    };
    let schema = Schema {
        parameters: MAX_PARAMETERS as u16,
        pairs: vec![LONGEST_PAIR],
        atoms: (0..5).map(delete).collect(),
    };
    Task {
        schemas: vec![schema; MAX_SCHEMAS],
        ..largest()
    }
}
