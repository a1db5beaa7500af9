//! Document 01, "Task table": the data of a task, its layout in words, and
//! what makes words such a table; with the block of pairs that document 02's
//! note 4, "Parameters that must differ", gives it.

/// "A table then takes 14,007 words."
pub const TABLE_WORDS: usize = 14_007;
pub const MAX_OBJECTS: usize = 1000;
pub const MAX_PREDICATES: usize = 400;
pub const MAX_SCHEMAS: usize = 200;
pub const MAX_SCHEMA_ATOMS: usize = 1000;
pub const MAX_INITIAL: usize = 500;
pub const MAX_GOAL: usize = 100;
pub const MAX_ARITY: usize = 4;
pub const MAX_PARAMETERS: usize = 12;
pub const MAX_ATOMS_OF_SCHEMA: usize = 64;
pub const MAX_PARTS: usize = 16;
pub const MAX_PAIRS: usize = 200;

/// The counts that begin a table, that of its pairs last.
pub const HEADER_WORDS: usize = 7;
/// "Three words per pair (schema, lower, higher)."
pub const PAIR_WORDS: usize = 3;
const ATOM_WORDS: usize = 8;

/// Defines the tuple structs of "a parameter number, an object number and a
/// part number each count from 0, and one never stands for another".
macro_rules! numbers {
    ($($name:ident)*) => {$(
        #[derive(Clone, Copy, Debug, Default, PartialEq, Eq, PartialOrd, Ord, Hash)]
        pub struct $name(pub u16);

        impl $name {
            pub fn index(self) -> usize {
                usize::from(self.0)
            }
        }

        impl From<u16> for $name {
            fn from(word: u16) -> Self {
                $name(word)
            }
        }

        impl From<$name> for u16 {
            fn from(number: $name) -> u16 {
                number.0
            }
        }
    )*};
}

numbers! { ObjectNumber ParameterNumber PartNumber }

/// A predicate and its arguments; those behind its arity are 0. The derived
/// order is "by predicate and then arguments".
#[derive(Clone, Copy, Debug, PartialEq, Eq, PartialOrd, Ord, Hash)]
pub struct Atom<Argument> {
    pub predicate: u16,
    pub arguments: [Argument; MAX_ARITY],
}

pub type LiftedAtom = Atom<ParameterNumber>;
pub type GroundAtom = Atom<ObjectNumber>;

impl<Argument: Copy + Default> Atom<Argument> {
    /// An atom of the first four arguments given, filled up with 0.
    pub fn new(predicate: u16, given: &[Argument]) -> Self {
        let mut arguments = [Argument::default(); MAX_ARITY];
        for (argument, value) in arguments.iter_mut().zip(given) {
            *argument = *value;
        }
        Atom {
            predicate,
            arguments,
        }
    }
}

impl<Argument: Copy + Default + From<u16> + Into<u16>> Atom<Argument> {
    /// The atom that a predicate word and four argument words hold, if it is
    /// one of these arities, its arguments lie below `bound` and its unused
    /// words are 0.
    pub fn from_words(words: &[u16], arities: &[u16], bound: u16) -> Option<Self> {
        let (&predicate, arguments) = words.split_first()?;
        let arity = *arities.get(usize::from(predicate))?;
        let (used, unused) = arguments.split_at_checked(usize::from(arity))?;
        let fits = used.iter().all(|&word| word < bound) && unused.iter().all(|&word| word == 0);
        fits.then(|| Atom {
            predicate,
            arguments: std::array::from_fn(|i| arguments[i].into()),
        })
    }

    /// Predicate and four arguments.
    pub fn words(&self) -> [u16; 1 + MAX_ARITY] {
        let [a, b, c, d] = self.arguments.map(Into::into);
        [self.predicate, a, b, c, d]
    }
}

/// The roles of a schema's atoms, in file order.
#[derive(Clone, Copy, Debug, PartialEq, Eq, PartialOrd, Ord)]
pub enum Role {
    Precondition,
    Add,
    Delete,
}

impl Role {
    pub const ALL: [Role; 3] = [Role::Precondition, Role::Add, Role::Delete];

    fn from_word(word: u16) -> Option<Role> {
        Role::ALL.get(usize::from(word)).copied()
    }
}

const INITIAL_ROLE: u16 = 3;
const GOAL_ROLE: u16 = 4;

#[derive(Clone, Copy, Debug, PartialEq, Eq)]
pub struct SchemaAtom {
    pub role: Role,
    pub part: PartNumber,
    pub atom: LiftedAtom,
}

/// Two parameters that must differ, "the lower first". The derived order is
/// that in which lines and records of pairs ascend.
#[derive(Clone, Copy, Debug, PartialEq, Eq, PartialOrd, Ord)]
pub struct Pair {
    pub lower: ParameterNumber,
    pub higher: ParameterNumber,
}

impl Pair {
    /// Whether the two are these parameters, "either way round".
    pub fn is_of(&self, one: ParameterNumber, other: ParameterNumber) -> bool {
        (self.lower, self.higher) == (one.min(other), one.max(other))
    }

    /// Whether these objects, one for each parameter, differ at the pair.
    fn differs_in(&self, objects: &[ObjectNumber]) -> bool {
        objects[self.lower.index()] != objects[self.higher.index()]
    }

    /// Whether these parameters have both.
    pub fn is_within(&self, parameters: &[ParameterNumber]) -> bool {
        parameters.contains(&self.lower) && parameters.contains(&self.higher)
    }
}

#[derive(Clone, Debug, PartialEq, Eq)]
pub struct Schema {
    pub parameters: u16,
    /// The declared pairs, strictly ascending.
    pub pairs: Vec<Pair>,
    /// "Preconditions first, then adds, then deletes."
    pub atoms: Vec<SchemaAtom>,
}

impl Schema {
    /// Whether a pair may stand behind the schema's others: its lower parameter
    /// first, none too high, and behind the last one.
    pub fn takes_pair(&self, pair: &Pair) -> bool {
        pair.lower < pair.higher
            && pair.higher.0 < self.parameters
            && self.pairs.last().is_none_or(|last| last < pair)
    }

    /// Whether the objects, one for each parameter, differ at every pair.
    pub fn keeps_apart(&self, objects: &[ObjectNumber]) -> bool {
        self.pairs.iter().all(|pair| pair.differs_in(objects))
    }

    pub fn atoms_of(&self, role: Role) -> impl Iterator<Item = &SchemaAtom> {
        self.atoms.iter().filter(move |atom| atom.role == role)
    }

    /// "It has 1 to 16 parts, numbered without a gap": how many, or `None`
    /// where the numbers are none such.
    pub fn part_count(&self) -> Option<usize> {
        let mut used = [false; MAX_PARTS];
        for atom in &self.atoms {
            *used.get_mut(atom.part.index())? = true;
        }
        let count = used.iter().take_while(|used| **used).count();
        let gap = used[count..].contains(&true);
        (count > 0 && !gap).then_some(count)
    }

    /// "No atom twice in one role", whatever the parts.
    pub fn holds(&self, role: Role, atom: &LiftedAtom) -> bool {
        self.atoms_of(role).any(|other| other.atom == *atom)
    }

    /// "Every parameter stands in some atom."
    pub fn uses_every_parameter(&self, arities: &[u16]) -> bool {
        let mut used = [false; MAX_PARAMETERS];
        for atom in &self.atoms {
            for parameter in used_arguments(&atom.atom, arities) {
                used[parameter.index()] = true;
            }
        }
        used[..usize::from(self.parameters)]
            .iter()
            .all(|used| *used)
    }

    fn is_complete(&self, arities: &[u16]) -> bool {
        (1..=MAX_ATOMS_OF_SCHEMA).contains(&self.atoms.len())
            && self.uses_every_parameter(arities)
            && self.part_count().is_some()
    }
}

#[derive(Clone, Debug, PartialEq, Eq)]
pub struct Task {
    pub objects: u16,
    pub arities: Vec<u16>,
    pub schemas: Vec<Schema>,
    pub initial: Vec<GroundAtom>,
    pub goal: Vec<GroundAtom>,
}

/// The arguments of an atom without the unused ones.
pub fn used_arguments<'a, Argument>(atom: &'a Atom<Argument>, arities: &[u16]) -> &'a [Argument] {
    let arity = usize::from(arities[usize::from(atom.predicate)]);
    &atom.arguments[..arity.min(MAX_ARITY)]
}

/// The counts that begin a table.
struct Counts {
    objects: usize,
    predicates: usize,
    schemas: usize,
    schema_atoms: usize,
    initial: usize,
    goal: usize,
    pairs: usize,
}

impl Counts {
    fn from_words(words: &[u16]) -> Counts {
        let count = |index: usize| usize::from(words[index]);
        Counts {
            objects: count(0),
            predicates: count(1),
            schemas: count(2),
            schema_atoms: count(3),
            initial: count(4),
            goal: count(5),
            pairs: count(6),
        }
    }

    fn of(task: &Task) -> Counts {
        Counts {
            objects: usize::from(task.objects),
            predicates: task.arities.len(),
            schemas: task.schemas.len(),
            schema_atoms: task.schema_atoms(),
            initial: task.initial.len(),
            goal: task.goal.len(),
            pairs: task.pairs(),
        }
    }

    fn words(&self) -> [u16; HEADER_WORDS] {
        [
            self.objects,
            self.predicates,
            self.schemas,
            self.schema_atoms,
            self.initial,
            self.goal,
            self.pairs,
        ]
        .map(|count| count as u16)
    }

    fn are_within_limits(&self) -> bool {
        (1..=MAX_OBJECTS).contains(&self.objects)
            && (1..=MAX_PREDICATES).contains(&self.predicates)
            && self.schemas <= MAX_SCHEMAS
            && self.schema_atoms <= MAX_SCHEMA_ATOMS
            && self.initial <= MAX_INITIAL
            && self.goal <= MAX_GOAL
            && self.pairs <= MAX_PAIRS
    }
}

impl Task {
    pub fn schema_atoms(&self) -> usize {
        self.schemas.iter().map(|schema| schema.atoms.len()).sum()
    }

    /// How many pairs must differ, of all schemas.
    pub fn pairs(&self) -> usize {
        self.schemas.iter().map(|schema| schema.pairs.len()).sum()
    }

    /// Whether the task passes no limit of a table on how much there is.
    pub fn is_within_limits(&self) -> bool {
        Counts::of(self).are_within_limits()
            && self
                .schemas
                .iter()
                .all(|schema| schema.atoms.len() <= MAX_ATOMS_OF_SCHEMA)
    }

    /// The task that a table's words hold; `None` where they are no table.
    pub fn from_words(words: &[u16]) -> Option<Task> {
        let (header, rest) = words.get(..TABLE_WORDS)?.split_at(HEADER_WORDS);
        let counts = Counts::from_words(header);
        if !counts.are_within_limits() {
            return None;
        }
        let (arities, rest) = rest.split_at(counts.predicates);
        let (parameters, rest) = rest.split_at(counts.schemas);
        let (pairs, rest) = rest.split_at(PAIR_WORDS * counts.pairs);
        let (schema_atoms, rest) = rest.split_at(ATOM_WORDS * counts.schema_atoms);
        let (initial, rest) = rest.split_at(ATOM_WORDS * counts.initial);
        let (goal, zeros) = rest.split_at(ATOM_WORDS * counts.goal);
        let bits_of_rest = zeros.iter().fold(0, |bits, word| bits | word);
        if arities.iter().any(|&arity| usize::from(arity) > MAX_ARITY) || bits_of_rest != 0 {
            return None;
        }
        Some(Task {
            objects: header[0],
            arities: arities.to_vec(),
            schemas: schemas_from_words(parameters, pairs, schema_atoms, arities)?,
            initial: ground_atoms_from_words(initial, INITIAL_ROLE, arities, header[0])?,
            goal: ground_atoms_from_words(goal, GOAL_ROLE, arities, header[0])?,
        })
    }

    /// The words of the table, without the zeros that fill the rest.
    pub fn words(&self) -> Vec<u16> {
        let mut words = Counts::of(self).words().to_vec();
        words.extend(&self.arities);
        words.extend(self.schemas.iter().map(|schema| schema.parameters));
        for (number, schema) in (0..).zip(&self.schemas) {
            for Pair { lower, higher } in &schema.pairs {
                words.extend([number, lower.0, higher.0]);
            }
        }
        for (number, schema) in (0..).zip(&self.schemas) {
            for SchemaAtom { role, part, atom } in &schema.atoms {
                words.extend(atom_words(number, *role as u16, *part, atom));
            }
        }
        for (role, atoms) in [(INITIAL_ROLE, &self.initial), (GOAL_ROLE, &self.goal)] {
            for atom in atoms {
                words.extend(atom_words(0, role, PartNumber(0), atom));
            }
        }
        words
    }

    /// Fills a table: "zeros fill the rest".
    pub(crate) fn store(&self, table: &mut [u16]) {
        let words = self.words();
        let (used, rest) = table.split_at_mut(words.len());
        used.copy_from_slice(&words);
        rest.fill(0);
    }
}

/// "8 words each: schema, role, predicate, part, four arguments."
fn atom_words<Argument: Copy + Default + From<u16> + Into<u16>>(
    schema: u16,
    role: u16,
    part: PartNumber,
    atom: &Atom<Argument>,
) -> [u16; ATOM_WORDS] {
    let [predicate, a, b, c, d] = atom.words();
    [schema, role, predicate, part.0, a, b, c, d]
}

/// Predicate and arguments out of an atom's 8 words.
fn plain_words(words: &[u16]) -> [u16; 1 + MAX_ARITY] {
    [words[2], words[4], words[5], words[6], words[7]]
}

fn schemas_from_words(
    parameters: &[u16],
    pairs: &[u16],
    atoms: &[u16],
    arities: &[u16],
) -> Option<Vec<Schema>> {
    let mut schemas: Vec<Schema> = parameters
        .iter()
        .map(|&parameters| Schema {
            parameters,
            pairs: Vec::new(),
            atoms: Vec::new(),
        })
        .collect();
    if parameters
        .iter()
        .any(|&count| usize::from(count) > MAX_PARAMETERS)
    {
        return None;
    }
    push_pairs(&mut schemas, pairs)?;
    let mut last = (0, Role::Precondition);
    for words in atoms.chunks_exact(ATOM_WORDS) {
        let (number, role) = (words[0], Role::from_word(words[1])?);
        let schema = schemas.get_mut(usize::from(number))?;
        let atom = Atom::from_words(&plain_words(words), arities, schema.parameters)?;
        if (number, role) < last || schema.holds(role, &atom) {
            return None;
        }
        last = (number, role);
        schema.atoms.push(SchemaAtom {
            role,
            part: PartNumber(words[3]),
            atom,
        });
    }
    schemas
        .iter()
        .all(|schema| schema.is_complete(arities))
        .then_some(schemas)
}

/// Gives each schema its pairs, which stand "in file order"; `None` where one
/// is such as refusal 19 would turn back.
fn push_pairs(schemas: &mut [Schema], words: &[u16]) -> Option<()> {
    let mut last = 0;
    for words in words.chunks_exact(PAIR_WORDS) {
        let schema = schemas.get_mut(usize::from(words[0]))?;
        let pair = Pair {
            lower: ParameterNumber(words[1]),
            higher: ParameterNumber(words[2]),
        };
        if words[0] < last || !schema.takes_pair(&pair) {
            return None;
        }
        last = words[0];
        schema.pairs.push(pair);
    }
    Some(())
}

/// "Initial and goal atoms ascend strictly"; their schema and part are 0.
fn ground_atoms_from_words(
    words: &[u16],
    role: u16,
    arities: &[u16],
    objects: u16,
) -> Option<Vec<GroundAtom>> {
    let atoms: Vec<GroundAtom> = words
        .chunks_exact(ATOM_WORDS)
        .map(|words| {
            let fits = words[0] == 0 && words[1] == role && words[3] == 0;
            fits.then(|| Atom::from_words(&plain_words(words), arities, objects))?
        })
        .collect::<Option<_>>()?;
    atoms.is_sorted_by(|a, b| a < b).then_some(atoms)
}
