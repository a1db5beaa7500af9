//! Document 01, "Text form": the reader and the writer of tasks and plans, with
//! the `differ` lines of document 02's note 4.

use std::fmt;

use crate::answer::{Answer, Place, Reason, Refusal};
use crate::run::Step;
use crate::table::{
    used_arguments, Atom, GroundAtom, LiftedAtom, ObjectNumber, Pair, ParameterNumber, PartNumber,
    Role, Schema, SchemaAtom, Task, MAX_ARITY, MAX_ATOMS_OF_SCHEMA, MAX_GOAL, MAX_INITIAL,
    MAX_OBJECTS, MAX_PAIRS, MAX_PARAMETERS, MAX_PARTS, MAX_PREDICATES, MAX_SCHEMAS,
    MAX_SCHEMA_ATOMS,
};

/// "At most 100 `step=` lines."
pub const MAX_PLAN_STEPS: usize = 100;

const ROLE_KEYS: [(Role, &str); 3] = [
    (Role::Precondition, "pre"),
    (Role::Add, "add"),
    (Role::Delete, "del"),
];

/// A number of 1 to 5 digits, judged by value where it stands.
pub(crate) type Number = u32;

/// A head and its list as they stand in a line: "predicate, colon, arguments"
/// or "schema, colon, objects".
struct Headed {
    head: Number,
    list: Vec<Number>,
}

impl Headed {
    /// The head as an index below `limit`, and the list as words below
    /// `bound`; `None` where a number passes its limit.
    fn within(&self, limit: usize, bound: u16) -> Option<(usize, Vec<u16>)> {
        let words = self.list.iter().map(|&number| word_below(number, bound));
        let head = self.head as usize;
        (head < limit).then_some((head, words.collect::<Option<_>>()?))
    }
}

fn word_below(number: Number, bound: u16) -> Option<u16> {
    u16::try_from(number).ok().filter(|word| *word < bound)
}

/// "Numbers have 1 to 5 digits, no leading 0."
pub(crate) fn parse_number(body: &[u8]) -> Option<Number> {
    let in_form = (1..=5).contains(&body.len())
        && body.iter().all(u8::is_ascii_digit)
        && (body[0] != b'0' || body.len() == 1);
    in_form.then(|| {
        body.iter()
            .fold(0, |number, digit| 10 * number + Number::from(digit - b'0'))
    })
}

/// "Commas between."
fn parse_list(body: &[u8]) -> Option<Vec<Number>> {
    body.split(|&byte| byte == b',').map(parse_number).collect()
}

/// "Argument and part lists may be empty in form."
fn parse_list_or_empty(body: &[u8]) -> Option<Vec<Number>> {
    if body.is_empty() {
        Some(Vec::new())
    } else {
        parse_list(body)
    }
}

/// "Two parameters (3 unless two numbers)."
fn parse_two(body: &[u8]) -> Option<[Number; 2]> {
    parse_list(body)?.try_into().ok()
}

fn parse_headed(body: &[u8]) -> Option<Headed> {
    let colon = body.iter().position(|&byte| byte == b':')?;
    Some(Headed {
        head: parse_number(&body[..colon])?,
        list: parse_list_or_empty(&body[colon + 1..])?,
    })
}

/// The place in a text: the bytes not yet taken and the number of the line
/// that was taken last.
struct Cursor<'a> {
    rest: &'a [u8],
    line: u64,
}

impl<'a> Cursor<'a> {
    fn new(text: &'a [u8]) -> Self {
        Cursor {
            rest: text,
            line: 0,
        }
    }

    fn refusal(&self, reason: Reason) -> Refusal {
        Refusal::new(reason, Place::Line(self.line))
    }

    fn require(&self, holds: bool, reason: Reason) -> Answer<()> {
        holds.then_some(()).ok_or(self.refusal(reason))
    }

    /// Whether the next line begins with this key and "=".
    fn at(&self, key: &str) -> bool {
        self.rest
            .strip_prefix(key.as_bytes())
            .is_some_and(|rest| rest.starts_with(b"="))
    }

    /// Takes the next line, which must be "a key, =, a body and byte 10", and
    /// its body parsed; else refusal 3 at that line.
    fn take<Body>(
        &mut self,
        key: &str,
        parse: impl FnOnce(&'a [u8]) -> Option<Body>,
    ) -> Answer<Body> {
        self.line += 1;
        let out_of_form = self.refusal(Reason::LineOutOfForm);
        let end = self.rest.iter().position(|&byte| byte == b'\n');
        let end = end.filter(|_| self.at(key)).ok_or(out_of_form)?;
        let body = &self.rest[key.len() + 1..end];
        self.rest = &self.rest[end + 1..];
        parse(body).ok_or(out_of_form)
    }

    /// Takes a `task=1` or `end=1` line.
    fn take_mark(&mut self, key: &str) -> Answer<()> {
        self.take(key, |body| (body == b"1").then_some(()))
    }

    /// Takes `end=1`; text left over is refusal 3 at the line after.
    fn take_end(&mut self) -> Answer<()> {
        self.take_mark("end")?;
        if self.rest.is_empty() {
            return Ok(());
        }
        self.line += 1;
        Err(self.refusal(Reason::LineOutOfForm))
    }
}

/// Reads a task; refusals 3 to 8, 19 and 21, "lines in file order, within a
/// line by number", 21 right after 4 and 19 between 5 and 6.
pub fn read_task(text: &[u8]) -> Answer<Task> {
    let mut cursor = Cursor::new(text);
    cursor.take_mark("task")?;
    let objects = read_objects(&mut cursor)?;
    let mut task = Task {
        objects,
        arities: read_arities(&mut cursor)?,
        schemas: Vec::new(),
        initial: Vec::new(),
        goal: Vec::new(),
    };
    while cursor.at("schema") {
        let schema = read_schema(&mut cursor, &task)?;
        task.schemas.push(schema);
    }
    task.initial = read_ground_atoms(&mut cursor, &task, "init", MAX_INITIAL)?;
    task.goal = read_ground_atoms(&mut cursor, &task, "goal", MAX_GOAL)?;
    cursor.take_end()?;
    Ok(task)
}

fn read_objects(cursor: &mut Cursor) -> Answer<u16> {
    let objects = cursor.take("objects", parse_number)?;
    word_below(objects, MAX_OBJECTS as u16 + 1)
        .filter(|objects| *objects > 0)
        .ok_or(cursor.refusal(Reason::OutsideLimits))
}

fn read_arities(cursor: &mut Cursor) -> Answer<Vec<u16>> {
    let arities = cursor.take("arity", parse_list)?;
    cursor.require(arities.len() <= MAX_PREDICATES, Reason::OutsideLimits)?;
    arities
        .into_iter()
        .map(|arity| word_below(arity, MAX_ARITY as u16 + 1))
        .collect::<Option<_>>()
        .ok_or(cursor.refusal(Reason::OutsideLimits))
}

/// Reads a schema behind those that the task has.
fn read_schema(cursor: &mut Cursor, task: &Task) -> Answer<Schema> {
    let parameters = cursor.take("schema", parse_number)?;
    let parameters = word_below(parameters, MAX_PARAMETERS as u16 + 1)
        .filter(|_| task.schemas.len() < MAX_SCHEMAS)
        .ok_or(cursor.refusal(Reason::OutsideLimits))?;
    let mut schema = Schema {
        parameters,
        pairs: Vec::new(),
        atoms: Vec::new(),
    };
    read_pairs(cursor, task, &mut schema)?;
    let room = MAX_SCHEMA_ATOMS - task.schema_atoms();
    for (role, key) in ROLE_KEYS {
        while cursor.at(key) {
            let headed = cursor.take(key, parse_headed)?;
            let room = room.min(MAX_ATOMS_OF_SCHEMA);
            cursor.require(schema.atoms.len() < room, Reason::OutsideLimits)?;
            let atom: LiftedAtom = atom_of(&headed, &task.arities, parameters)
                .ok_or(cursor.refusal(Reason::NotOfTask))?;
            cursor.require(!schema.holds(role, &atom), Reason::NotAscending)?;
            schema.atoms.push(SchemaAtom {
                role,
                part: PartNumber(0),
                atom,
            });
        }
    }
    read_parts(cursor, task, &mut schema)?;
    Ok(schema)
}

/// Refusals 21, "at the 201st such line" of the file, and 19, "at a `differ`
/// line that names a parameter too high, or whose pair or place doesn't ascend".
fn read_pairs(cursor: &mut Cursor, task: &Task, schema: &mut Schema) -> Answer<()> {
    let room = MAX_PAIRS - task.pairs();
    while cursor.at("differ") {
        let numbers = cursor.take("differ", parse_two)?;
        cursor.require(schema.pairs.len() < room, Reason::TooManyPairs)?;
        let pair = pair_of(numbers, schema).ok_or(cursor.refusal(Reason::BadPair))?;
        schema.pairs.push(pair);
    }
    Ok(())
}

/// The pair of two numbers, if the schema takes it behind its others.
fn pair_of(numbers: [Number; 2], schema: &Schema) -> Option<Pair> {
    let [lower, higher] = numbers.map(|number| word_below(number, schema.parameters));
    let pair = Pair {
        lower: ParameterNumber(lower?),
        higher: ParameterNumber(higher?),
    };
    schema.takes_pair(&pair).then_some(pair)
}

/// Refusal 5: "predicate unknown, wrong number of arguments, argument too
/// high".
fn atom_of<Argument: Copy + Default + From<u16>>(
    headed: &Headed,
    arities: &[u16],
    bound: u16,
) -> Option<Atom<Argument>> {
    let (predicate, words) = headed.within(arities.len(), bound)?;
    let arguments: Vec<Argument> = words.into_iter().map(Into::into).collect();
    (arguments.len() == usize::from(arities[predicate]))
        .then(|| Atom::new(predicate as u16, &arguments))
}

/// Refusals 7, "schema without atoms, or parameter in none", and 8, "wrong
/// length, part 16 or more, a gap".
fn read_parts(cursor: &mut Cursor, task: &Task, schema: &mut Schema) -> Answer<()> {
    let parts = cursor.take("part", parse_list_or_empty)?;
    let complete = !schema.atoms.is_empty() && schema.uses_every_parameter(&task.arities);
    cursor.require(complete, Reason::SchemaIncomplete)?;
    cursor.require(parts.len() == schema.atoms.len(), Reason::BadPartition)?;
    for (atom, part) in schema.atoms.iter_mut().zip(parts) {
        let part = word_below(part, MAX_PARTS as u16);
        atom.part = PartNumber(part.ok_or(cursor.refusal(Reason::BadPartition))?);
    }
    cursor.require(schema.part_count().is_some(), Reason::BadPartition)
}

fn read_ground_atoms(
    cursor: &mut Cursor,
    task: &Task,
    key: &str,
    limit: usize,
) -> Answer<Vec<GroundAtom>> {
    let mut atoms: Vec<GroundAtom> = Vec::new();
    while cursor.at(key) {
        let headed = cursor.take(key, parse_headed)?;
        cursor.require(atoms.len() < limit, Reason::OutsideLimits)?;
        let atom = atom_of(&headed, &task.arities, task.objects)
            .ok_or(cursor.refusal(Reason::NotOfTask))?;
        let ascends = atoms.last().is_none_or(|last| *last < atom);
        cursor.require(ascends, Reason::NotAscending)?;
        atoms.push(atom);
    }
    Ok(atoms)
}

/// Reads a plan: "a line out of form is 3, a 101st step 4, a wrong schema,
/// object or number of objects 5". Pairs aren't judged here: a step with equal
/// objects at one is refused by unfolding.
pub fn read_plan(text: &[u8], task: &Task) -> Answer<Vec<Step>> {
    let mut cursor = Cursor::new(text);
    let mut steps = Vec::new();
    while cursor.at("step") {
        let headed = cursor.take("step", parse_headed)?;
        cursor.require(steps.len() < MAX_PLAN_STEPS, Reason::OutsideLimits)?;
        let step = step_of(&headed, task).ok_or(cursor.refusal(Reason::NotOfTask))?;
        steps.push(step);
    }
    cursor.take_end()?;
    Ok(steps)
}

fn step_of(headed: &Headed, task: &Task) -> Option<Step> {
    let (schema, words) = headed.within(task.schemas.len(), task.objects)?;
    let objects: Vec<ObjectNumber> = words.into_iter().map(ObjectNumber).collect();
    (objects.len() == usize::from(task.schemas[schema].parameters))
        .then(|| Step::new(schema as u16, &objects))
}

/// Numbers with commas between.
struct List<'a, Item>(&'a [Item]);

impl<Item: Copy + Into<u16>> fmt::Display for List<'_, Item> {
    fn fmt(&self, f: &mut fmt::Formatter) -> fmt::Result {
        for (index, &item) in self.0.iter().enumerate() {
            let comma = if index > 0 { "," } else { "" };
            write!(f, "{comma}{}", item.into())?;
        }
        Ok(())
    }
}

/// The text of a task.
impl fmt::Display for Task {
    fn fmt(&self, f: &mut fmt::Formatter) -> fmt::Result {
        writeln!(f, "task=1\nobjects={}", self.objects)?;
        writeln!(f, "arity={}", List(&self.arities))?;
        for schema in &self.schemas {
            writeln!(f, "schema={}", schema.parameters)?;
            for Pair { lower, higher } in &schema.pairs {
                writeln!(f, "differ={}", List(&[*lower, *higher]))?;
            }
            for (role, key) in ROLE_KEYS {
                for SchemaAtom { atom, .. } in schema.atoms_of(role) {
                    let arguments: &[ParameterNumber] = used_arguments(atom, &self.arities);
                    writeln!(f, "{key}={}:{}", atom.predicate, List(arguments))?;
                }
            }
            let parts: Vec<PartNumber> = schema.atoms.iter().map(|atom| atom.part).collect();
            writeln!(f, "part={}", List(&parts))?;
        }
        for (key, atoms) in [("init", &self.initial), ("goal", &self.goal)] {
            for atom in atoms {
                let arguments = used_arguments(atom, &self.arities);
                writeln!(f, "{key}={}:{}", atom.predicate, List(arguments))?;
            }
        }
        writeln!(f, "end=1")
    }
}

/// The text of a plan: a list of steps of a task.
pub struct Plan<'a> {
    pub task: &'a Task,
    pub steps: &'a [Step],
}

impl fmt::Display for Plan<'_> {
    fn fmt(&self, f: &mut fmt::Formatter) -> fmt::Result {
        for step in self.steps {
            let parameters = self.task.schemas[usize::from(step.schema)].parameters;
            let objects = &step.objects[..usize::from(parameters)];
            writeln!(f, "step={}:{}", step.schema, List(objects))?;
        }
        writeln!(f, "end=1")
    }
}
