//! Document 01, "Tokens": the split of a task; with the pairs that document 02's
//! note 4 lets its parts carry.

use crate::answer::{Answer, Place, Reason, Refusal};
use crate::arcs::{arcs, order, RULES};
use crate::table::{
    used_arguments, Atom, LiftedAtom, Pair, ParameterNumber, PartNumber, Role, Schema, SchemaAtom,
    Task,
};

/// The split task, and for each original schema the parts its blocks have.
#[derive(Clone, Debug)]
pub struct Split {
    pub task: Task,
    pub blocks: Vec<Vec<BlockPart>>,
}

/// A part at its position in the order: its schema of the split, and the
/// original parameter that each of its own stands for.
#[derive(Clone, Debug)]
pub struct BlockPart {
    pub schema: u16,
    pub parameters: Vec<ParameterNumber>,
}

/// Splits, refusing by 9 ("no order complies; lowest such schema"), then by 20
/// ("with the lowest such schema, when no part has both parameters of a pair"),
/// then by 10 ("the split task passes a table limit").
pub fn split(task: &Task) -> Answer<Split> {
    let orders = (0..)
        .zip(&task.schemas)
        .map(|(number, schema)| {
            order(schema, &task.arities, &arcs(schema, &RULES))
                .ok_or(Refusal::new(Reason::NoOrder, Place::Schema(number)))
        })
        .collect::<Answer<Vec<_>>>()?;
    let split = decorate(task, &orders);
    if let Some(number) = split.schema_with_pair_in_no_part(task) {
        return Err(Refusal::new(Reason::PairInNoPart, Place::Schema(number)));
    }
    if split.task.is_within_limits() {
        Ok(split)
    } else {
        Err(Refusal::nowhere(Reason::SplitTooLarge))
    }
}

impl Split {
    /// The lowest schema of the task with a pair that no part has both
    /// parameters of.
    fn schema_with_pair_in_no_part(&self, task: &Task) -> Option<u64> {
        let carried = |block: &[BlockPart], pair: &Pair| {
            let mut parts = block.iter();
            parts.any(|part| pair.is_within(&part.parameters))
        };
        let mut schemas = (0..).zip(task.schemas.iter().zip(&self.blocks));
        let apart = schemas.find(|(_, (schema, block))| {
            let mut pairs = schema.pairs.iter();
            pairs.any(|pair| !carried(block, pair))
        });
        apart.map(|(number, _)| number)
    }
}

/// The split whose parts stand in the orders given, one for each schema.
pub fn decorate(task: &Task, orders: &[Vec<PartNumber>]) -> Split {
    let blocks = blocks(task, orders);
    let pars = par_count(&blocks);
    let procnone = task.arities.len() as u16;
    let later_parts: usize = orders.iter().map(|order| order.len() - 1).sum();
    let first_par = procnone + 1 + later_parts as u16;

    let mut arities = task.arities.clone();
    arities.resize(usize::from(first_par), 0);
    arities.resize(usize::from(first_par) + pars, 1);

    let mut schemas = Vec::new();
    let mut first_do = procnone + 1;
    for ((schema, order), block) in task.schemas.iter().zip(orders).zip(&blocks) {
        let decorator = Decorator {
            schema,
            order,
            block,
            arities: &task.arities,
            procnone,
            first_do,
            first_par,
        };
        schemas.extend((0..order.len()).map(|position| decorator.part_schema(position)));
        first_do += order.len() as u16 - 1;
    }

    let with_procnone = |atoms: &[_]| [atoms, &[Atom::new(procnone, &[])]].concat();
    Split {
        task: Task {
            objects: task.objects,
            arities,
            schemas,
            initial: with_procnone(&task.initial),
            goal: with_procnone(&task.goal),
        },
        blocks,
    }
}

/// "Each part, in order, becomes a schema whose parameters are the old ones it
/// has, ascending and renumbered."
fn blocks(task: &Task, orders: &[Vec<PartNumber>]) -> Vec<Vec<BlockPart>> {
    let mut schemas = 0..;
    task.schemas
        .iter()
        .zip(orders)
        .map(|(schema, order)| {
            order
                .iter()
                .zip(&mut schemas)
                .map(|(&part, number)| BlockPart {
                    schema: number,
                    parameters: parameters_of(schema, part, &task.arities),
                })
                .collect()
        })
        .collect()
}

fn parameters_of(schema: &Schema, part: PartNumber, arities: &[u16]) -> Vec<ParameterNumber> {
    let mut parameters: Vec<ParameterNumber> = schema
        .atoms
        .iter()
        .filter(|atom| atom.part == part)
        .flat_map(|atom| used_arguments(&atom.atom, arities))
        .copied()
        .collect();
    parameters.sort_unstable();
    parameters.dedup();
    parameters
}

/// m: "one more than the largest parameter number found in two parts of its
/// schema, or 0".
fn par_count(blocks: &[Vec<BlockPart>]) -> usize {
    blocks
        .iter()
        .flat_map(|block| {
            let parameters = block.iter().flat_map(|part| &part.parameters);
            parameters.filter(|parameter| Span::of(block, **parameter).is_shared())
        })
        .map(|parameter| parameter.index() + 1)
        .max()
        .unwrap_or(0)
}

/// The first and the last position in a block at which a parameter stands.
struct Span {
    first: usize,
    last: usize,
}

impl Span {
    /// The span of a parameter that some part of the block has.
    fn of(block: &[BlockPart], parameter: ParameterNumber) -> Span {
        let has = |part: &BlockPart| part.parameters.contains(&parameter);
        Span {
            first: block.iter().position(has).unwrap_or(0),
            last: block.iter().rposition(has).unwrap_or(0),
        }
    }

    /// "A parameter in several parts."
    fn is_shared(&self) -> bool {
        self.first < self.last
    }

    /// Its par is "added in the first of them, required in each later one,
    /// deleted in the last".
    fn has_par(&self, role: Role, position: usize) -> bool {
        self.is_shared()
            && match role {
                Role::Precondition => position > self.first,
                Role::Add => position == self.first,
                Role::Delete => position == self.last,
            }
    }
}

/// One schema on its way into the split.
struct Decorator<'a> {
    schema: &'a Schema,
    order: &'a [PartNumber],
    block: &'a [BlockPart],
    arities: &'a [u16],
    procnone: u16,
    /// The do of the part at position 1.
    first_do: u16,
    first_par: u16,
}

impl Decorator<'_> {
    /// "In each role old atoms come first, then procnone or do, then pars
    /// ascending", "all its atoms in part 0".
    fn part_schema(&self, position: usize) -> Schema {
        let parameters = &self.block[position].parameters;
        let mut atoms = Vec::new();
        for role in Role::ALL {
            let old = self.old_atoms(role, position);
            let token = self.token(role, position);
            let token = token.map(|predicate| Atom::new(predicate, &[]));
            let pars = self.pars(role, position);
            atoms.extend(old.chain(token).chain(pars).map(|atom| SchemaAtom {
                role,
                part: PartNumber(0),
                atom,
            }));
        }
        Schema {
            parameters: parameters.len() as u16,
            pairs: self.carried_pairs(position),
            atoms,
        }
    }

    /// "A part that has both parameters carries the line, renumbered."
    fn carried_pairs(&self, position: usize) -> Vec<Pair> {
        let parameters = &self.block[position].parameters;
        let pairs = self.schema.pairs.iter();
        pairs
            .filter(|pair| pair.is_within(parameters))
            .map(|pair| Pair {
                lower: self.renumbered(pair.lower, position),
                higher: self.renumbered(pair.higher, position),
            })
            .collect()
    }

    fn old_atoms(&self, role: Role, position: usize) -> impl Iterator<Item = LiftedAtom> + '_ {
        let part = self.order[position];
        let atoms = self.schema.atoms_of(role);
        atoms
            .filter(move |atom| atom.part == part)
            .map(move |atom| {
                let mut atom = atom.atom;
                let arity = used_arguments(&atom, self.arities).len();
                for argument in &mut atom.arguments[..arity] {
                    *argument = self.renumbered(*argument, position);
                }
                atom
            })
    }

    /// The number that a parameter of the part has in the part's schema.
    fn renumbered(&self, parameter: ParameterNumber, position: usize) -> ParameterNumber {
        let parameters = &self.block[position].parameters;
        ParameterNumber(parameters.partition_point(|&other| other < parameter) as u16)
    }

    /// The token that lets the part at a position begin: procnone for the
    /// first and, behind the last, for the next block; else the part's do.
    fn token_before(&self, position: usize) -> u16 {
        match position % self.order.len() {
            0 => self.procnone,
            later => self.first_do + later as u16 - 1,
        }
    }

    /// "With one part, procnone joins the preconditions only"; otherwise a
    /// part requires and deletes its own token and adds the next one's.
    fn token(&self, role: Role, position: usize) -> Option<u16> {
        match role {
            Role::Precondition => Some(self.token_before(position)),
            _ if self.order.len() == 1 => None,
            Role::Delete => Some(self.token_before(position)),
            Role::Add => Some(self.token_before(position + 1)),
        }
    }

    fn pars(&self, role: Role, position: usize) -> impl Iterator<Item = LiftedAtom> + '_ {
        let parameters = self.block[position].parameters.iter();
        parameters
            .filter(move |parameter| Span::of(self.block, **parameter).has_par(role, position))
            .map(move |parameter| {
                let argument = self.renumbered(*parameter, position);
                Atom::new(self.first_par + parameter.0, &[argument])
            })
    }
}
