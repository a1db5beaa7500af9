//! Document 02, note 1: the writer of "a domain and a problem in the STRIPS
//! fragment" of PDDL, "without partitions"; and note 4: it "states each pair as
//! a `(not (= ..))` precondition after the atoms".

use std::fmt;

use crate::table::{
    used_arguments, Atom, ObjectNumber, Pair, ParameterNumber, Role, Schema, SchemaAtom, Task,
};

/// Both defines of a task, "and byte 10 follows each".
pub struct Pddl<'a>(pub &'a Task);

impl fmt::Display for Pddl<'_> {
    fn fmt(&self, f: &mut fmt::Formatter) -> fmt::Result {
        let Pddl(task) = self;
        write_domain(f, task)?;
        f.write_str("\n")?;
        write_problem(f, task)?;
        f.write_str("\n")
    }
}

fn write_domain(f: &mut fmt::Formatter, task: &Task) -> fmt::Result {
    f.write_str("(define (domain d)")?;
    if task.pairs() > 0 {
        f.write_str(" (:requirements :strips :equality :negative-preconditions)")?;
    }
    f.write_str(" (:predicates")?;
    for (predicate, &arity) in (0..).zip(&task.arities) {
        write_atom(f, predicate, (0..arity).map(ParameterNumber))?;
    }
    f.write_str(")")?;
    for (number, schema) in task.schemas.iter().enumerate() {
        write!(f, " (:action a{number}")?;
        write_action(f, schema, &task.arities)?;
        f.write_str(")")?;
    }
    f.write_str(")")
}

fn write_action(f: &mut fmt::Formatter, schema: &Schema, arities: &[u16]) -> fmt::Result {
    f.write_str(" :parameters (")?;
    for parameter in 0..schema.parameters {
        let space = if parameter > 0 { " " } else { "" };
        write!(f, "{space}{VARIABLE}{parameter}")?;
    }
    f.write_str(") :precondition (and")?;
    for SchemaAtom { atom, .. } in schema.atoms_of(Role::Precondition) {
        write_used(f, atom, arities)?;
    }
    for Pair { lower, higher } in &schema.pairs {
        write!(f, " (not (= {VARIABLE}{} {VARIABLE}{}))", lower.0, higher.0)?;
    }
    f.write_str(") :effect (and")?;
    for SchemaAtom { atom, .. } in schema.atoms_of(Role::Add) {
        write_used(f, atom, arities)?;
    }
    for SchemaAtom { atom, .. } in schema.atoms_of(Role::Delete) {
        f.write_str(" (not")?;
        write_used(f, atom, arities)?;
        f.write_str(")")?;
    }
    f.write_str(")")
}

fn write_problem(f: &mut fmt::Formatter, task: &Task) -> fmt::Result {
    f.write_str("(define (problem q) (:domain d) (:objects")?;
    for object in 0..task.objects {
        write!(f, " {}{object}", ObjectNumber::LETTERS)?;
    }
    f.write_str(") (:init")?;
    for atom in &task.initial {
        write_used(f, atom, &task.arities)?;
    }
    f.write_str(") (:goal (and")?;
    for atom in &task.goal {
        write_used(f, atom, &task.arities)?;
    }
    f.write_str(")))")
}

/// What stands before a parameter's number.
const VARIABLE: &str = ParameterNumber::LETTERS;

/// "Objects o0, o1 and on, .. parameters ?x0 and on": what stands before an
/// argument's number.
trait Named: Copy + Into<u16> {
    const LETTERS: &'static str;
}

impl Named for ParameterNumber {
    const LETTERS: &'static str = "?x";
}

impl Named for ObjectNumber {
    const LETTERS: &'static str = "o";
}

fn write_used<Argument: Named>(
    f: &mut fmt::Formatter,
    atom: &Atom<Argument>,
    arities: &[u16],
) -> fmt::Result {
    let arguments = used_arguments(atom, arities).iter().copied();
    write_atom(f, atom.predicate, arguments)
}

/// An atom, and before it the space that parts it from its neighbour.
fn write_atom<Argument: Named>(
    f: &mut fmt::Formatter,
    predicate: u16,
    arguments: impl Iterator<Item = Argument>,
) -> fmt::Result {
    write!(f, " (p{predicate}")?;
    for argument in arguments {
        write!(f, " {}{}", Argument::LETTERS, argument.into())?;
    }
    f.write_str(")")
}
