//! A reader of PDDL's STRIPS fragment, and of preconditions that two parameters
//! differ, from the language's grammar and not from the writer: names are those
//! of their declarations, whatever they look like.
//! Whether the task read is one of a table is not judged here.

use std::collections::HashMap;
use std::{mem, slice};

use crate::table::{
    Atom, GroundAtom, Pair, ParameterNumber, PartNumber, Role, Schema, SchemaAtom, Task, MAX_ARITY,
};

/// Why a text is not read.
#[derive(Clone, Debug, PartialEq, Eq)]
pub enum Fault {
    /// Brackets that don't match, or what the grammar doesn't have there.
    OutOfForm,
    Undeclared(String),
    /// A name declared twice.
    Repeated(String),
    /// Another number of arguments than the predicate's.
    WrongArity(String),
    /// The problem's domain, where it isn't the one before it.
    OtherDomain(String),
    /// What the text has, though its requirements don't ask for it.
    NotRequired(&'static str),
    /// More than a task can hold.
    TooLarge,
}

type Read<Value> = Result<Value, Fault>;

/// The task of a domain and a problem, every schema atom in part 0. Atoms and
/// pairs stand in the order of the text, a schema's adds before its deletes.
pub fn read_pddl(text: &str) -> Read<Task> {
    let text = text.to_ascii_lowercase();
    let defines = expressions(&text)?;
    let [domain, problem] = defines.as_slice() else {
        return Err(Fault::OutOfForm);
    };
    read_problem(problem, read_domain(domain)?)
}

/// What a text is made of; PDDL doesn't tell upper case from lower, so words
/// are in lower case here.
enum Expression<'a> {
    Word(&'a str),
    List(Vec<Expression<'a>>),
}

use Expression::{List, Word};

/// The expressions that a text has one after another.
fn expressions(text: &str) -> Read<Vec<Expression<'_>>> {
    let mut outer = Vec::new();
    let mut here = Vec::new();
    for token in tokens(text) {
        match token {
            "(" => outer.push(mem::take(&mut here)),
            ")" => {
                let around = outer.pop().ok_or(Fault::OutOfForm)?;
                let list = mem::replace(&mut here, around);
                here.push(List(list));
            }
            word => here.push(Word(word)),
        }
    }
    outer.is_empty().then_some(here).ok_or(Fault::OutOfForm)
}

/// Brackets and words; a comment goes from `;` to the end of its line.
fn tokens(text: &str) -> impl Iterator<Item = &str> {
    text.lines()
        .map(|line| line.split_once(';').map_or(line, |(before, _)| before))
        .flat_map(str::split_ascii_whitespace)
        .flat_map(|chunk| chunk.split_inclusive(['(', ')']))
        .flat_map(|piece| {
            let word = piece.trim_end_matches(['(', ')']);
            [word, &piece[word.len()..]]
        })
        .filter(|token| !token.is_empty())
}

impl<'a> Expression<'a> {
    fn word(&self) -> Read<&'a str> {
        match self {
            Word(word) => Ok(word),
            List(_) => Err(Fault::OutOfForm),
        }
    }

    fn list(&self) -> Read<&[Expression<'a>]> {
        match self {
            List(items) => Ok(items),
            Word(_) => Err(Fault::OutOfForm),
        }
    }

    fn name(&self) -> Read<&'a str> {
        let word = self.word()?;
        is_name(word).then_some(word).ok_or(Fault::OutOfForm)
    }

    /// A variable, with its `?`.
    fn variable(&self) -> Read<&'a str> {
        let word = self.word()?;
        let name = word.strip_prefix('?').filter(|name| is_name(name));
        name.map(|_| word).ok_or(Fault::OutOfForm)
    }

    /// The name that a list begins with, and the rest.
    fn headed(&self) -> Read<(&'a str, &[Expression<'a>])> {
        let (head, rest) = self.list()?.split_first().ok_or(Fault::OutOfForm)?;
        Ok((head.name()?, rest))
    }

    /// What a list has behind the keyword that it begins with.
    fn behind(&self, keyword: &str) -> Read<&[Expression<'a>]> {
        match self.list()? {
            [Word(word), rest @ ..] if *word == keyword => Ok(rest),
            _ => Err(Fault::OutOfForm),
        }
    }

    /// The literals of a condition or an effect: none in `()`, those of an
    /// `(and ..)`, or the one that it is.
    fn literals(&self) -> Read<&[Expression<'a>]> {
        match self.list()? {
            [] => Ok(&[]),
            [Word("and"), literals @ ..] => Ok(literals),
            _ => Ok(slice::from_ref(self)),
        }
    }
}

/// A letter, then letters, digits, `-` and `_`.
fn is_name(word: &str) -> bool {
    word.starts_with(|first: char| first.is_ascii_alphabetic())
        && word
            .chars()
            .all(|char| char.is_ascii_alphanumeric() || matches!(char, '-' | '_'))
}

/// Declared names, numbered in the order of their declarations.
#[derive(Default)]
struct Names<'a>(HashMap<&'a str, u16>);

impl<'a> Names<'a> {
    fn declared(names: impl Iterator<Item = Read<&'a str>>) -> Read<Names<'a>> {
        let mut declared = Names::default();
        for name in names {
            declared.declare(name?)?;
        }
        Ok(declared)
    }

    fn declare(&mut self, name: &'a str) -> Read<()> {
        let number = self.count();
        if number == u16::MAX {
            return Err(Fault::TooLarge);
        }
        match self.0.insert(name, number) {
            None => Ok(()),
            Some(_) => Err(Fault::Repeated(name.into())),
        }
    }

    /// How many there are; no more than a word holds are declared.
    fn count(&self) -> u16 {
        self.0.len() as u16
    }

    fn number(&self, name: &str) -> Read<u16> {
        let number = self.0.get(name).copied();
        number.ok_or_else(|| Fault::Undeclared(name.into()))
    }
}

#[derive(Default)]
struct Predicates<'a> {
    names: Names<'a>,
    arities: Vec<u16>,
}

impl<'a> Predicates<'a> {
    /// Declares a predicate by its name and a variable for each argument.
    fn declare(&mut self, predicate: &Expression<'a>) -> Read<()> {
        let (name, variables) = predicate.headed()?;
        self.names.declare(name)?;
        let arity = Names::declared(variables.iter().map(Expression::variable))?.count();
        if usize::from(arity) > MAX_ARITY {
            return Err(Fault::TooLarge);
        }
        self.arities.push(arity);
        Ok(())
    }

    /// An atom whose arguments are among these names.
    fn atom<Argument: Copy + Default + From<u16>>(
        &self,
        atom: &Expression,
        names: &Names,
    ) -> Read<Atom<Argument>> {
        let (name, arguments) = atom.headed()?;
        let predicate = self.names.number(name)?;
        let arguments: Vec<Argument> = arguments
            .iter()
            .map(|argument| Ok(names.number(argument.word()?)?.into()))
            .collect::<Read<_>>()?;
        if arguments.len() != usize::from(self.arities[usize::from(predicate)]) {
            return Err(Fault::WrongArity(name.into()));
        }
        Ok(Atom::new(predicate, &arguments))
    }
}

/// The name of a domain or a problem, and its sections.
fn define<'e, 'a>(define: &'e Expression<'a>, kind: &str) -> Read<(&'a str, &'e [Expression<'a>])> {
    let [title, sections @ ..] = define.behind("define")? else {
        return Err(Fault::OutOfForm);
    };
    Ok((name_behind(title, kind)?, sections))
}

/// The one name behind a keyword.
fn name_behind<'a>(list: &Expression<'a>, keyword: &str) -> Read<&'a str> {
    match list.behind(keyword)? {
        [name] => name.name(),
        _ => Err(Fault::OutOfForm),
    }
}

struct Domain<'a> {
    name: &'a str,
    predicates: Predicates<'a>,
    schemas: Vec<Schema>,
}

/// `(define (domain NAME) (:requirements ..)? (:predicates ..) (:action ..)*)`
fn read_domain<'a>(domain: &Expression<'a>) -> Read<Domain<'a>> {
    let (name, sections) = define(domain, "domain")?;
    let (required, sections) = requirements(sections)?;
    let [declared, actions @ ..] = sections else {
        return Err(Fault::OutOfForm);
    };
    let mut predicates = Predicates::default();
    for predicate in declared.behind(":predicates")? {
        predicates.declare(predicate)?;
    }
    let mut names = Names::default();
    let mut schemas = Vec::new();
    for action in actions {
        let [name, fields @ ..] = action.behind(":action")? else {
            return Err(Fault::OutOfForm);
        };
        names.declare(name.name()?)?;
        let schema = read_schema(fields, &predicates)?;
        if !schema.pairs.is_empty() {
            require(&required, [EQUALITY, NEGATIVE_PRECONDITIONS])?;
        }
        schemas.push(schema);
    }
    Ok(Domain {
        name,
        predicates,
        schemas,
    })
}

const STRIPS: &str = ":strips";
const EQUALITY: &str = ":equality";
const NEGATIVE_PRECONDITIONS: &str = ":negative-preconditions";

/// What `:requirements` asks for, and the sections behind. It may be missing,
/// and may ask for no more than is read here.
fn requirements<'e, 'a>(
    sections: &'e [Expression<'a>],
) -> Read<(Vec<&'a str>, &'e [Expression<'a>])> {
    let Some((first, rest)) = sections.split_first() else {
        return Ok((Vec::new(), sections));
    };
    let Ok(required) = first.behind(":requirements") else {
        return Ok((Vec::new(), sections));
    };
    let required: Vec<&str> = required.iter().map(Expression::word).collect::<Read<_>>()?;
    let known = [STRIPS, EQUALITY, NEGATIVE_PRECONDITIONS];
    let met = required.iter().all(|word| known.contains(word));
    met.then_some((required, rest)).ok_or(Fault::OutOfForm)
}

fn require<const COUNT: usize>(required: &[&str], needed: [&'static str; COUNT]) -> Read<()> {
    let missing = needed.into_iter().find(|word| !required.contains(word));
    missing.map_or(Ok(()), |word| Err(Fault::NotRequired(word)))
}

/// The arguments of a `(not (= ..))`; `None` where it is none.
fn unequal<'e, 'a>(literal: &'e Expression<'a>) -> Option<&'e [Expression<'a>]> {
    match literal.behind("not") {
        Ok([equal]) => equal.behind("=").ok(),
        _ => None,
    }
}

/// The pair of two parameters, which says the same in either order.
fn pair_of(arguments: &[Expression], parameters: &Names) -> Read<Pair> {
    let [one, other] = arguments else {
        return Err(Fault::OutOfForm);
    };
    let [one, other] = [
        parameters.number(one.word()?)?,
        parameters.number(other.word()?)?,
    ];
    let pair = Pair {
        lower: ParameterNumber(one.min(other)),
        higher: ParameterNumber(one.max(other)),
    };
    (one != other).then_some(pair).ok_or(Fault::OutOfForm)
}

/// `:parameters (..) :precondition CONDITION :effect EFFECT`
fn read_schema(fields: &[Expression], predicates: &Predicates) -> Read<Schema> {
    let [Word(":parameters"), parameters, Word(":precondition"), tests, Word(":effect"), effect] =
        fields
    else {
        return Err(Fault::OutOfForm);
    };
    let parameters = Names::declared(parameters.list()?.iter().map(Expression::variable))?;
    let tests = tests.literals()?;
    let pairs = tests.iter().filter_map(unequal);
    let pairs = pairs.map(|arguments| pair_of(arguments, &parameters));
    let pairs = pairs.collect::<Read<Vec<_>>>()?;
    let tested = tests.iter().filter(|literal| unequal(literal).is_none());
    let tested = tested.map(|atom| Ok((Role::Precondition, atom)));
    let changed = effect.literals()?.iter().map(effect_of);
    let mut atoms = tested
        .chain(changed)
        .map(|literal| {
            let (role, atom) = literal?;
            Ok(SchemaAtom {
                role,
                part: PartNumber(0),
                atom: predicates.atom(atom, &parameters)?,
            })
        })
        .collect::<Read<Vec<_>>>()?;
    atoms.sort_by_key(|atom| atom.role);
    Ok(Schema {
        parameters: parameters.count(),
        pairs,
        atoms,
    })
}

/// An atom is added, one in a `(not ..)` deleted.
fn effect_of<'e, 'a>(literal: &'e Expression<'a>) -> Read<(Role, &'e Expression<'a>)> {
    match literal.behind("not") {
        Ok([deleted]) => Ok((Role::Delete, deleted)),
        Ok(_) => Err(Fault::OutOfForm),
        Err(_) => Ok((Role::Add, literal)),
    }
}

/// `(define (problem NAME) (:domain NAME) (:objects ..) (:init ..) (:goal CONDITION))`
fn read_problem(problem: &Expression, domain: Domain) -> Read<Task> {
    let (_, sections) = define(problem, "problem")?;
    let [of_domain, objects, initial, goal] = sections else {
        return Err(Fault::OutOfForm);
    };
    let name = name_behind(of_domain, ":domain")?;
    if name != domain.name {
        return Err(Fault::OtherDomain(name.into()));
    }
    let objects = Names::declared(objects.behind(":objects")?.iter().map(Expression::name))?;
    let [goal] = goal.behind(":goal")? else {
        return Err(Fault::OutOfForm);
    };
    let ground = |atoms: &[Expression]| -> Read<Vec<GroundAtom>> {
        let atoms = atoms.iter();
        atoms
            .map(|atom| domain.predicates.atom(atom, &objects))
            .collect()
    };
    Ok(Task {
        objects: objects.count(),
        initial: ground(initial.behind(":init")?)?,
        goal: ground(goal.literals()?)?,
        arities: domain.predicates.arities,
        schemas: domain.schemas,
    })
}
