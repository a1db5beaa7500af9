//! The claim of shared runs can fail: each of these wrong systems is found out
//! by cases of one seed, and the right one is not.

use checks::report;
use checks::shared_runs::both_ways;
use checks::subject::{End, Subject};
use generate::{cases, Case, Random};
use reference::arcs::{arcs, order, Arcs, RULES};
use reference::run::{goal_met, run, State, Step};
use reference::table::{used_arguments, Pair, ParameterNumber, Role, Schema, Task};
use reference::tokens::{decorate, Split};
use reference::{blocks, Answer, Reason, Refusal};

const SEED: u64 = 41;
const CASES: usize = 10_000;

type Cases = fn(&mut Random) -> Case;

/// A change of a split's schema.
type Edit = dyn Fn(&Tokens, &mut Schema);

/// The arcs of a schema, by it and the predicates' arities.
type FindArcs = dyn Fn(&Schema, &[u16]) -> Arcs;

/// A system put together from the reference, with other arcs, with the split
/// edited, or with another way to run.
struct Mutant {
    arcs: Box<FindArcs>,
    edit: Box<Edit>,
    run: fn(&Task, &[Step], &mut State) -> Answer<()>,
}

/// Runs steps, after refusal 12 has turned back those with equal objects at a
/// pair.
fn run_steps(task: &Task, steps: &[Step], state: &mut State) -> Answer<()> {
    match steps.iter().position(|step| !step.keeps_pairs_apart(task)) {
        Some(bad) => Err(Refusal::at_step(Reason::BadStep, bad)),
        None => run(task, steps, state, usize::MAX),
    }
}

impl Mutant {
    /// No mutant: the reference itself.
    fn none() -> Mutant {
        Mutant {
            arcs: Box::new(|schema, _| arcs(schema, &RULES)),
            edit: Box::new(|_, _| {}),
            run: run_steps,
        }
    }

    /// Without one of the rules of arcs.
    fn without_rule(dropped: (Role, Role)) -> Mutant {
        let rules: Vec<(Role, Role)> = RULES.into_iter().filter(|rule| *rule != dropped).collect();
        Mutant {
            arcs: Box::new(move |schema, _| arcs(schema, &rules)),
            ..Mutant::none()
        }
    }

    /// With another rule for what two atoms must hold to give no arc.
    fn without_arcs_of(rule: Rule) -> Mutant {
        Mutant {
            arcs: Box::new(move |schema, arities| arcs_but(schema, arities, rule)),
            ..Mutant::none()
        }
    }

    fn editing(edit: impl Fn(&Tokens, &mut Schema) + 'static) -> Mutant {
        Mutant {
            edit: Box::new(edit),
            ..Mutant::none()
        }
    }

    /// Leaves out the atoms of one role and one kind of token.
    fn dropping(role: Role, kind: Token) -> Mutant {
        Mutant::editing(move |tokens, schema| {
            schema
                .atoms
                .retain(|atom| atom.role != role || tokens.kind(atom.atom.predicate) != Some(kind));
        })
    }

    fn split_task(&self, task: &Task) -> Answer<Split> {
        let orders = task
            .schemas
            .iter()
            .map(|schema| {
                let arcs = (self.arcs)(schema, &task.arities);
                order(schema, &task.arities, &arcs)
            })
            .collect::<Option<Vec<_>>>()
            .ok_or(Refusal::nowhere(Reason::NoOrder))?;
        let mut split = decorate(task, &orders);
        let tokens = Tokens::of(task, &split.task);
        for schema in &mut split.task.schemas {
            (self.edit)(&tokens, schema);
        }
        Ok(split)
    }

    /// The first of these cases that speaks against it.
    fn found_out(&self, cases: Cases) -> Option<usize> {
        let mut random = Random::new(SEED);
        (0..CASES).find(|_| {
            let case = cases(&mut random);
            both_ways(self, &mut random.clone(), &case).is_err()
        })
    }
}

impl Subject for Mutant {
    fn split(&self, task: &Task) -> Answer<Task> {
        Ok(self.split_task(task)?.task)
    }

    fn unfold(&self, task: &Task, steps: &[Step]) -> Answer<Vec<Step>> {
        Ok(blocks::unfold(&self.split_task(task)?, steps))
    }

    fn fold(&self, task: &Task, split_steps: &[Step]) -> Answer<Vec<Step>> {
        blocks::fold(&self.split_task(task)?, split_steps)
    }

    fn run(&self, task: &Task, steps: &[Step], state: &State) -> Answer<End> {
        let mut state = state.clone();
        (self.run)(task, steps, &mut state)?;
        let goal_met = goal_met(task, &state);
        Ok(End { state, goal_met })
    }
}

#[derive(Clone, Copy, Debug, PartialEq, Eq)]
enum Token {
    Procnone,
    Do,
    Par,
}

/// The predicates that a split has beyond its task's.
struct Tokens {
    procnone: u16,
    first_par: u16,
}

impl Tokens {
    fn of(task: &Task, split: &Task) -> Tokens {
        let procnone = task.arities.len();
        let arities = &split.arities[procnone..];
        let first_par = arities.iter().position(|arity| *arity == 1);
        Tokens {
            procnone: procnone as u16,
            first_par: (procnone + first_par.unwrap_or(arities.len())) as u16,
        }
    }

    fn kind(&self, predicate: u16) -> Option<Token> {
        if predicate >= self.first_par {
            Some(Token::Par)
        } else if predicate > self.procnone {
            Some(Token::Do)
        } else if predicate == self.procnone {
            Some(Token::Procnone)
        } else {
            None
        }
    }
}

/// Adds come in before deletes go out, so a delete wins.
fn run_adds_first(task: &Task, steps: &[Step], state: &mut State) -> Answer<()> {
    for (number, step) in steps.iter().enumerate() {
        let mut tests = step.atoms(task, Role::Precondition);
        if !tests.all(|atom| state.contains(&atom)) {
            return Err(Refusal::at_step(Reason::PreconditionMissing, number));
        }
        state.extend(step.atoms(task, Role::Add));
        for atom in step.atoms(task, Role::Delete) {
            state.remove(&atom);
        }
    }
    Ok(())
}

/// The arguments that an atom has.
type Arguments<'a> = &'a [ParameterNumber];

/// Whether two atoms of one predicate give no arc.
type Rule = fn(&[Pair], Arguments, Arguments) -> bool;

/// The arcs of a schema, but for atoms that a rule says give none.
fn arcs_but(schema: &Schema, arities: &[u16], rule: Rule) -> Arcs {
    let mut arcs = Arcs::new();
    for first in &schema.atoms {
        for second in &schema.atoms {
            let [one, other] = [first, second].map(|atom| used_arguments(&atom.atom, arities));
            if RULES.contains(&(first.role, second.role))
                && first.atom.predicate == second.atom.predicate
                && first.part != second.part
                && !rule(&schema.pairs, one, other)
            {
                arcs.insert((first.part, second.part));
            }
        }
    }
    arcs
}

fn has_pair(pairs: &[Pair], lower: ParameterNumber, higher: ParameterNumber) -> bool {
    pairs.contains(&Pair { lower, higher })
}

/// Note 4's rule, put in the same form.
fn some_position(pairs: &[Pair], first: Arguments, second: Arguments) -> bool {
    lower_in_first(pairs, first, second) || lower_in_first(pairs, second, first)
}

/// The pair is looked for one way round alone.
fn lower_in_first(pairs: &[Pair], first: Arguments, second: Arguments) -> bool {
    let mut places = first.iter().zip(second);
    places.any(|(lower, higher)| has_pair(pairs, *lower, *higher))
}

fn lower_in_second(pairs: &[Pair], first: Arguments, second: Arguments) -> bool {
    lower_in_first(pairs, second, first)
}

/// The two parameters may stand at different positions.
fn any_two_positions(pairs: &[Pair], first: Arguments, second: Arguments) -> bool {
    first.iter().any(|one| {
        let mut others = second.iter();
        others.any(|other| has_pair(pairs, *one.min(other), *one.max(other)))
    })
}

/// Some position has different parameters, and one atom has one of a pair there.
fn one_of_the_pair(pairs: &[Pair], first: Arguments, second: Arguments) -> bool {
    let paired = |one| {
        pairs
            .iter()
            .any(|pair| [pair.lower, pair.higher].contains(&one))
    };
    let mut places = first.iter().zip(second);
    places.any(|(one, other)| one != other && (paired(*one) || paired(*other)))
}

/// Different parameters count as if all of them were declared to differ.
fn undeclared(_: &[Pair], first: Arguments, second: Arguments) -> bool {
    first != second
}

fn never(_: &[Pair], _: Arguments, _: Arguments) -> bool {
    false
}

fn must_be_found_out(name: &str, mutant: &Mutant) {
    must_be_found_out_by(cases::case, name, mutant);
}

fn must_be_found_out_by(cases: Cases, name: &str, mutant: &Mutant) {
    let case = mutant.found_out(cases);
    let case = case.unwrap_or_else(|| panic!("{name} is not found out"));
    report(&format!("{name}, found out after"), case + 1);
}

#[test]
fn the_reference_is_not_found_out() {
    assert_eq!(Mutant::none().found_out(cases::case), None);
    assert_eq!(Mutant::none().found_out(cases::differing_case), None);
    let same = Mutant::without_arcs_of(some_position);
    assert_eq!(same.found_out(cases::differing_case), None);
    report("no mutant", 3 * CASES);
}

#[test]
fn a_wrong_rule_for_pairs_is_found_out() {
    let rules: [(&str, Rule); 6] = [
        (
            "pair with its lower parameter in the first atom",
            lower_in_first,
        ),
        (
            "pair with its lower parameter in the second atom",
            lower_in_second,
        ),
        ("pair at different positions", any_two_positions),
        ("one parameter of a pair", one_of_the_pair),
        ("parameters of no pair", undeclared),
        ("pairs that take no arc away", never),
    ];
    for (name, rule) in rules {
        let mutant = Mutant::without_arcs_of(rule);
        must_be_found_out_by(cases::differing_case, name, &mutant);
    }
}

/// Without its lines a split has lists that fold to no step of the task.
#[test]
fn lines_left_out_of_the_parts_are_found_out() {
    let mutant = Mutant::editing(|_, schema| schema.pairs.clear());
    must_be_found_out_by(cases::differing_case, "no pair carried", &mutant);
    let mutant = Mutant::editing(|_, schema| schema.pairs.truncate(1));
    must_be_found_out_by(
        cases::differing_case,
        "the first pair alone carried",
        &mutant,
    );
}

/// Lines that the parts don't have keep the unfolding of a step from running.
#[test]
fn a_line_too_many_is_found_out() {
    let mutant = Mutant::editing(|_, schema| {
        if schema.parameters >= 2 && schema.pairs.is_empty() {
            schema.pairs.push(Pair {
                lower: ParameterNumber(0),
                higher: ParameterNumber(1),
            });
        }
    });
    must_be_found_out_by(cases::differing_case, "a pair of no line", &mutant);
}

#[test]
fn a_dropped_arc_rule_is_found_out() {
    for dropped in RULES {
        let mutant = Mutant::without_rule(dropped);
        must_be_found_out(&format!("no arc {dropped:?}"), &mutant);
    }
}

#[test]
fn a_dropped_token_is_found_out() {
    for role in Role::ALL {
        for kind in [Token::Procnone, Token::Do, Token::Par] {
            let mutant = Mutant::dropping(role, kind);
            must_be_found_out(&format!("no {kind:?} as {role:?}"), &mutant);
        }
    }
}

#[test]
fn one_par_for_all_is_found_out() {
    let mutant = Mutant::editing(|tokens, schema| {
        for atom in &mut schema.atoms {
            atom.atom.predicate = atom.atom.predicate.min(tokens.first_par);
        }
    });
    must_be_found_out("one par for all", &mutant);
}

#[test]
fn adds_before_deletes_are_found_out() {
    let mutant = Mutant {
        run: run_adds_first,
        ..Mutant::none()
    };
    must_be_found_out("adds before deletes", &mutant);
}
