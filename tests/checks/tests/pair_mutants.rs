//! A wrong answer about pairs shows: each of these variants answers otherwise
//! than the reference for many cases of one seed, and the right one, put in the
//! same form, for none.

use checks::{report, shows_in};
use generate::differing::{any_differing_task, splittable_differing_task};
use generate::split_lists::split_list;
use generate::tables::table;
use generate::tasks::any_task;
use generate::texts::any_text;
use generate::{steps, Random};
use reference::arcs::{arcs, order, RULES};
use reference::run::{Step, STEP_WORDS};
use reference::table::{
    used_arguments, ObjectNumber, Pair, ParameterNumber, PartNumber, Schema, Task, MAX_PARAMETERS,
    MAX_PARTS,
};
use reference::tokens::{self, BlockPart, Split};
use reference::{blocks, Answer, Reason, Refusal};

const SEED: u64 = 43;

/// What speaks against splitting a task.
struct Faults {
    /// The schemas without an order.
    circular: Vec<u64>,
    /// The schemas with a pair that no part has both parameters of.
    apart: Vec<u64>,
    /// Whether the split, where each schema has an order, passes a limit.
    too_large: bool,
}

impl Faults {
    fn of(task: &Task) -> Faults {
        let orders: Vec<Option<Vec<PartNumber>>> = task
            .schemas
            .iter()
            .map(|schema| order(schema, &task.arities, &arcs(schema, &RULES)))
            .collect();
        let schemas_where = |holds: &dyn Fn(usize) -> bool| -> Vec<u64> {
            let schemas = (0..task.schemas.len()).filter(|number| holds(*number));
            schemas.map(|number| number as u64).collect()
        };
        let circular = schemas_where(&|number| orders[number].is_none());
        let apart = schemas_where(&|number| has_pair_apart(&task.schemas[number], &task.arities));
        let orders: Option<Vec<Vec<PartNumber>>> = orders.into_iter().collect();
        let too_large =
            orders.is_some_and(|orders| !tokens::decorate(task, &orders).task.is_within_limits());
        Faults {
            circular,
            apart,
            too_large,
        }
    }
}

fn has_pair_apart(schema: &Schema, arities: &[u16]) -> bool {
    let stands_in = |parameter: ParameterNumber, part: PartNumber| {
        let mut atoms = schema.atoms.iter().filter(|atom| atom.part == part);
        atoms.any(|atom| used_arguments(&atom.atom, arities).contains(&parameter))
    };
    let parts = schema.part_count().expect("a partition") as u16;
    let together = |pair: &Pair| {
        let mut parts = (0..parts).map(PartNumber);
        parts.any(|part| stands_in(pair.lower, part) && stands_in(pair.higher, part))
    };
    !schema.pairs.iter().all(together)
}

/// The refusal of splitting and its place, `None` for a split.
type Refused = Option<(u32, u64)>;

/// The first of these refusals that there is.
fn first_of(refusals: [Refused; 3]) -> Refused {
    refusals.into_iter().flatten().next()
}

fn no_order(faults: &Faults) -> Refused {
    faults.circular.first().map(|schema| (9, *schema))
}

fn in_no_part(faults: &Faults) -> Refused {
    faults.apart.first().map(|schema| (20, *schema))
}

fn too_large(faults: &Faults) -> Refused {
    faults.too_large.then_some((10, 0))
}

/// "20 after 9, with the lowest such schema", both before 10.
fn as_the_note_says(faults: &Faults) -> Refused {
    first_of([no_order(faults), in_no_part(faults), too_large(faults)])
}

fn never_20(faults: &Faults) -> Refused {
    first_of([no_order(faults), too_large(faults), None])
}

fn highest_20(faults: &Faults) -> Refused {
    let highest = faults.apart.last().map(|schema| (20, *schema));
    first_of([no_order(faults), highest, too_large(faults)])
}

fn before_9(faults: &Faults) -> Refused {
    first_of([in_no_part(faults), no_order(faults), too_large(faults)])
}

fn after_10(faults: &Faults) -> Refused {
    first_of([no_order(faults), too_large(faults), in_no_part(faults)])
}

/// Schema by schema, 9 or 20, whichever comes first.
fn lowest_schema_of_either(faults: &Faults) -> Refused {
    let either = [no_order(faults), in_no_part(faults)].into_iter().flatten();
    either
        .min_by_key(|(_, schema)| *schema)
        .or(too_large(faults))
}

/// For how many tasks a variant refuses otherwise than the reference.
fn refused_otherwise(variant: fn(&Faults) -> Refused) -> usize {
    let mut random = Random::new(SEED);
    (0..20_000)
        .filter(|_| {
            let task = any_task(&mut random);
            let refused = tokens::split(&task).err();
            let refused = refused.map(|refusal| (refusal.number(), refusal.place.number()));
            variant(&Faults::of(&task)) != refused
        })
        .count()
}

#[test]
fn refusal_20_and_its_place() {
    assert_eq!(refused_otherwise(as_the_note_says), 0);
    for (name, variant, least) in [
        ("20 never said", never_20 as fn(&Faults) -> Refused, 200),
        ("20 with the highest schema", highest_20, 20),
        ("20 before 9", before_9, 10),
        ("20 after 10", after_10, 3),
        ("the lowest schema of 9 or 20", lowest_schema_of_either, 3),
    ] {
        shows_in(name, refused_otherwise(variant), least);
    }
}

/// The pairs that the parts of a block carry, in order.
type Carried = fn(&[Pair], &[BlockPart]) -> Vec<Vec<Pair>>;

/// The pairs of a part that has both parameters, renumbered.
fn renumbered(pairs: &[Pair], part: &BlockPart) -> Vec<Pair> {
    let number = |parameter: ParameterNumber| {
        let place = part.parameters.iter().position(|own| *own == parameter);
        place.map(|place| ParameterNumber(place as u16))
    };
    let both = pairs
        .iter()
        .map(|pair| (number(pair.lower), number(pair.higher)));
    both.filter_map(|both| match both {
        (Some(lower), Some(higher)) => Some(Pair { lower, higher }),
        _ => None,
    })
    .collect()
}

fn every_part(pairs: &[Pair], block: &[BlockPart]) -> Vec<Vec<Pair>> {
    block.iter().map(|part| renumbered(pairs, part)).collect()
}

/// A pair is left out of all parts behind the first that has it.
fn first_part_alone(pairs: &[Pair], block: &[BlockPart]) -> Vec<Vec<Pair>> {
    let mut left = pairs.to_vec();
    let carried = block.iter().map(|part| {
        let own = renumbered(&left, part);
        left.retain(|pair| !pair.is_within(&part.parameters));
        own
    });
    carried.collect()
}

/// A pair is left out of the first part.
fn later_parts_alone(pairs: &[Pair], block: &[BlockPart]) -> Vec<Vec<Pair>> {
    let mut carried = every_part(pairs, block);
    carried[0].clear();
    carried
}

fn with_old_numbers(pairs: &[Pair], block: &[BlockPart]) -> Vec<Vec<Pair>> {
    let own = |part: &BlockPart| {
        let pairs = pairs.iter().filter(|pair| pair.is_within(&part.parameters));
        pairs.copied().collect()
    };
    block.iter().map(own).collect()
}

/// For how many tasks the parts would carry other pairs.
fn carried_otherwise(variant: Carried) -> usize {
    let mut random = Random::new(SEED);
    (0..4000)
        .filter(|_| {
            let task = splittable_differing_task(&mut random);
            let split = tokens::split(&task).expect("a split");
            let blocks = task.schemas.iter().zip(&split.blocks);
            let expected: Vec<Vec<Pair>> = blocks
                .flat_map(|(schema, block)| variant(&schema.pairs, block))
                .collect();
            let schemas = split.task.schemas.iter();
            !schemas.map(|schema| &schema.pairs).eq(&expected)
        })
        .count()
}

#[test]
fn lines_that_parts_carry() {
    assert_eq!(carried_otherwise(every_part), 0);
    for (name, variant, least) in [
        ("the first part alone", first_part_alone as Carried, 400),
        ("the later parts alone", later_parts_alone, 400),
        ("old numbers", with_old_numbers, 400),
    ] {
        shows_in(name, carried_otherwise(variant), least);
    }
}

/// The first `differ` line of a text that is refused by 19 or 21, whatever else
/// is wrong in it; its other lines are taken to be in form.
fn refused_line(text: &str, order: [Reason; 2]) -> Option<(Reason, u64)> {
    let mut lines = 0;
    let mut parameters = 0;
    let mut last = None;
    for (number, line) in (1..).zip(text.lines()) {
        let (key, body) = line.split_once('=')?;
        let numbers: Vec<u32> = body
            .split(',')
            .filter_map(|number| number.parse().ok())
            .collect();
        match (key, numbers.as_slice()) {
            ("schema", [count]) => (parameters, last) = (*count, None),
            ("differ", [lower, higher]) => {
                lines += 1;
                let pair = Some((*lower, *higher));
                let bad_pair = lower >= higher || *higher >= parameters || last >= pair;
                let too_many = lines > 200;
                last = pair;
                let refused = |reason: &Reason| match reason {
                    Reason::BadPair => bad_pair,
                    _ => too_many,
                };
                if let Some(reason) = order.into_iter().find(refused) {
                    return Some((reason, number));
                }
            }
            _ => {}
        }
    }
    None
}

/// Of texts that the reference refuses by 19 or 21, how many there are, and for
/// how many an order of the two refuses otherwise.
fn read_otherwise(order: [Reason; 2]) -> [usize; 2] {
    let mut random = Random::new(SEED);
    let mut seen = [0; 2];
    for _ in 0..20_000 {
        let text = any_text(&mut random);
        let Err(Refusal { reason, place, .. }) = reference::text::read_task(&text) else {
            continue;
        };
        if matches!(reason, Reason::BadPair | Reason::TooManyPairs) {
            let text = String::from_utf8_lossy(&text);
            let refused = refused_line(&text, order);
            seen[0] += 1;
            seen[1] += usize::from(refused != Some((reason, place.number())));
        }
    }
    seen
}

#[test]
fn refusal_21_before_19() {
    let [refused, other] = read_otherwise([Reason::TooManyPairs, Reason::BadPair]);
    assert_eq!(other, 0);
    shows_in("19 or 21", refused, 400);
    let [_, other] = read_otherwise([Reason::BadPair, Reason::TooManyPairs]);
    shows_in("19 before 21", other, 50);
}

/// Whether the reference refuses by 12 what a variant doesn't.
fn let_through<Value, Other>(reference: Answer<Value>, variant: Answer<Other>) -> bool {
    fn is_bad_step<Value>(answer: Answer<Value>) -> bool {
        answer.is_err_and(|refusal| refusal.reason == Reason::BadStep)
    }
    is_bad_step(reference) && !is_bad_step(variant)
}

/// For how many lists this holds; it is given a task with pairs and its split.
fn lists_where(holds: impl Fn(&mut Random, &Task, &Split) -> bool) -> usize {
    let mut random = Random::new(SEED);
    (0..4000)
        .filter(|_| {
            let task = splittable_differing_task(&mut random);
            let split = tokens::split(&task).expect("a split");
            holds(&mut random, &task, &split)
        })
        .count()
}

/// Steps of the task, one with equal objects at a pair where it has any.
fn equal_steps(random: &mut Random, task: &Task) -> Vec<Step> {
    let list = steps::list(random, task, 3);
    steps::equal_at_a_pair(random, task, &list)
}

fn running(random: &mut Random, task: &Task, _: &Split) -> bool {
    let mut without_pairs = task.clone();
    for schema in &mut without_pairs.schemas {
        schema.pairs.clear();
    }
    let list = steps::words(&equal_steps(random, task));
    let run = |task: &Task| reference::run(&table(task), &list, &mut [], 0);
    let_through(run(task), run(&without_pairs))
}

fn unfolding(random: &mut Random, task: &Task, split: &Split) -> bool {
    let list = equal_steps(random, task);
    let mut out = vec![0; STEP_WORDS * MAX_PARTS * list.len()];
    let unfolded = reference::unfold(&table(task), &steps::words(&list), &mut out);
    let_through(unfolded, Ok(blocks::unfold(split, &list)))
}

fn folding(random: &mut Random, task: &Task, split: &Split) -> bool {
    let list = split_list(random, task, split);
    let list = steps::equal_at_a_pair(random, &split.task, &list);
    let mut out = vec![0; STEP_WORDS * list.len()];
    let folded = reference::fold(&table(task), &steps::words(&list), &mut out);
    let_through(folded, blocks::fold(split, &list))
}

#[test]
fn equal_objects_let_through() {
    shows_in("running of equal objects", lists_where(running), 1000);
    shows_in("unfolding of equal objects", lists_where(unfolding), 1000);
    shows_in("folding of equal objects", lists_where(folding), 1000);
}

/// What is judged when a step is to fit the block that is open: the pairs of the
/// block's schema, and the objects known by then.
type Judged = fn(&[Pair], &[Option<ObjectNumber>]) -> bool;

/// An unfinished beginning fits whatever its objects are at pairs; a part's own
/// pairs are judged by 12.
fn no_pair(_: &[Pair], _: &[Option<ObjectNumber>]) -> bool {
    true
}

fn every_pair_known(pairs: &[Pair], known: &[Option<ObjectNumber>]) -> bool {
    pairs.iter().all(|pair| {
        let [lower, higher] = [pair.lower, pair.higher].map(|parameter| known[parameter.index()]);
        lower.is_none() || lower != higher
    })
}

/// The place of 14 in a list of split steps, `None` where it is whole blocks.
fn first_misfit(task: &Task, split: &Split, list: &[Step], judged: Judged) -> Option<usize> {
    let mut open: Option<(usize, usize)> = None;
    let mut known = [None; MAX_PARAMETERS];
    for (number, step) in list.iter().enumerate() {
        let begins = |block: &Vec<BlockPart>| block[0].schema == step.schema;
        let Some((schema, position)) =
            open.or_else(|| Some((split.blocks.iter().position(begins)?, 0)))
        else {
            return Some(number);
        };
        if position == 0 {
            known = [None; MAX_PARAMETERS];
        }
        let part = &split.blocks[schema][position];
        let agrees = part.schema == step.schema
            && part
                .parameters
                .iter()
                .zip(step.objects)
                .all(|(parameter, object)| {
                    *known[parameter.index()].get_or_insert(object) == object
                });
        if !agrees || !judged(&task.schemas[schema].pairs, &known) {
            return Some(number);
        }
        let finished = position + 1 == split.blocks[schema].len();
        open = (!finished).then_some((schema, position + 1));
    }
    open.map(|_| list.len())
}

/// For how many lists that 12 doesn't refuse folding finds another place.
fn folded_otherwise(judged: Judged) -> usize {
    lists_where(|random, task, split| {
        let list = split_list(random, task, split);
        let mut out = vec![0; STEP_WORDS * list.len()];
        let folded = reference::fold(&table(task), &steps::words(&list), &mut out);
        let refused = folded.err();
        let place = refused.map(|refusal| refusal.place.number() as usize);
        !refused.is_some_and(|refusal| refusal.reason == Reason::BadStep)
            && first_misfit(task, split, &list, judged) != place
    })
}

#[test]
fn only_the_pairs_that_parts_carry() {
    assert_eq!(folded_otherwise(no_pair), 0);
    let other = folded_otherwise(every_pair_known);
    shows_in("every pair of a beginning", other, 20);
}

/// How many schemas of a task with pairs have another order, and how many none,
/// where their pairs take no arc away.
#[test]
fn dropped_arcs_matter() {
    let mut random = Random::new(SEED);
    let [mut circular, mut other, mut same] = [0; 3];
    for _ in 0..4000 {
        let task = any_differing_task(&mut random);
        for schema in &task.schemas {
            let order = |schema: &Schema| order(schema, &task.arities, &arcs(schema, &RULES));
            let taken = order(schema).expect("differing tasks have an order");
            let without_pairs = Schema {
                pairs: Vec::new(),
                ..schema.clone()
            };
            match order(&without_pairs) {
                None => circular += 1,
                Some(order) if order != taken => other += 1,
                Some(_) => same += 1,
            }
        }
    }
    report("orders that pairs leave alone", same);
    shows_in("circular without pairs", circular, 1000);
    shows_in("in another order without pairs", other, 150);
}
