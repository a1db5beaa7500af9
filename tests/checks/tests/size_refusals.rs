//! Refusals 1, 2, 9, 20, 10 and 24 of telling sizes, in this order, by hand from
//! document 02's note 6: "Refused as splitting would, then 24, when either instance
//! total is 2 to the power 63 or more."

use checks::read_table;
use generate::limits::splitting;
use generate::sizing::{parted_schema, task_over, undivided_schema, Part};
use generate::tables::table;
use reference::sizes::instances;
use reference::table::{Schema, Task, MAX_PARAMETERS, MAX_SCHEMAS, TABLE_WORDS};
use reference::{Answer, Place, Reason, Refusal};

const TWO_TO_THE_63: u64 = 1 << 63;

/// The instances before and after, or the refusal.
fn told(task: &Task) -> Answer<[u64; 2]> {
    let sizes = reference::sizes(&table(task));
    sizes.map(|sizes| [sizes.instances_before, sizes.instances_after])
}

fn refused<Value>(reason: Reason) -> Answer<Value> {
    Err(Refusal::nowhere(reason))
}

fn too_many() -> Answer<[u64; 2]> {
    refused(Reason::TooManyInstances)
}

/// Both totals of schemas of one part each.
fn undivided(objects: u16, counts: &[u16]) -> Answer<[u64; 2]> {
    let schemas = counts.iter().copied().map(undivided_schema);
    told(&task_over(objects, schemas.collect()))
}

/// 127 to the power 9 is 8,594,754,748,609,397,887, and 128 to the power 9 is 2 to
/// the power 63; 511 and 512 to the power 7 likewise.
#[test]
fn one_schema() {
    let below = 8_594_754_748_609_397_887;
    assert_eq!(undivided(127, &[9]), Ok([below; 2]));
    assert_eq!(undivided(128, &[9]), too_many());
    assert_eq!(undivided(511, &[7]), Ok([9_098_007_718_612_700_671; 2]));
    assert_eq!(undivided(512, &[7]), too_many());
    assert_eq!(undivided(38, &[12]), Ok([9_065_737_908_494_995_456; 2]));
    assert_eq!(undivided(39, &[12]), too_many());
    assert_eq!(undivided(1000, &[6]), Ok([1_000_000_000_000_000_000; 2]));
    for parameters in 7..=12 {
        assert_eq!(undivided(1000, &[parameters]), too_many());
    }
}

/// Parameter counts of 127 schemas. With one object more to choose from than 511
/// for each of seven parameters there are 2 to the power 63 choices; those that
/// take it for all but k of them are 511 to the power k, in as many ways as k of
/// seven can be chosen. Leaving out the choice that takes it for all seven, 2 to
/// the power 63 less 1 are left.
fn one_short() -> Vec<u16> {
    let ways = [(7, 1), (6, 7), (5, 21), (4, 35), (3, 35), (2, 21), (1, 7)];
    let times = |(parameters, ways)| vec![parameters; ways];
    ways.into_iter().flat_map(times).collect()
}

/// The schemas of `one_short` and another; no parameters is one instance more.
#[test]
fn several_schemas() {
    let all_but_one = TWO_TO_THE_63 - 1;
    assert_eq!(undivided(511, &one_short()), Ok([all_but_one; 2]));
    for parameters in [0, 1, 7] {
        let more = [one_short(), vec![parameters]].concat();
        assert_eq!(undivided(511, &more), too_many(), "{parameters}");
    }
    let fewer = all_but_one - 511;
    assert_eq!(undivided(511, &one_short()[..126]), Ok([fewer; 2]));
    let again = [&one_short()[..126], &[0]].concat();
    assert_eq!(undivided(511, &again), Ok([fewer + 1; 2]));
    // Eight times 2 to the power 60.
    assert_eq!(undivided(32, &[12; 7]), Ok([7 << 60; 2]));
    assert_eq!(undivided(32, &[12; 8]), too_many());
}

/// The schemas of `one_short`, the first of which has these parts, and more.
fn with_first_in_parts(parts: &[Part], more: &[u16]) -> Answer<[u64; 2]> {
    let counts = [&one_short()[1..], more].concat();
    let others = counts.into_iter().map(undivided_schema);
    let schemas: Vec<Schema> = [parted_schema(parts)].into_iter().chain(others).collect();
    told(&task_over(511, schemas))
}

/// The schema of seven parameters in parts of four and of three.
#[test]
fn before_alone() {
    let parts = [vec![0, 1, 2, 3], vec![4, 5, 6]];
    let before = TWO_TO_THE_63 - 1;
    let [fourth, third] = [68_184_176_641, 133_432_831];
    let after = before - 9_098_007_718_612_700_671 + fourth + third;
    assert_eq!(with_first_in_parts(&parts, &[]), Ok([before, after]));
    assert_eq!(with_first_in_parts(&parts, &[0]), too_many());
    // Nine parameters in three parts of three.
    let nine = |objects| {
        let schema = parted_schema(&[vec![0, 1, 2], vec![3, 4, 5], vec![6, 7, 8]]);
        told(&task_over(objects, vec![schema]))
    };
    let before = 8_594_754_748_609_397_887;
    assert_eq!(nine(127), Ok([before, 3 * 127 * 127 * 127]));
    assert_eq!(nine(128), too_many());
}

/// The schema of seven parameters and one of six as two parts of one schema; then
/// with a part that has no parameter.
#[test]
fn after_alone() {
    let schema = |parts: &[Part]| {
        let others = one_short().into_iter().skip(2).map(undivided_schema);
        let schemas = [parted_schema(parts)].into_iter().chain(others);
        told(&task_over(511, schemas.collect()))
    };
    let parts: [Part; 3] = [(0..7).collect(), (1..7).collect(), Vec::new()];
    let before = TWO_TO_THE_63 - 1 - 17_804_320_388_674_561;
    assert_eq!(schema(&parts[..1]), Ok([before, before]));
    assert_eq!(schema(&parts[..2]), Ok([before, TWO_TO_THE_63 - 1]));
    assert_eq!(schema(&parts), too_many());
    // 2 to the power 60 before; all parameters in eight parts, or in one of them one less.
    let eight = |last: u16| {
        let mut parts: Vec<Part> = vec![(0..12).collect(); 8];
        parts[7].truncate(last.into());
        told(&task_over(32, vec![parted_schema(&parts)]))
    };
    assert_eq!(eight(11), Ok([1 << 60, (7 << 60) + (1 << 55)]));
    assert_eq!(eight(12), too_many());
    // 127 to the power 9 before and twice as much after.
    let nine: Part = (0..9).collect();
    let twice = parted_schema(&[nine.clone(), nine]);
    assert_eq!(told(&task_over(127, vec![twice])), too_many());
}

/// Totals of which 64 bits hold only a small rest: 256 to the power 8 is 2 to the
/// power 64, and so are twice 128 to the power 9 and 512 to the power 7, and
/// sixteen times 32 to the power 12.
#[test]
fn totals_of_more_than_64_bits() {
    for more in [&[][..], &[0], &[0, 0, 1]] {
        for (objects, counts) in [
            (256, vec![8]),
            (256, vec![12]),
            (256, vec![12; 150]),
            (128, vec![9; 2]),
            (128, vec![10]),
            (512, vec![7; 2]),
            (512, vec![8]),
            (32, vec![12; 16]),
            (64, vec![12]),
        ] {
            let counts = [counts, more.to_vec()].concat();
            assert_eq!(undivided(objects, &counts), too_many(), "{objects}");
        }
    }
}

/// The most instances that a table can have, before and after: 2 times 10 to the
/// power 38. So no total reaches 2 to the power 128, which is over 3.4 times 10 to
/// the power 38.
#[test]
fn the_most_instances() {
    let schemas = vec![undivided_schema(MAX_PARAMETERS as u16); MAX_SCHEMAS];
    let task = task_over(1000, schemas);
    assert_eq!(instances(&task), 2 * 10_u128.pow(38));
    assert_eq!(told(&task), too_many());
    let one = Task { objects: 1, ..task };
    assert_eq!(told(&one), Ok([200, 200]));
}

/// A schema of nine parameters with a pair, over so many objects: its parts have
/// an order or not, and one of them has both parameters of the pair or not.
fn of_nine(objects: u16, predicates: usize, circular: bool, apart: bool) -> Vec<u16> {
    let pair = if apart { "0,8" } else { "0,1" };
    let parts = if circular { "0,1,1,0" } else { "0,1,0,1" };
    let arities = [vec!["4"; 2], vec!["0"; predicates - 2]].concat().join(",");
    read_table(
        format!(
            "task=1\nobjects={objects}\narity={arities}\n\
            schema=1\npre=0:0,0,0,0\npart=0\n\
            schema=9\ndiffer={pair}\n\
            pre=0:0,1,2,3\npre=1:5,6,7,8\ndel=0:0,1,2,4\ndel=1:5,6,7,8\npart={parts}\n\
            end=1\n"
        )
        .as_bytes(),
    )
}

/// Each refusal that fits is left out in turn: 1, 2, 9, 20, 10, 24.
#[test]
fn refusals_in_order() {
    let in_schema = |reason| Err(Refusal::new(reason, Place::Schema(1)));
    let mut damaged = of_nine(128, 400, true, true);
    damaged[TABLE_WORDS - 1] = 1;
    let cut = damaged[..TABLE_WORDS - 1].to_vec();
    let [ten, twenty_four] = [Reason::SplitTooLarge, Reason::TooManyInstances].map(refused::<()>);
    for (table, expected) in [
        (cut, refused(Reason::TableTooShort)),
        (Vec::new(), refused(Reason::TableTooShort)),
        (damaged, refused(Reason::NotATable)),
        (of_nine(128, 400, true, true), in_schema(Reason::NoOrder)),
        (of_nine(128, 2, true, true), in_schema(Reason::NoOrder)),
        (of_nine(128, 400, true, false), in_schema(Reason::NoOrder)),
        (of_nine(128, 2, true, false), in_schema(Reason::NoOrder)),
        (
            of_nine(128, 400, false, true),
            in_schema(Reason::PairInNoPart),
        ),
        (
            of_nine(128, 2, false, true),
            in_schema(Reason::PairInNoPart),
        ),
        (of_nine(128, 400, false, false), ten),
        (of_nine(127, 400, false, false), ten),
        (of_nine(128, 2, false, false), twenty_four),
        (of_nine(127, 2, false, false), Ok(())),
    ] {
        assert_eq!(reference::sizes(&table).map(drop), expected);
    }
}

/// A split that reaches a limit is told, one that passes it is refused by 10, with
/// one instance of each schema as with too many.
#[test]
fn splits_at_the_limits() {
    for limit in splitting() {
        let sizes = reference::sizes(&table(&limit.inside));
        assert!(sizes.is_ok(), "{}", limit.name);
        for objects in [limit.outside.objects, 1000] {
            let outside = Task {
                objects,
                ..limit.outside.clone()
            };
            let sizes = reference::sizes(&table(&outside)).map(drop);
            assert_eq!(sizes, refused(Reason::SplitTooLarge), "{}", limit.name);
        }
    }
}
