//! The program `unfold` as a process.

use super::programs::{long_text, refusals, refused};
use checks::vectors::unfold_program_cases;
use checks::{changed_move, MOVE, SWAP};
use differential::programs::Program;
use generate::tasks::any_task;
use generate::texts;
use generate::{steps, Random};
use reference::programs::{unfold_program, INPUT_BYTES};
use reference::table::Task;
use reference::text::Plan;

type File = Option<Vec<u8>>;

fn unfold(program: &Program, task: Option<&[u8]>, plan: Option<&[u8]>) -> Vec<u8> {
    program.printed_with(&[("task", task), ("plan", plan)])
}

/// A plan of the task, sometimes of more steps than a plan takes, sometimes with
/// equal objects at a pair.
fn plan_text(random: &mut Random, task: &Task) -> Vec<u8> {
    let length = random.pick(&[0, 1, 2, 5, 20, 99, 100, 101]);
    let mut steps = steps::list(random, task, length);
    if random.chance(1, 4) {
        steps = steps::equal_at_a_pair(random, task, &steps);
    }
    let plan = Plan {
        task,
        steps: &steps,
    };
    plan.to_string().into_bytes()
}

/// The files `task` and `plan`: sound, damaged or missing.
fn files(random: &mut Random) -> [File; 2] {
    let task = any_task(random);
    let texts = [task.to_string().into_bytes(), plan_text(random, &task)];
    texts.map(|text| match random.below(12) {
        0 => None,
        1 => Some(Vec::new()),
        2..=4 => Some(texts::damaged(random, &text)),
        _ => Some(text),
    })
}

#[test]
fn unfold_files() {
    let program = Program::named("unfold");
    let compared = |[task, plan]: [File; 2]| {
        let (task, plan) = (task.as_deref(), plan.as_deref());
        refused(&unfold(&program, task, plan), &unfold_program(task, plan))
    };
    let refusals = refusals("unfold as a process", 188, 800, |random| {
        compared(files(random))
    });
    assert!((100..700).contains(&refusals));
    let circular = changed_move("part=0,0,1,1,2,0,1", "part=0,0,1,1,0,0,1");
    for task in [MOVE, &circular] {
        for plan in [
            None,
            Some(b"end=1\n".to_vec()),
            Some(b"step=0:0,1,2\nend=1\n".to_vec()),
        ] {
            compared([Some(task.into()), plan]);
        }
    }
    assert!(compared([None, None]));
    for (plan, refused) in [("step=0:0,1,2,3\n", false), ("step=0:1,1,2,3\n", true)] {
        let plan = format!("{plan}end=1\n").into_bytes();
        assert_eq!(compared([Some(SWAP.into()), Some(plan)]), refused);
    }
}

/// "A program takes the first 65,536 bytes of an input", of each of its files.
#[test]
fn takes_so_many_bytes() {
    let program = Program::named("unfold");
    for (bytes, refusals) in [
        (INPUT_BYTES, ["4:3", "5:1"]),
        (INPUT_BYTES + 2, ["3:3", "3:1"]),
    ] {
        let task = long_text("task=1\nobjects=10\narity=0", bytes);
        let plan = long_text("step=10:0", bytes);
        let found = [
            unfold(&program, Some(&task), Some(&plan)),
            unfold(&program, Some(MOVE.as_bytes()), Some(&plan)),
        ];
        let expected = refusals.map(|refusal| format!("refused={refusal}\n").into_bytes());
        assert_eq!(found, expected);
    }
}

fn joined(numbers: impl Iterator<Item = usize>) -> String {
    numbers.map(|n| n.to_string()).collect::<Vec<_>>().join(",")
}

/// No unfolding is longer: 100 steps of 16 parts, three digits for each schema and each of 12 objects.
#[test]
fn longest_unfolding() {
    let mut task = format!("task=1\nobjects=1000\narity=0{}\n", ",4".repeat(16));
    task += &"schema=0\npre=0:\npart=0\n".repeat(100);
    task += "schema=12\n";
    for atom in 0..48 {
        let first = 4 * (atom % 3);
        task += &format!("pre={}:{}\n", 1 + atom / 3, joined(first..first + 4));
    }
    task += &format!("part={}\nend=1\n", joined((0..48).map(|atom| atom / 3)));
    let plan = format!("step=100:{}\n", joined(900..912)).repeat(100) + "end=1\n";
    let (task, plan) = (Some(task.as_bytes()), Some(plan.as_bytes()));
    let printed = unfold(&Program::named("unfold"), task, plan);
    assert_eq!(printed.len(), 91_206);
    assert_eq!(printed, unfold_program(task, plan));
}

#[test]
fn vectors() {
    let program = Program::named("unfold");
    unfold_program_cases(|task, plan| unfold(&program, task, plan));
}
