//! Two atoms of a schema with a pair, by hand from document 02's note 4: whether
//! they give an arc.

use crate::atom_lines;

/// A task of one schema, for which no order complies just when the atoms of
/// predicate 0 in its two parts give an arc.
pub struct TwoAtoms {
    pub text: String,
    pub arc: bool,
}

/// Arguments of the first and of the second atom, and whether they give an arc:
/// not where at some position the one has parameter 0 and the other 1.
const ARGUMENTS: [(&str, &str, bool); 20] = [
    ("0", "1", false),
    ("1", "0", false),
    ("0", "0", true),
    ("1", "1", true),
    ("0", "2", true),
    ("2", "1", true),
    ("2", "2", true),
    ("0,2", "1,2", false),
    ("1,2", "0,0", false),
    ("2,0", "2,1", false),
    ("0,0", "0,1", false),
    ("0,1", "1,0", false),
    ("0,1", "0,1", true),
    ("0,2", "2,1", true),
    ("2,0", "1,2", true),
    ("0,1", "2,2", true),
    ("2,2", "0,1", true),
    ("0,2,2,2", "1,2,2,2", false),
    ("2,2,2,1", "2,2,2,0", false),
    ("2,2,0,1", "2,2,2,2", true),
];

/// Each pair of arguments in each two roles that give arcs.
pub fn two_atoms() -> Vec<TwoAtoms> {
    let roles = [("pre", "add"), ("pre", "del"), ("del", "add")];
    let with_roles = |(one, other, arc)| {
        roles.map(|(first, second)| TwoAtoms {
            text: two_parts(&format!("{first}=0:{one}"), &format!("{second}=0:{other}")),
            arc,
        })
    };
    ARGUMENTS.into_iter().flat_map(with_roles).collect()
}

/// The first atom in part 0, the second in part 1. A delete and an add of
/// predicate 1 give an arc back; predicate 2, which gives none, puts both
/// parameters of the pair 0, 1 into part 0.
fn two_parts(first: &str, second: &str) -> String {
    let lines = atom_lines(&[
        (first, 0),
        (second, 1),
        ("del=1:", 1),
        ("add=1:", 0),
        ("pre=2:0,1", 0),
        ("pre=2:2,2", 0),
    ]);
    let arity = first.matches(',').count() + 1;
    format!("task=1\nobjects=2\narity={arity},0,2\nschema=3\ndiffer=0,1\n{lines}end=1\n")
}
