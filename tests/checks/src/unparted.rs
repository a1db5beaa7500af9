//! Tasks to propose parts for, told without any.

/// A task of two objects and these schemas, each told by its lines but the
/// `part` line, parted by spaces; all atoms are in part 0.
pub fn unparted(arities: &str, schemas: &[&str]) -> String {
    let schema = |lines: &&str| {
        let is_atom = |line: &&str| !line.starts_with("schema") && !line.starts_with("differ");
        let atoms = lines.split(' ').filter(is_atom).count();
        let parts = vec!["0"; atoms].join(",");
        format!("{}\npart={parts}\n", lines.replace(' ', "\n"))
    };
    let schemas: String = schemas.iter().map(schema).collect();
    format!("task=1\nobjects=2\narity={arities}\n{schemas}end=1\n")
}

/// A task of one schema with so many atoms, three or more: a test and an add of
/// one parameter, adds of other predicates with it, and last a delete of another
/// parameter. At width 1 all those adds go to the test. The first add can't, as the
/// delete would have to stand between, whatever number it has closed up to.
pub fn barred_by_the_last(atoms: usize) -> String {
    let others: String = (1..atoms - 2).map(|add| format!(" add={add}:0")).collect();
    let arities = vec!["1"; atoms - 2].join(",");
    let schema = format!("schema=2 pre=0:0 add=0:0{others} del=0:1");
    unparted(&arities, &[&schema])
}

/// A task of schemas of one parameter with so many tests of it each: at width 0
/// every atom stays alone, and at width 1 all go together.
pub fn tests_of_one_parameter(schemas: &[usize]) -> String {
    let schema = |tests: &usize| {
        let atoms: String = (0..*tests).map(|test| format!(" pre={test}:0")).collect();
        format!("schema=1{atoms}")
    };
    let most = schemas.iter().max().copied().unwrap_or(1);
    let schemas: Vec<String> = schemas.iter().map(schema).collect();
    let schemas: Vec<&str> = schemas.iter().map(String::as_str).collect();
    unparted(&vec!["1"; most].join(","), &schemas)
}
