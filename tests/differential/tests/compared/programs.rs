//! What the programs are compared by.

use checks::report;
use generate::Random;
use reference::programs::INPUT_BYTES;

/// Requires that the program prints what the reference does; whether that is a
/// refusal.
pub fn refused(found: &[u8], expected: &[u8]) -> bool {
    assert_eq!(
        String::from_utf8_lossy(found),
        String::from_utf8_lossy(expected)
    );
    expected.starts_with(b"refused=")
}

/// Puts programs to many cases, each of which tells whether it is refused, and
/// tells the log how many were; that number.
pub fn refusals(
    what: &str,
    seed: u64,
    cases: usize,
    mut refused: impl FnMut(&mut Random) -> bool,
) -> usize {
    let mut random = Random::new(seed);
    let refusals = (0..cases).filter(|_| refused(&mut random)).count();
    report(&format!("{what}, refused"), refusals);
    report(&format!("{what}, not refused"), cases - refusals);
    refusals
}

/// "A program takes the first 65,536 bytes of an input": the line that ends
/// there is whole, the one that ends behind is not.
pub fn require_so_many_bytes(printed_for: impl Fn(&[u8]) -> Vec<u8>) {
    for (bytes, refusal) in [(INPUT_BYTES, "4:3"), (INPUT_BYTES + 2, "3:3")] {
        let task = long_text("task=1\nobjects=10\narity=0", bytes);
        let expected = format!("refused={refusal}\n").into_bytes();
        assert_eq!(printed_for(&task), expected);
    }
}

/// A line of so many bytes in all, its list in form but too long.
pub fn long_text(beginning: &str, bytes: usize) -> Vec<u8> {
    let mut text = format!("{beginning}{}", ",0".repeat(INPUT_BYTES));
    text.truncate(bytes - 1);
    text.push('\n');
    text.into_bytes()
}
