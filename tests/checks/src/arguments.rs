//! Arguments of the program `propose`.

/// Arguments that are no width: none, more than one, and one that is no number
/// from 0 to 12 in the form that numbers have in a text.
pub const STRANGE: [&[&str]; 28] = [
    &[],
    &["2", "2"],
    &["2", ""],
    &["", "2"],
    &["2"; 9],
    &[""],
    &["13"],
    &["14"],
    &["99"],
    &["00"],
    &["02"],
    &["012"],
    &["+2"],
    &["-1"],
    &["-0"],
    &[" 2"],
    &["2 "],
    &["2\n"],
    &["2,"],
    &["a"],
    &["0x2"],
    &["1.0"],
    &["1e1"],
    &["²"],
    &["65538"],
    &["100002"],
    &["4294967298"],
    &["18446744073709551618"],
];

/// The bytes of arguments.
pub fn bytes<'a>(arguments: &[&'a str]) -> Vec<&'a [u8]> {
    let arguments = arguments.iter();
    arguments.map(|argument| argument.as_bytes()).collect()
}
