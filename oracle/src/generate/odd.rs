//! Lines that are no commands, or are just about commands.

use super::draft::{Draft, Words};

/// The letters of the commands.
pub const LETTERS: &[u8] = b"NEUFXDWGMBASCZ";

/// Bytes that have no place in a script, or that come where they should not.
pub const BYTES: &[u8] = b" -+\t\r\0.,?_0179NESxn\x1f\x7f\x80\xa0\xc3\xff";

/// First bytes that are no letters of commands.
const NO_LETTERS: &[u8] = b"HIJKLOPQRTVY?!#-+0 \t\r\0\x7f\x80\xff";

/// Spellings at the edges of what is a number. Some of them are good in some places:
/// `-0` and 2147483647 as N's weight, 4294967295 everywhere else.
pub const NUMBERS: [&str; 32] = [
    "",
    "-",
    "--1",
    "-0",
    "-1",
    "-0000000000",
    "-00000000000",
    "-2147483647",
    "-2147483648",
    "-2147483649",
    "-9999999999",
    "+0",
    "+1",
    "-+1",
    "0000000000",
    "00000000000",
    "0000000001",
    "00000000001",
    "2147483647",
    "2147483648",
    "4294967295",
    "4294967296",
    "9999999999",
    "10000000000",
    "18446744073709551616",
    "1-",
    "1.5",
    "1,2",
    "0x1",
    "1e1",
    "a",
    "\u{664}",
];

/// A line that is odd in one way or, seldom, in two.
pub fn line(draft: &mut Draft) -> Vec<u8> {
    if draft.random.one_in(16) {
        return Vec::new();
    }
    let letter = draft.random.pick(LETTERS);
    let mut words = draft.words(letter);
    if draft.random.one_in(2) {
        odd_word(draft, &mut words);
        if !draft.random.one_in(16) {
            return words.line();
        }
    }
    let mut line = words.line();
    odd_byte(draft, &mut line);
    line
}

/// Spoils a line in its letter, in one of its numbers, or in how many there are.
fn odd_word(draft: &mut Draft, words: &mut Words) {
    let count = words.numbers.len();
    match draft.random.below(8) {
        0 => words.letter = words.letter.to_ascii_lowercase(),
        1 => words.letter = draft.random.pick(NO_LETTERS),
        2 => words.numbers.push(draft.random.pick(&NUMBERS).to_string()),
        3 if count > 0 => words.numbers.truncate(draft.random.below(count)),
        _ if count > 0 => {
            let at = draft.random.below(count);
            words.numbers[at] = draft.random.pick(&NUMBERS).to_string();
        }
        _ => words.numbers.push("0".to_string()),
    }
}

/// Spoils a line by one byte too many or a wrong one, often at its end or at a space.
fn odd_byte(draft: &mut Draft, line: &mut Vec<u8>) {
    let byte = draft.random.pick(BYTES);
    let anywhere = draft.random.below(line.len());
    let space = line.iter().position(|&byte| byte == b' ');
    match draft.random.below(6) {
        0 => line.insert(0, byte),
        1 => line.insert(anywhere, byte),
        2 => line[anywhere] = byte,
        3 => line.insert(space.unwrap_or(line.len()), b' '),
        4 => line[space.unwrap_or(0)] = byte,
        _ => line.push(draft.random.pick(b" \r\t\0\xff")),
    }
}
