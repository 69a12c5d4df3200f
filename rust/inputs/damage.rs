//! Texts with something amiss, or with something odd that is allowed.
use super::Random;

/// Lines that do not read, lines that hardly read, and lines that no network can have.
const LINES: [&str; 40] = [
    "",
    " ",
    "#",
    "# a comment\r",
    "#\0\x01",
    " # no comment",
    "1|2|0\r",
    "1|2",
    "1|2|",
    "1||0",
    "|2|0",
    "||",
    "|",
    "1|2|0|",
    "1|2|0|bgp",
    "1|2|1",
    "1|2|-0",
    "1|2|+1",
    "1|2|--1",
    "1|2|-1 ",
    " 1|2|0",
    "1 |2|0",
    "+1|2|0",
    "-1|2|0",
    "01|2|0",
    "1|00|0",
    "1|2|00",
    "1|2|-01",
    "0|2|0",
    "2|0|-1",
    "0|0|0",
    "9|9|0",
    "4294967295|7|-1",
    "4294967296|7|-1",
    "7|4294967296|0",
    "99999999999999999999|1|0",
    "18446744073709551617|3|0",
    "1x|2|0",
    "1|2|O",
    "1\u{b2}|2|0",
];

/// Bytes that mean something in a text, and some that do not.
const BYTES: &[u8] = b"0123456789|-#\n\r \t+\0xA\xff";

/// A text with one to three things done to it.
pub fn damaged(r: &mut Random, text: &[u8]) -> Vec<u8> {
    let mut out = text.to_vec();
    for _ in 0..r.between(1, 3) {
        damage(r, &mut out);
    }
    out
}

/// Does one thing to a text.
fn damage(r: &mut Random, text: &mut Vec<u8>) {
    if text.is_empty() {
        text.push(r.pick(BYTES));
        return;
    }
    let at = r.below(text.len());
    match r.below(10) {
        0 => text[at] ^= 1 << r.below(8),
        1 => text[at] = r.pick(BYTES),
        2 => text.insert(at, r.pick(BYTES)),
        3 => drop(text.remove(at)),
        4 => text.truncate(at),
        5 => drop(text.pop()),
        6 | 7 => {
            let line = r.pick(&LINES);
            insert_line(r, text, line.as_bytes().to_vec());
        }
        8 => repeat_line(r, text),
        _ => text.insert(line_start(text, at), b'0'),
    }
}

/// Where the line of a byte begins.
fn line_start(text: &[u8], at: usize) -> usize {
    text[..at].iter().rposition(|byte| *byte == b'\n').map_or(0, |lf| lf + 1)
}

/// Puts a line before another, or at the end.
fn insert_line(r: &mut Random, text: &mut Vec<u8>, mut line: Vec<u8>) {
    let at = if r.chance(20) { text.len() } else { line_start(text, r.below(text.len())) };
    if at < text.len() || r.chance(70) {
        line.push(b'\n');
    }
    text.splice(at..at, line);
}

/// Puts a line in twice, the second time perhaps the other way round.
fn repeat_line(r: &mut Random, text: &mut Vec<u8>) {
    let start = line_start(text, r.below(text.len()));
    let line = text[start..].split(|byte| *byte == b'\n').next().unwrap_or(&[]).to_vec();
    let mut fields: Vec<&[u8]> = line.split(|byte| *byte == b'|').collect();
    if fields.len() == 3 && r.chance(50) {
        fields.swap(0, 1);
    }
    insert_line(r, text, fields.join(&b'|'));
}
