//! Link texts, cut at line ends and bars.
use super::{Link, No, MOST_BYTES, MOST_LINKS};

/// A decimal number of 32 bits without a leading zero.
pub fn number(field: &[u8]) -> Option<u32> {
    if field.is_empty() || !field.iter().all(u8::is_ascii_digit) || (field[0] == b'0' && field.len() > 1) {
        return None;
    }
    std::str::from_utf8(field).ok()?.parse::<u32>().ok()
}

/// A line that reads as a link.
fn link(line: &[u8]) -> Option<Link> {
    let fields: Vec<&[u8]> = line.split(|c| *c == b'|').collect();
    if fields.len() != 3 {
        return None;
    }
    let relation = match fields[2] {
        b"-1" => 1,
        b"0" => 0,
        _ => return None,
    };
    Some(Link { a: number(fields[0])?, b: number(fields[1])?, relation })
}

/// The lines of a text, without their LF. The last LF may be missing.
fn lines(text: &[u8]) -> Vec<&[u8]> {
    let mut all: Vec<&[u8]> = text.split(|c| *c == b'\n').collect();
    if all.last().is_some_and(|l| l.is_empty()) {
        all.pop();
    }
    all
}

/// The links of a text: byte limit; then lines in order, 9 at the first bad line or 1 at the 1,537th readable link line.
pub fn read_text(text: &[u8]) -> Result<Vec<Link>, No> {
    if text.len() > MOST_BYTES {
        return Err((1, 0));
    }
    let mut links = Vec::new();
    for (i, line) in lines(text).into_iter().enumerate() {
        if line.first() == Some(&b'#') {
            continue;
        }
        let Some(l) = link(line) else { return Err((9, i + 1)) };
        if links.len() == MOST_LINKS {
            return Err((1, 0));
        }
        links.push(l);
    }
    Ok(links)
}
