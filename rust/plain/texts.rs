//! Link texts in one pass over their bytes.
use super::{No, MOST_BYTES, MOST_LINKS};

#[derive(Clone, Copy)]
#[repr(C)]
pub struct Link {
    pub a: u32,
    pub b: u32,
    /// 0 peers, 1 a is provider of b.
    pub relation: u32,
}

/// A number that ends in a bar, from a byte on: its value and the byte behind the bar.
fn number(text: &[u8], from: usize) -> Option<(u32, usize)> {
    let mut value: u64 = 0;
    let mut at = from;
    while let Some(digit) = text.get(at).map(|byte| byte.wrapping_sub(b'0')).filter(|digit| *digit < 10) {
        value = 10 * value + u64::from(digit);
        if value > u64::from(u32::MAX) {
            return None;
        }
        at += 1;
    }
    let in_form = at > from && (text[from] != b'0' || at == from + 1);
    (in_form && text.get(at) == Some(&b'|')).then_some((value as u32, at + 1))
}

/// A relation that ends a line, from a byte on, and the byte behind its LF.
fn relation(text: &[u8], from: usize) -> Option<(u32, usize)> {
    let (relation, end) = match text.get(from)? {
        b'0' => (0, from + 1),
        b'-' if text.get(from + 1) == Some(&b'1') => (1, from + 2),
        _ => return None,
    };
    match text.get(end) {
        None => Some((relation, end)),
        Some(b'\n') => Some((relation, end + 1)),
        Some(_) => None,
    }
}

/// A link line from a byte on, and the byte behind it.
fn link(text: &[u8], from: usize) -> Option<(Link, usize)> {
    let (a, at) = number(text, from)?;
    let (b, at) = number(text, at)?;
    let (relation, at) = relation(text, at)?;
    Some((Link { a, b, relation }, at))
}

pub fn read_text(text: &[u8]) -> Result<Vec<Link>, No> {
    if text.len() > MOST_BYTES {
        return Err((1, 0));
    }
    let mut links = Vec::with_capacity((text.len() / 6).min(MOST_LINKS));
    let mut at = 0;
    let mut line = 0;
    while at < text.len() {
        line += 1;
        if text[at] == b'#' {
            at = text[at..].iter().position(|byte| *byte == b'\n').map_or(text.len(), |lf| at + lf + 1);
            continue;
        }
        let Some((link, next)) = link(text, at) else { return Err((9, line)) };
        if links.len() == MOST_LINKS {
            return Err((1, 0));
        }
        links.push(link);
        at = next;
    }
    Ok(links)
}
