//! Sheets written, read and judged.
use super::{read_text, Line, Network, No, MOST_BYTES, MOST_LENGTH};
use std::collections::{BTreeMap, HashMap};

/// The sheet of a destination and lines.
pub fn sheet(d: u32, table: &BTreeMap<u32, Line>) -> Vec<u8> {
    let mut out = vec![1, 0, 4];
    out.extend(d.to_be_bytes());
    out.push(2);
    out.extend(((11 * table.len()) as u16).to_be_bytes());
    for (u, line) in table {
        out.extend(u.to_be_bytes());
        out.push(line.0 as u8);
        out.extend((line.1 as u16).to_be_bytes());
        out.extend(line.2.to_be_bytes());
    }
    out
}

/// Text to sheet, into so many bytes: text, 2 to 6, 7, 8.
pub fn text_to_sheet(text: &[u8], d: u32, bytes: usize) -> Result<Vec<u8>, No> {
    let net = Network::new(&read_text(text)?)?;
    let table = net.table(d).ok_or((7, 0))?;
    let out = sheet(d, &table);
    if out.len() > bytes {
        return Err((8, 0));
    }
    Ok(out)
}

/// Where a sheet's form is broken.
fn broken_at(s: &[u8]) -> Option<usize> {
    for (i, want) in [(0, 1), (1, 0), (2, 4), (7, 2)] {
        match s.get(i) {
            None => return Some(s.len()),
            Some(b) if *b != want => return Some(i),
            _ => {}
        }
    }
    if s.len() < 10 {
        return Some(s.len());
    }
    let n = usize::from(u16::from_be_bytes([s[8], s[9]]));
    if n % 11 != 0 || n != s.len() - 10 {
        return Some(8);
    }
    None
}

/// Destination and lines of a sheet: 1, 10.
pub fn read_sheet(s: &[u8]) -> Result<(u32, Vec<(u32, Line)>), No> {
    if s.len() > MOST_BYTES {
        return Err((1, 0));
    }
    if let Some(place) = broken_at(s) {
        return Err((10, place));
    }
    let word = |c: &[u8]| u32::from_be_bytes([c[0], c[1], c[2], c[3]]);
    let line = |c: &[u8]| (word(c), (u32::from(c[4]), u32::from(u16::from_be_bytes([c[5], c[6]])), word(&c[7..])));
    Ok((word(&s[3..]), s[10..].chunks(11).map(line).collect()))
}

/// The lowest line that cannot stand, or the shorter count where lines are missing or left over.
fn cannot_stand(net: &Network, lines: &[(u32, Line)]) -> Option<usize> {
    let stands = |(due, (u, (t, l, _))): (&u32, &(u32, Line))| {
        due == u && (1..=4).contains(t) && !(*t == 4 && *l > 0) && *l <= MOST_LENGTH
    };
    let shorter = lines.len().min(net.ases.len());
    let place = net.ases.iter().zip(lines).position(|pair| !stands(pair));
    place.or((lines.len() != net.ases.len()).then_some(shorter))
}

/// What the judge says of a sheet for a text: 1 for either's bytes; the text; 2 to 6; 10; 7; 11; 12.
pub fn judge(text: &[u8], s: &[u8]) -> Result<(), No> {
    if text.len() > MOST_BYTES || s.len() > MOST_BYTES {
        return Err((1, 0));
    }
    let net = Network::new(&read_text(text)?)?;
    let (d, lines) = read_sheet(s)?;
    if !net.ases.contains(&d) {
        return Err((7, 0));
    }
    if let Some(place) = cannot_stand(&net, &lines) {
        return Err((11, place));
    }
    let printed: HashMap<u32, Line> = lines.iter().copied().collect();
    match lines.iter().position(|(u, line)| *line != net.due(*u, d, &printed)) {
        Some(place) => Err((12, place)),
        None => Ok(()),
    }
}
