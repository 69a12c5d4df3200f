//! Sheets written and judged.
use super::network::Network;
use super::table::Line;
use super::{No, MOST_LENGTH};

const HEAD: usize = 10;
const BYTES: usize = 11;

fn word(bytes: &[u8]) -> u32 {
    u32::from_be_bytes([bytes[0], bytes[1], bytes[2], bytes[3]])
}

/// How many bytes were written, or refusal 8.
pub fn write(net: &Network, destination: u32, lines: &[Line], bytes: &mut [u8]) -> Result<usize, No> {
    let size = BYTES * lines.len();
    let Some(bytes) = bytes.get_mut(..HEAD + size) else { return Err((8, 0)) };
    bytes[..3].copy_from_slice(&[1, 0, 4]);
    bytes[3..7].copy_from_slice(&destination.to_be_bytes());
    bytes[7] = 2;
    bytes[8..10].copy_from_slice(&(size as u16).to_be_bytes());
    for ((number, line), out) in net.ases.iter().zip(lines).zip(bytes[HEAD..].chunks_exact_mut(BYTES)) {
        out[..4].copy_from_slice(&number.to_be_bytes());
        out[4] = line.typ as u8;
        out[5..7].copy_from_slice(&(line.length as u16).to_be_bytes());
        out[7..].copy_from_slice(&net.ases[line.next as usize].to_be_bytes());
    }
    Ok(HEAD + size)
}

/// Refusal 10, or the form is right.
fn check_form(sheet: &[u8]) -> Result<(), No> {
    for (place, due) in [(0, 1), (1, 0), (2, 4), (7, 2)] {
        if sheet.get(place) != Some(&due) {
            return Err((10, place.min(sheet.len())));
        }
    }
    if sheet.len() < HEAD {
        return Err((10, sheet.len()));
    }
    let said = usize::from(u16::from_be_bytes([sheet[8], sheet[9]]));
    if said != sheet.len() - HEAD || said % BYTES != 0 {
        return Err((10, 8));
    }
    Ok(())
}

/// The pairs and next hops of the lines, or refusal 11.
fn standing(net: &Network, lines: &[u8]) -> Result<Vec<(u32, u32, u32)>, No> {
    let mut all = Vec::with_capacity(net.ases.len());
    for (i, (bytes, due)) in lines.chunks_exact(BYTES).zip(&net.ases).enumerate() {
        let (typ, length) = (u32::from(bytes[4]), u32::from(u16::from_be_bytes([bytes[5], bytes[6]])));
        let stands = word(bytes) == *due && (1..=4).contains(&typ) && (typ < 4 || length == 0) && length <= MOST_LENGTH;
        if !stands {
            return Err((11, i));
        }
        all.push((typ, length, word(&bytes[7..])));
    }
    if lines.len() != BYTES * net.ases.len() {
        return Err((11, all.len()));
    }
    Ok(all)
}

/// The best offer to each AS as one number: type, length, neighbour's place.
fn best_offers(net: &Network, lines: &[(u32, u32, u32)]) -> Vec<u64> {
    let mut best = vec![u64::MAX; lines.len()];
    let mut offer = |hearer: u32, kind: u32, teller: u32| {
        let (typ, length, _) = lines[teller as usize];
        if typ == 1 || (kind == 3 && typ < 4) {
            let offer = u64::from(kind) << 48 | u64::from(length + 1) << 32 | u64::from(teller);
            best[hearer as usize] = best[hearer as usize].min(offer);
        }
    };
    for l in &net.links {
        let (heard_by_b, heard_by_a) = if l.provides { (3, 1) } else { (2, 2) };
        offer(l.b, heard_by_b, l.a);
        offer(l.a, heard_by_a, l.b);
    }
    best
}

/// 10, 7, 11, 12.
pub fn judge(net: &Network, sheet: &[u8]) -> Result<(), No> {
    check_form(sheet)?;
    let d = net.place_of(word(&sheet[3..]))?;
    let lines = standing(net, &sheet[HEAD..])?;
    let best = best_offers(net, &lines);
    for (u, (line, best)) in lines.iter().zip(best).enumerate() {
        let due = if u == d {
            (1, 0, net.ases[u])
        } else if best == u64::MAX {
            (4, 0, net.ases[u])
        } else {
            ((best >> 48) as u32, (best >> 32) as u32 & 0xffff, net.ases[best as u32 as usize])
        };
        if *line != due {
            return Err((12, u));
        }
    }
    Ok(())
}
