//! What the program prints for its standard input.
use super::texts::number;
use super::{read_text, run, Network, No, MOST_BYTES};

/// The report, or one line for a refusal.
pub fn program(input: &[u8]) -> String {
    match report(input) {
        Ok(text) => text,
        Err((number, place)) => format!("refused {number} {place}\n"),
    }
}

fn report(input: &[u8]) -> Result<String, No> {
    if input.len() > MOST_BYTES {
        return Err((1, 0));
    }
    let cut = input.iter().position(|&c| c == b'\n').unwrap_or(input.len());
    let d = number(&input[..cut]).ok_or((9, 0))?;
    let text = input.get(cut + 1..).unwrap_or(&[]);
    let net = Network::new(&read_text(text)?)?;
    let ran = run(text, d, &[], 65536, usize::MAX)?;
    let yes = |b: bool| if b { "yes" } else { "no" };
    let mut out = format!("destination {d}\ncustomer-ring {}\njoined {}\n", yes(net.ring()), yes(net.joined()));
    for (u, (t, l, h)) in &ran.lines {
        out += &format!("{u} {t} {l} {h}\n");
    }
    out += &format!("{} {}\n", if ran.quiet { "quiet" } else { "stopped" }, ran.made);
    Ok(out)
}
