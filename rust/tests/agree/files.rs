//! The two stored inputs of the program whose runs end at the limit: quiet after exactly 65,536 deliveries, and stopped there.
use crate::compare::Compare;
use crate::second;

/// The input's destination and link text.
fn parts(input: &[u8]) -> (u32, &[u8]) {
    let cut = input.iter().position(|byte| *byte == b'\n').unwrap();
    (std::str::from_utf8(&input[..cut]).unwrap().parse().unwrap(), &input[cut + 1..])
}

#[test]
fn end_at_the_limit() {
    let files: [(&[u8], bool); 2] =
        [(include_bytes!("../../quiet_65536.txt"), true), (include_bytes!("../../stopped_65536.txt"), false)];
    for (input, quiet) in files {
        let (d, text) = parts(input);
        let ran = Compare::new().run(text, d, &[], 65_536, bostuvrel::LONGEST_TABLE).unwrap();
        assert_eq!((ran.made, ran.idle, ran.quiet), (65_536, 0, quiet));
        let due = if quiet { "quiet 65536" } else { "stopped 65536" };
        assert_eq!(second::program(input).lines().last(), Some(due));
    }
}
