//! The six exported functions of the proved crate `storefront_c`, and how their replies are packed.
//!
//! A slice passes as a pointer and a count of elements. The reply's top byte is the refusal number, 0 for accepted; then the low 56
//! bits are the value, or bits 28 to 55 the place and bits 0 to 27 its second number.
use crate::{Counts, Findings, Link, Refusal};

extern "C" {
    fn bostuvrel_sheet(text: *const u8, text_len: usize, destination: u32, sheet: *mut u8, sheet_len: usize) -> u64;
    fn bostuvrel_judge(text: *const u8, text_len: usize, sheet: *const u8, sheet_len: usize) -> u64;
    fn bostuvrel_findings(text: *const u8, text_len: usize) -> u64;
    fn bostuvrel_run(
        text: *const u8,
        text_len: usize,
        destination: u32,
        choices: *const u32,
        choices_len: usize,
        further: u32,
        table: *mut u32,
        table_len: usize,
    ) -> u64;
    fn bostuvrel_check(links: *const Link, links_len: usize) -> u64;
    fn bostuvrel_table(links: *const Link, links_len: usize, destination: u32, table: *mut u32, table_len: usize) -> u64;
}

/// The low so many bits of a word, from one of its bits on.
fn bits(word: u64, from: u32, count: u32) -> u32 {
    (word >> from & ((1 << count) - 1)) as u32
}

/// The value of a reply, or its refusal.
fn reply(packed: u64) -> Result<u64, Refusal> {
    match (packed >> 56) as u8 {
        0 => Ok(packed),
        number => Err(Refusal::new(number, bits(packed, 28, 28))),
    }
}

/// The value is the number of bytes written.
pub fn sheet(text: &[u8], destination: u32, sheet: &mut [u8]) -> Result<usize, Refusal> {
    // SAFETY: both slices are lent for the call, with their own lengths; the library reads the one and writes the other within them.
    let packed = unsafe { bostuvrel_sheet(text.as_ptr(), text.len(), destination, sheet.as_mut_ptr(), sheet.len()) };
    reply(packed).map(|written| written as usize)
}

/// The value is 0.
pub fn judge(text: &[u8], sheet: &[u8]) -> Result<(), Refusal> {
    // SAFETY: both slices are lent for the call, with their own lengths, and only read.
    reply(unsafe { bostuvrel_judge(text.as_ptr(), text.len(), sheet.as_ptr(), sheet.len()) }).map(|_| ())
}

/// The value is 1 for a ring, plus 2 if joined.
pub fn findings(text: &[u8]) -> Result<Findings, Refusal> {
    // SAFETY: the slice is lent for the call, with its own length, and only read.
    let value = reply(unsafe { bostuvrel_findings(text.as_ptr(), text.len()) })?;
    Ok(Findings { customer_ring: bits(value, 0, 1) == 1, joined: bits(value, 1, 1) == 1 })
}

/// The value is deliveries + idle * 2^20 + quiet * 2^40.
pub fn run(text: &[u8], destination: u32, choices: &[u32], further: u32, table: &mut [u32]) -> Result<Counts, Refusal> {
    // SAFETY: the three slices are lent for the call, with their own lengths; the library writes the table alone, within it.
    let packed = unsafe {
        bostuvrel_run(
            text.as_ptr(),
            text.len(),
            destination,
            choices.as_ptr(),
            choices.len(),
            further,
            table.as_mut_ptr(),
            table.len(),
        )
    };
    let value = reply(packed)?;
    Ok(Counts { deliveries: bits(value, 0, 20), idle: bits(value, 20, 20), quiet: bits(value, 40, 1) == 1 })
}

/// The value is the number of ASes.
pub fn check(links: &[Link]) -> Result<usize, Refusal> {
    // SAFETY: the slice is lent for the call, with its own length, and only read; a link is a `repr(C)` record of three words, as there.
    reply(unsafe { bostuvrel_check(links.as_ptr(), links.len()) }).map(|ases| ases as usize)
}

/// The value is the number of words written.
pub fn table(links: &[Link], destination: u32, table: &mut [u32]) -> Result<usize, Refusal> {
    // SAFETY: both slices are lent for the call, with their own lengths; the library reads the one, whose links are `repr(C)` records of
    // three words, as there, and writes the other within it.
    let packed = unsafe { bostuvrel_table(links.as_ptr(), links.len(), destination, table.as_mut_ptr(), table.len()) };
    reply(packed).map(|written| written as usize)
}
