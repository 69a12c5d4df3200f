//! How much stack each exported function takes on a network of full size: a thread is started on memory that is filled with a pattern,
//! and what it has changed is counted. What the thread itself takes is measured alone and taken off.
#[path = "../inputs/mod.rs"]
mod inputs;

use bostuvrel::Link;
use inputs::{hierarchy, numbered, text, Numbers, Random};
use std::ffi::c_void;
use std::ptr::null_mut;

/// What an exported function may take.
const MOST: usize = 128 * 1024;

const FILLED: u8 = 0xa5;

#[derive(Clone)]
#[repr(align(4096))]
struct Page([u8; 4096]);

/// glibc's `pthread_attr_t`, which has 56 bytes on x86-64.
#[repr(C, align(16))]
struct Attributes([u64; 16]);

extern "C" {
    fn pthread_attr_init(attributes: *mut Attributes) -> i32;
    fn pthread_attr_setstack(attributes: *mut Attributes, stack: *mut c_void, bytes: usize) -> i32;
    fn pthread_attr_destroy(attributes: *mut Attributes) -> i32;
    fn pthread_create(
        thread: *mut usize,
        attributes: *const Attributes,
        start: extern "C" fn(*mut c_void) -> *mut c_void,
        call: *mut c_void,
    ) -> i32;
    fn pthread_join(thread: usize, result: *mut *mut c_void) -> i32;
}

extern "C" fn start(call: *mut c_void) -> *mut c_void {
    // SAFETY: `touched` hands over a pointer to its call, which lives until the thread is joined.
    unsafe { (*call.cast::<&mut dyn FnMut()>())() };
    null_mut()
}

/// How many bytes of its stack a thread touches that makes one call.
fn touched(mut call: &mut dyn FnMut()) -> usize {
    let mut stack = vec![Page([FILLED; 4096]); 256];
    let bytes = 4096 * stack.len();
    let (mut attributes, mut thread) = (Attributes([0; 16]), 0);
    let call: *mut &mut dyn FnMut() = &mut call;
    // SAFETY: the stack is memory of ours of the size that is said, and outlives the thread, as does the call.
    unsafe {
        assert_eq!(pthread_attr_init(&mut attributes), 0);
        assert_eq!(pthread_attr_setstack(&mut attributes, stack.as_mut_ptr().cast(), bytes), 0);
        assert_eq!(pthread_create(&mut thread, &attributes, start, call.cast()), 0);
        assert_eq!(pthread_join(thread, null_mut()), 0);
        assert_eq!(pthread_attr_destroy(&mut attributes), 0);
    }
    // The stack grows down from the end
    let left = stack.iter().flat_map(|page| page.0).take_while(|byte| *byte == FILLED).count();
    bytes - left
}

#[test]
fn stays_small() {
    let mut r = Random::new(1);
    let places = hierarchy(&mut r, 512, 1_536);
    let network = numbered(&mut r, &places, Numbers::Spread);
    let links: Vec<Link> = network.iter().map(|l| Link { a: l.a, b: l.b, relation: u32::from(l.provides) }).collect();
    let (text, d) = (text(&network), network[0].b);
    let sheet = bostuvrel::sheet(&text, d).unwrap();
    let (mut bytes, mut words) = (vec![0; bostuvrel::LONGEST_SHEET], vec![0; bostuvrel::LONGEST_TABLE]);
    let mut more_words = words.clone();
    let mut calls: [(&str, &mut dyn FnMut()); 6] = [
        ("check", &mut || assert!(bostuvrel::check_links(&links).is_ok())),
        ("table", &mut || assert!(bostuvrel::stable_table_into(&links, d, &mut words).is_ok())),
        ("sheet", &mut || assert!(bostuvrel::sheet_into(&text, d, &mut bytes).is_ok())),
        ("judge", &mut || assert!(bostuvrel::judge(&text, &sheet).is_ok())),
        ("findings", &mut || assert!(bostuvrel::findings(&text).is_ok())),
        ("run", &mut || assert!(bostuvrel::run_into(&text, d, &[], 65_536, &mut more_words).is_ok())),
    ];
    let alone = touched(&mut || ());
    let taken: Vec<(&str, usize)> = calls.iter_mut().map(|(name, call)| (*name, touched(call) - alone)).collect();
    for (name, bytes) in &taken {
        println!("bostuvrel_{name}: {:.1} KiB of stack", *bytes as f64 / 1024.0);
    }
    for (name, bytes) in taken {
        assert!(bytes < MOST, "bostuvrel_{name} takes {bytes} bytes of stack");
    }
}
