//! The crate aho-corasick as a peer of the board, called from C (boardpeers.c).

use aho_corasick::{AhoCorasick, AhoCorasickBuilder};
use std::slice::from_raw_parts;

/// Builds the automaton of some codes, whose bytes stand one after the other, as the crate does it unless it is told otherwise: with prefilters.
#[no_mangle]
pub unsafe extern "C" fn crate_build(lengths: *const u32, count: usize, bytes: *const u8, size: usize, dfa: bool) -> *mut AhoCorasick {
    let mut rest = from_raw_parts(bytes, size);
    let mut codes = Vec::with_capacity(count);
    for length in from_raw_parts(lengths, count) {
        let (code, behind) = rest.split_at(*length as usize);
        codes.push(code);
        rest = behind;
    }
    Box::into_raw(Box::new(AhoCorasickBuilder::new().dfa(dfa).build(codes)))
}

/// Writes all hits into two lists, which have room for them, and answers how many.
#[no_mangle]
pub unsafe extern "C" fn crate_find(built: *const AhoCorasick, text: *const u8, n: usize, places: *mut u32, numbers: *mut u32) -> usize {
    let mut hits = 0;
    for hit in (*built).find_overlapping_iter(from_raw_parts(text, n)) {
        *places.add(hits) = hit.start() as u32;
        *numbers.add(hits) = hit.pattern() as u32 + 1;
        hits += 1;
    }
    hits
}

#[no_mangle]
pub unsafe extern "C" fn crate_drop(built: *mut AhoCorasick) {
    drop(Box::from_raw(built));
}
