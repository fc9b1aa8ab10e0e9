//! The library's calls as Rust declares them, and one safe function over each. include/krzewido.h says the same to C.
//! A program that uses this file uses only some of them.
#![allow(dead_code)]

pub use crate::records::*;

/// Declares calls that begin with the parts of a set.
macro_rules! over_a_set {
    ($($name:ident($($arg:ident: $kind:ty),*) -> $out:ty;)*) => {
        extern "C" {
            $(fn $name(
                text: *const u8, text_len: usize,
                starts: *const u32, starts_len: usize,
                east: *const i32, east_len: usize,
                north: *const i32, north_len: usize,
                score: *const u32, score_len: usize,
                grid: Grid,
                order: *const u32, order_len: usize,
                nodes: *const u32, nodes_len: usize,
                entries: *const u32, entries_len: usize,
                bits: *const u32, bits_len: usize
                $(, $arg: $kind)*
            ) -> $out;)*
        }
    };
}

over_a_set! {
    krz_check() -> Checked;
    krz_range(typed: *const u8, typed_len: usize, rect: Rect, found: *mut u32, found_len: usize) -> Found;
    krz_any(typed: *const u8, typed_len: usize, rect: Rect) -> AnyFound;
    krz_ranked(typed: *const u8, typed_len: usize, place: Place, weight: u32, k: u32, found: *mut u32, found_len: usize, values: *mut u64, values_len: usize) -> Found;
    krz_range_typed(session: Session, rect: Rect, found: *mut u32, found_len: usize) -> Found;
    krz_any_typed(session: Session, rect: Rect) -> AnyFound;
    krz_ranked_typed(session: Session, place: Place, weight: u32, k: u32, found: *mut u32, found_len: usize, values: *mut u64, values_len: usize) -> Found;
    krz_type(session: *mut Session, byte: u8) -> u32;
    krz_rub_out(session: *mut Session) -> u32;
}

extern "C" {
    fn krz_region(grid: Grid, place: Place) -> Located;
    fn krz_build(
        text: *const u8, text_len: usize,
        starts: *const u32, starts_len: usize,
        east: *const i32, east_len: usize,
        north: *const i32, north_len: usize,
        score: *const u32, score_len: usize,
        grid: Grid,
        order: *mut u32, order_len: usize,
        nodes: *mut u32, nodes_len: usize,
        entries: *mut u32, entries_len: usize,
        bits: *mut u32, bits_len: usize,
    ) -> Built;
    fn krz_fresh() -> Session;
    fn krz_rest(text: *const u8, text_len: usize, starts: *const u32, starts_len: usize, stand: u32, typed: *const u8, typed_len: usize) -> Part;
}

macro_rules! call {
    ($name:ident, $set:expr $(, $arg:expr)*) => {{
        let set: &Set = $set;
        unsafe {
            $name(
                set.text.as_ptr(), set.text.len(),
                set.starts.as_ptr(), set.starts.len(),
                set.east.as_ptr(), set.east.len(),
                set.north.as_ptr(), set.north.len(),
                set.score.as_ptr(), set.score.len(),
                set.grid,
                set.order.as_ptr(), set.order.len(),
                set.nodes.as_ptr(), set.nodes.len(),
                set.entries.as_ptr(), set.entries.len(),
                set.bits.as_ptr(), set.bits.len()
                $(, $arg)*
            )
        }
    }};
}

pub fn region(grid: Grid, place: Place) -> Located {
    unsafe { krz_region(grid, place) }
}

/// The set's own index is not looked at.
pub fn build(table: &Set, order: &mut [u32], nodes: &mut [u32], entries: &mut [u32], bits: &mut [u32]) -> Built {
    unsafe {
        krz_build(
            table.text.as_ptr(), table.text.len(),
            table.starts.as_ptr(), table.starts.len(),
            table.east.as_ptr(), table.east.len(),
            table.north.as_ptr(), table.north.len(),
            table.score.as_ptr(), table.score.len(),
            table.grid,
            order.as_mut_ptr(), order.len(),
            nodes.as_mut_ptr(), nodes.len(),
            entries.as_mut_ptr(), entries.len(),
            bits.as_mut_ptr(), bits.len(),
        )
    }
}

pub fn check(set: &Set) -> Checked {
    call!(krz_check, set)
}

pub fn range(set: &Set, typed: &[u8], rect: Rect, found: &mut [u32]) -> Found {
    call!(krz_range, set, typed.as_ptr(), typed.len(), rect, found.as_mut_ptr(), found.len())
}

pub fn any(set: &Set, typed: &[u8], rect: Rect) -> AnyFound {
    call!(krz_any, set, typed.as_ptr(), typed.len(), rect)
}

pub fn ranked(set: &Set, typed: &[u8], asked: Ranking, found: &mut [u32], values: &mut [u64]) -> Found {
    call!(
        krz_ranked, set, typed.as_ptr(), typed.len(), asked.place, asked.weight, asked.k,
        found.as_mut_ptr(), found.len(), values.as_mut_ptr(), values.len()
    )
}

pub fn range_typed(set: &Set, session: Session, rect: Rect, found: &mut [u32]) -> Found {
    call!(krz_range_typed, set, session, rect, found.as_mut_ptr(), found.len())
}

pub fn any_typed(set: &Set, session: Session, rect: Rect) -> AnyFound {
    call!(krz_any_typed, set, session, rect)
}

pub fn ranked_typed(set: &Set, session: Session, asked: Ranking, found: &mut [u32], values: &mut [u64]) -> Found {
    call!(
        krz_ranked_typed, set, session, asked.place, asked.weight, asked.k,
        found.as_mut_ptr(), found.len(), values.as_mut_ptr(), values.len()
    )
}

pub fn fresh() -> Session {
    unsafe { krz_fresh() }
}

pub fn type_byte(set: &Set, session: &mut Session, byte: u8) -> u32 {
    call!(krz_type, set, session, byte)
}

pub fn rub_out(set: &Set, session: &mut Session) -> u32 {
    call!(krz_rub_out, set, session)
}

pub fn rest(text: &[u8], starts: &[u32], stand: u32, typed: &[u8]) -> Part {
    unsafe { krz_rest(text.as_ptr(), text.len(), starts.as_ptr(), starts.len(), stand, typed.as_ptr(), typed.len()) }
}
