//! The records that the library's calls take and give, as include/krzewido.h lays them out, and a set lent as its parts.
//! A program that uses this file uses only some of them.
#![allow(dead_code)]

#[repr(C)]
#[derive(Clone, Copy, Debug, PartialEq)]
pub struct Grid {
    pub west: i32,
    pub south: i32,
    pub cell: u32,
}

#[repr(C)]
#[derive(Clone, Copy, Debug, PartialEq)]
pub struct Place {
    pub east: i32,
    pub north: i32,
}

#[repr(C)]
#[derive(Clone, Copy, Debug, PartialEq)]
pub struct Rect {
    pub west: i32,
    pub east: i32,
    pub south: i32,
    pub north: i32,
}

#[repr(C)]
#[derive(Clone, Copy, Debug, PartialEq)]
pub struct Session {
    pub text: [u8; 24],
    pub len: u32,
    pub path: [u32; 25],
}

#[repr(C)]
#[derive(Clone, Copy, Debug, PartialEq)]
pub struct Located {
    pub refusal: u32,
    pub region: u32,
}

#[repr(C)]
#[derive(Clone, Copy, Debug, PartialEq)]
pub struct Built {
    pub refusal: u32,
    pub nodes: u32,
    pub entries: u32,
    pub bits: u32,
}

#[repr(C)]
#[derive(Clone, Copy, Debug, PartialEq)]
pub struct Checked {
    pub lawful: u32,
    pub nodes: u32,
    pub entries: u32,
    pub bits: u32,
}

#[repr(C)]
#[derive(Clone, Copy, Debug, PartialEq)]
pub struct Found {
    pub refusal: u32,
    pub count: u32,
}

#[repr(C)]
#[derive(Clone, Copy, Debug, PartialEq)]
pub struct AnyFound {
    pub refusal: u32,
    pub yes: u32,
    pub stand: u32,
}

#[repr(C)]
#[derive(Clone, Copy, Debug, PartialEq)]
pub struct Part {
    pub start: u32,
    pub length: u32,
}

/// A table and an index of it, lent to a call.
#[derive(Clone, Copy)]
pub struct Set<'a> {
    pub text: &'a [u8],
    pub starts: &'a [u32],
    pub east: &'a [i32],
    pub north: &'a [i32],
    pub score: &'a [u32],
    pub grid: Grid,
    pub order: &'a [u32],
    pub nodes: &'a [u32],
    pub entries: &'a [u32],
    pub bits: &'a [u32],
}

/// What a ranked question asks.
#[derive(Clone, Copy, Debug)]
pub struct Ranking {
    pub place: Place,
    pub weight: u32,
    pub k: u32,
}
