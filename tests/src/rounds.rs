//! One round of what the figures count, by one of those who can do it: what it answers, so that answers can be compared.
//! Nothing that a room held before is in it.

use crate::owned::Owned;
use crate::records::{Found, Rect, Session, Set};
use crate::villages::{Question, WHOLE};
use crate::{finder, plain, port};
use std::hint::black_box;

#[derive(Clone, Copy, PartialEq)]
pub enum Who {
    Finder,
    Plain,
    Port,
    /// A scan that tests the rectangle before the text.
    Near,
    /// A port that changes the session in place.
    InPlace,
}

impl Who {
    pub fn of(word: &str) -> Option<Who> {
        match word {
            "finder" => Some(Who::Finder),
            "plain" => Some(Who::Plain),
            "port" => Some(Who::Port),
            "near" => Some(Who::Near),
            "in-place" => Some(Who::InPlace),
            _ => None,
        }
    }
}

fn build(who: Who, t: &mut Owned) -> Vec<u64> {
    let [mut order, mut nodes, mut entries, mut bits] = [&mut t.order, &mut t.nodes, &mut t.entries, &mut t.bits].map(std::mem::take);
    let built = match who {
        Who::Finder => finder::build(&t.lent(), &mut order, &mut nodes, &mut entries, &mut bits),
        _ => port::build(&t.lent(), &mut order, &mut nodes, &mut entries, &mut bits),
    };
    [t.order, t.nodes, t.entries, t.bits] = [order, nodes, entries, bits];
    [built.refusal, built.nodes, built.entries, built.bits].map(u64::from).to_vec()
}

fn check(who: Who, t: &Owned) -> Vec<u64> {
    let checked = match who {
        Who::Finder => finder::check(&t.lent()),
        _ => port::check(&t.lent()),
    };
    [checked.lawful, checked.nodes, checked.entries, checked.bits].map(u64::from).to_vec()
}

/// A call in a frame of its own. Callgrind on Arm can miss where a call ends, and counts on until its caller returns: with this caller that
/// is a few instructions, and not all that is done with the answer.
#[inline(never)]
fn alone<T>(call: impl FnOnce() -> T) -> T {
    black_box(call())
}

fn told(answer: Found, found: &[u32]) -> impl Iterator<Item = u64> + '_ {
    std::iter::once(u64::from(answer.count)).chain(found[..answer.count as usize].iter().map(|&s| u64::from(s)))
}

fn range(who: Who, set: &Set, letters: &[u8], rect: Rect) -> Vec<u64> {
    let mut found = [0u32; 1_024];
    let answer = alone(|| match who {
        Who::Finder => finder::range(set, letters, rect, &mut found),
        Who::Plain => plain::range(set, letters, rect, &mut found),
        Who::Near => plain::range_near(set, letters, rect, &mut found),
        _ => port::range(set, letters, rect, &mut found),
    });
    told(answer, &found).collect()
}

fn any(who: Who, set: &Set, letters: &[u8], rect: Rect) -> Vec<u64> {
    let answer = alone(|| match who {
        Who::Finder => finder::any(set, letters, rect),
        Who::Plain => plain::any(set, letters, rect),
        _ => port::any(set, letters, rect),
    });
    [answer.refusal, answer.yes, answer.stand].map(u64::from).to_vec()
}

fn ranked(who: Who, set: &Set, letters: &[u8], q: &Question) -> Vec<u64> {
    let mut found = [0u32; 16];
    let mut values = [0u64; 16];
    let answer = alone(|| match who {
        Who::Finder => finder::ranked(set, letters, q.asked, &mut found, &mut values),
        Who::Plain => plain::ranked(set, letters, q.asked, &mut found, &mut values),
        _ => port::ranked(set, letters, q.asked, &mut found, &mut values),
    });
    told(answer, &found).chain(values[..answer.count as usize].iter().copied()).collect()
}

/// Of each letter of a name whether any name goes on so.
fn typing(who: Who, set: &Set, name: &[u8]) -> Vec<u64> {
    let mut session = finder::fresh();
    let mut leads_on = |i: usize, step: &dyn Fn(&mut Session) -> u32| {
        step(&mut session);
        session.path[i + 1] != 0
    };
    let mut told = Vec::with_capacity(name.len());
    for (i, &byte) in name.iter().enumerate() {
        told.push(u64::from(match who {
            Who::Plain => plain::leads_on(set, &name[..=i]),
            Who::Finder => leads_on(i, &|s| finder::type_byte(set, s, byte)),
            Who::InPlace => leads_on(i, &|s| port::type_in_place(set.nodes, s, byte)),
            _ => leads_on(i, &|s| port::type_byte(set.nodes, s, byte)),
        }));
    }
    told
}

/// A stand half the table away, which is of another village.
fn far_from(stand: usize, stands: usize) -> usize {
    (stand + stands / 2) % stands
}

/// What is left of a hit's name after the letters that were typed for it.
fn rest(who: Who, set: &Set, letters: &[u8], stand: usize) -> Vec<u64> {
    let part = match who {
        Who::Finder => finder::rest(set.text, set.starts, stand as u32, letters),
        _ => port::rest(set.text, set.starts, stand as u32, letters),
    };
    [part.start, part.length].map(u64::from).to_vec()
}

pub fn round(what: &str, who: Who, t: &mut Owned, asked: &[Question]) -> Vec<u64> {
    let each = |q: &Question| {
        let set = black_box(t.lent());
        let name = t.name(q.stand);
        let letters = &name[..3.min(name.len())];
        match what {
            "range" => range(who, &set, letters, q.rect),
            "range-beside" => range(who, &set, letters, q.beside),
            "range-far" => range(who, &set, letters, q.far),
            "range-many" => range(who, &set, &name[..1], WHOLE),
            "any" => any(who, &set, letters, q.rect),
            "any-beside" => any(who, &set, letters, q.beside),
            "any-far" => any(who, &set, letters, q.far),
            "any-many" => any(who, &set, &name[..1], WHOLE),
            "ranked" => ranked(who, &set, letters, q),
            "whole" => ranked(who, &set, name, q),
            "rest" => rest(who, &set, letters, q.stand),
            "unlike-odd" => rest(who, &set, letters, far_from(q.stand, set.score.len())),
            "unlike-even" => rest(who, &set, &name[..4.min(name.len())], far_from(q.stand, set.score.len())),
            _ => typing(who, &set, name),
        }
    };
    match what {
        "build" => build(who, t),
        "check" => check(who, t),
        _ => asked.iter().flat_map(each).collect(),
    }
}
