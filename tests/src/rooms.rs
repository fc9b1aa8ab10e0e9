//! Rooms that are lent to be written. Half of them have guard words before and behind, so that a write outside is seen in any run; the
//! other half are memory of just their length, so that valgrind sees a read or a write outside.

use crate::dice::Dice;
use crate::records::Session;

/// A room, its guard words, and what it held at first.
pub struct Room<T> {
    words: Box<[T]>,
    was: Box<[T]>,
    guard: usize,
}

impl<T: Copy + PartialEq + std::fmt::Debug> Room<T> {
    fn new(dice: &mut Dice, length: usize, word: impl Fn(u64) -> T) -> Room<T> {
        let guard = dice.one_of(&[0, 16]);
        let words: Box<[T]> = (0..length + 2 * guard).map(|_| word(dice.word())).collect();
        Room { was: words.clone(), words, guard }
    }

    pub fn len(&self) -> usize {
        self.words.len() - 2 * self.guard
    }

    pub fn lend(&mut self) -> &mut [T] {
        let past = self.words.len() - self.guard;
        &mut self.words[self.guard..past]
    }

    /// Its words, in memory of just their length.
    pub fn into_words(self) -> Vec<T> {
        self.words[self.guard..self.guard + self.len()].to_vec()
    }

    /// Only the first places of the room may differ from what was there.
    pub fn kept_behind(&self, filled: usize) {
        let (guard, past) = (self.guard, self.guard + filled);
        assert_eq!(self.words[..guard], self.was[..guard], "a guard word before the room");
        assert_eq!(self.words[past..], self.was[past..], "room that the answer doesn't fill, or a guard word behind it");
    }

    pub fn holds(&self, first: &[T]) {
        assert_eq!(&self.words[self.guard..self.guard + first.len()], first, "the room's words");
        self.kept_behind(first.len());
    }
}

pub fn room32(dice: &mut Dice, length: usize) -> Room<u32> {
    Room::new(dice, length, |word| word as u32)
}

pub fn room64(dice: &mut Dice, length: usize) -> Room<u64> {
    Room::new(dice, length, |word| word)
}

/// Lends a session, between guard records or in memory of its own.
pub fn lend_session(dice: &mut Dice, session: &mut Session, call: impl FnOnce(&mut Session) -> u32) -> u32 {
    if dice.once_in(2) {
        let mut alone = Box::new(*session);
        let refusal = call(&mut alone);
        *session = *alone;
        return refusal;
    }
    let guard = Session { text: [0xa5; 24], len: 0x5a5a_5a5a, path: [0xc3c3_c3c3; 25] };
    let mut lent = [guard, *session, guard];
    let refusal = call(&mut lent[1]);
    assert_eq!((lent[0], lent[2]), (guard, guard), "memory beside the session");
    *session = lent[1];
    refusal
}
