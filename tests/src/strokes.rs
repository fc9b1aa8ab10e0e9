//! Keystrokes, held against the letters that stand and the session that the rules give for them.

use crate::asking;
use crate::damage;
use crate::dice::Dice;
use crate::finder;
use crate::owned::Owned;
use crate::questions::{compare_any, compare_each, By};
use crate::records::Session;
use crate::rooms::lend_session;
use crate::scan::{self, Typist};
use crate::Counts;

#[derive(Clone, Copy)]
pub enum Key {
    Letter(u8),
    RubOut,
}

impl Key {
    /// What the key is refused with behind some letters, or 0.
    fn refusal(self, letters: &[u8]) -> u32 {
        match self {
            Key::Letter(byte) => scan::type_refusal(letters, byte),
            Key::RubOut if letters.is_empty() => 10,
            Key::RubOut => 0,
        }
    }

    /// The letters that stand once it is taken.
    fn after(self, letters: &[u8]) -> Vec<u8> {
        match self {
            Key::Letter(byte) => [letters, &scan::folded(&[byte])].concat(),
            Key::RubOut => letters[..letters.len().saturating_sub(1)].to_vec(),
        }
    }

    fn press(self, dice: &mut Dice, set: &Owned, session: &mut Session) -> u32 {
        lend_session(dice, session, |lent| match self {
            Key::Letter(byte) => finder::type_byte(&set.lent(), lent, byte),
            Key::RubOut => finder::rub_out(&set.lent(), lent),
        })
    }
}

/// A byte that goes on with a name, now and then as a capital, or another.
pub fn letter(dice: &mut Dice, set: &Owned, letters: &[u8]) -> u8 {
    let lent = set.lent();
    let names = (0..set.score.len()).map(|i| scan::name(&lent, i)).filter(|n| n.starts_with(letters) && letters.len() < n.len());
    let next: Vec<u8> = names.map(|n| n[letters.len()]).collect();
    if next.is_empty() || dice.once_in(8) {
        return dice.one_of(b"abkz 09AZ@[\0");
    }
    let byte = next[dice.below(next.len())];
    if dice.once_in(4) {
        byte.to_ascii_uppercase()
    } else {
        byte
    }
}

/// Whether any stand is there, on the letters of a lawful session and with no other question beside it.
fn compare_any_alone(dice: &mut Dice, counts: &mut Counts, set: &Owned, session: Session) {
    let rect = asking::rect(dice, &set.lent());
    compare_any(counts, set, true, &By::Letters(session), rect);
    counts.on_letters += 1;
}

/// A session from fresh on, compared record by record; now and then each question on its letters, or whether any stand is there.
pub fn compare_session(dice: &mut Dice, counts: &mut Counts, set: &Owned, typist: &Typist, strokes: usize) -> Session {
    let mut letters: Vec<u8> = Vec::new();
    let mut session = finder::fresh();
    let rubs = dice.one_of(&[3, 8, 40]);
    for _ in 0..strokes {
        let key = if dice.once_in(rubs) { Key::RubOut } else { Key::Letter(letter(dice, set, &letters)) };
        let told = key.refusal(&letters);
        if told == 0 {
            letters = key.after(&letters);
        }
        assert_eq!(key.press(dice, set, &mut session), told, "a keystroke's refusal");
        assert_eq!(session, typist.session(&letters), "the session");
        counts.strokes += 1;
        match dice.below(8) {
            0 | 1 => compare_each(dice, counts, set, true, &By::Letters(session)),
            2 => compare_any_alone(dice, counts, set, session),
            _ => {}
        }
    }
    session
}

/// A keystroke on any set and session: 7 only where one is unlawful, else the refusal of the letters that stand there. Refused it alters
/// nothing; taken it changes the letters, and a typist, who is there if set and session are lawful, knows the whole record.
pub fn compare_stroke(dice: &mut Dice, counts: &mut Counts, set: &Owned, typist: Option<&Typist>, session: &mut Session, key: Key) {
    let was = *session;
    let letters = &was.text[..24.min(was.len as usize)];
    let refusal = key.press(dice, set, session);
    counts.strokes += 1;
    if refusal == 7 {
        assert!(typist.is_none(), "7 on a lawful set and session");
        counts.noticed += 1;
    } else {
        assert_eq!(refusal, key.refusal(letters), "a keystroke's refusal");
    }
    if refusal == 0 {
        let after = key.after(letters);
        assert_eq!(&session.text[..session.len as usize], &after[..], "the letters after a keystroke");
        assert!(typist.is_none_or(|t| *session == t.session(&after)), "the session after a keystroke");
    } else {
        assert_eq!(*session, was, "a refused keystroke alters nothing");
    }
}

/// Some keystrokes, and questions between them, from any session on; the typist is there if the set is lawful.
pub fn compare_strokes(dice: &mut Dice, counts: &mut Counts, set: &Owned, typist: Option<&Typist>, session: Session, strokes: usize) {
    let mut session = session;
    for _ in 0..strokes {
        let typist = typist.filter(|t| t.lawful(session));
        compare_each(dice, counts, set, typist.is_some(), &By::Letters(session));
        let key = if dice.once_in(3) { Key::RubOut } else { Key::Letter(letter(dice, set, &[])) };
        compare_stroke(dice, counts, set, typist, &mut session, key);
    }
}

/// One field of a session changed.
pub fn bent(dice: &mut Dice, set: &Owned, mut session: Session) -> Session {
    let boundaries = damage::boundaries(&set.lent());
    match dice.below(5) {
        0 => session.len = dice.one_of(&[0, 1, 24, 25, u32::MAX, session.len.wrapping_add(1)]),
        1 => session.text[dice.below(24)] = dice.word() as u8,
        2 => session.text[dice.below((session.len as usize).clamp(1, 24))].make_ascii_uppercase(),
        _ => damage::flip(dice, &boundaries, &mut session.path),
    }
    session
}
