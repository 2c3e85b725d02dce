//! What boards of both methods share.

use crate::echo_board::EchoBoard;
use crate::plain_board::PlainBoard;
use crate::rule::Rule;

/// How many values a word can have: 0 for none and 8 characters.
pub const VALUES: usize = 9;

const KINDS: usize = 5;

/// A character with a grade, or (0, 0).
#[derive(Clone, Copy)]
pub struct Decision {
    pub value: u8,
    pub grade: u8,
}

impl Decision {
    pub const NONE: Decision = Decision { value: 0, grade: 0 };
}

/// A set of words of one board: one bit for each kind and value, by kind and then by value.
#[derive(Clone, Copy, PartialEq)]
pub struct Words(u64);

impl Words {
    pub const EMPTY: Words = Words(0);

    /// The word of a kind from 1 to 5 and a value from 0 to 8.
    pub fn one(kind: u8, value: u8) -> Words {
        Words(1 << (usize::from(kind - 1) * VALUES + usize::from(value)))
    }

    pub fn add(&mut self, kind: u8, value: u8) {
        self.0 |= Words::one(kind, value).0;
    }

    /// Whether a word is among them; its numbers may be any.
    pub fn has(self, kind: u16, value: u16) -> bool {
        let within = (1..=KINDS as u16).contains(&kind) && value < VALUES as u16;
        within && self.0 & Words::one(kind as u8, value as u8).0 != 0
    }

    pub fn has_kind(self, kind: u8) -> bool {
        self.0 >> (usize::from(kind - 1) * VALUES) & ((1 << VALUES) - 1) != 0
    }

    pub fn without(self, others: Words) -> Words {
        Words(self.0 & !others.0)
    }

    /// The words as (kind, value), by kind and then by value.
    pub fn in_order(self) -> impl Iterator<Item = (u8, u8)> {
        let mut left = self.0;
        std::iter::from_fn(move || {
            if left == 0 {
                return None;
            }
            let bit = left.trailing_zeros() as u8;
            left &= left - 1;
            Some((1 + bit / VALUES as u8, bit % VALUES as u8))
        })
    }
}

/// A board that has started.
pub enum Board {
    Plain(PlainBoard),
    Echo(EchoBoard),
}

impl Board {
    /// Counts a vote; answers the words that the board newly posts.
    pub fn count(&mut self, rule: &Rule, sender: u8, kind: u8, value: u8) -> Words {
        match self {
            Board::Plain(board) => board.count(rule, sender, kind, value),
            Board::Echo(board) => board.count(rule, sender, kind, value),
        }
    }

    /// All words that the board has posted.
    pub fn posted(&self) -> Words {
        match self {
            Board::Plain(board) => board.posted(),
            Board::Echo(board) => board.posted(),
        }
    }

    pub fn decision(&self) -> Option<Decision> {
        match self {
            Board::Plain(board) => board.decision(),
            Board::Echo(board) => board.decision(),
        }
    }
}
