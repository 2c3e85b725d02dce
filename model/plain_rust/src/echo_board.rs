//! A board of the echo method. The numbers of the tests are those of docs/PROTOCOL.md, from the top.
//!
//! A test that once passed has had its effect, and none looks at anything but what was counted and approved.
//! So a counted vote asks only the tests that look at what it changed: 1 to 3 after an echo, for its value alone.

use crate::board::{Decision, Words, VALUES};
use crate::rule::Rule;

pub struct EchoBoard {
    depth: u8,
    echoes: [u16; VALUES],   // the senders of each value
    openings: [u16; VALUES], // the senders whose opening is each value
    openers: u16,            // the senders of any echo
    approved: u16,           // values, a bit for each
    words: [Votes; 4],       // of the kinds 2 to 5
    posted: Words,
    decision: Option<Decision>,
}

/// What was counted of one of the kinds 2 to 5.
#[derive(Clone, Copy, Default)]
struct Votes {
    senders: u16,
    by_value: [u16; VALUES],
    /// The value with an ample set of senders. Two such sets share a board, which counts once, so there is one at most.
    ample: Option<u8>,
}

impl Votes {
    /// Counts a vote; false if the sender has one of this kind already.
    fn count(&mut self, rule: &Rule, board: u16, value: u8) -> bool {
        if self.senders & board != 0 {
            return false;
        }
        self.senders |= board;
        let senders = &mut self.by_value[usize::from(value)];
        *senders |= board;
        if rule.ample(*senders) {
            self.ample = Some(value);
        }
        true
    }
}

impl EchoBoard {
    pub fn new(depth: u8, character: u8) -> EchoBoard {
        EchoBoard {
            depth,
            echoes: [0; VALUES],
            openings: [0; VALUES],
            openers: 0,
            approved: 0,
            words: [Votes::default(); 4],
            posted: Words::one(1, character),
            decision: None,
        }
    }

    pub fn posted(&self) -> Words {
        self.posted
    }

    pub fn decision(&self) -> Option<Decision> {
        self.decision
    }

    pub fn count(&mut self, rule: &Rule, sender: u8, kind: u8, value: u8) -> Words {
        let before = self.posted;
        let board = 1 << sender;
        let counted = match kind {
            1 => self.count_echo(rule, board, value),
            _ => self.words[usize::from(kind - 2)].count(rule, board, value),
        };
        if counted {
            self.test_4();
            self.test_5(rule);
            if self.depth == 2 {
                self.test_6(rule);
                self.test_7(rule);
            }
        }
        self.posted.without(before)
    }

    /// Counts an echo and makes the tests 1 to 3; false if it is counted already.
    fn count_echo(&mut self, rule: &Rule, board: u16, value: u8) -> bool {
        let senders = &mut self.echoes[usize::from(value)];
        if *senders & board != 0 {
            return false;
        }
        *senders |= board;
        let senders = *senders;
        let is_opening = self.openers & board == 0;
        if is_opening {
            self.openers |= board;
            self.openings[usize::from(value)] |= board;
        }
        if rule.strong(senders) {
            self.posted.add(1, value); // test 1
        }
        if is_opening
            && self
                .openings
                .iter()
                .all(|same| rule.strong(self.openers & !same))
        {
            self.posted.add(1, 0); // test 2
        }
        if rule.ample(senders) {
            self.approved |= 1 << value; // test 3
            self.post_once(2, value);
        }
        true
    }

    fn post_once(&mut self, kind: u8, value: u8) {
        if !self.posted.has_kind(kind) {
            self.posted.add(kind, value);
        }
    }

    fn decide(&mut self, value: u8, grade: u8) {
        self.decision.get_or_insert(Decision { value, grade });
    }

    /// What was counted of one of the kinds 2 to 5.
    fn of_kind(&self, kind: usize) -> &Votes {
        &self.words[kind - 2]
    }

    fn two_approved(&self) -> bool {
        self.approved & self.approved.wrapping_sub(1) != 0
    }

    fn mixed(&self) -> bool {
        self.approved & 1 != 0 || self.two_approved()
    }

    fn test_4(&mut self) {
        if let Some(value) = self.of_kind(2).ample {
            self.post_once(3, value);
        } else if self.two_approved() {
            self.post_once(3, 0);
        }
    }

    fn test_5(&mut self, rule: &Rule) {
        if self.posted.has_kind(4) || self.depth == 1 && self.decision.is_some() {
            return; // there is an outcome already
        }
        let outcome = if self.mixed() && rule.ample(self.of_kind(3).senders) {
            0
        } else if let Some(value) = self.of_kind(3).ample {
            value
        } else {
            return;
        };
        if self.depth == 2 {
            self.posted.add(4, outcome);
        } else {
            self.decide(outcome, (outcome != 0).into());
        }
    }

    fn test_6(&mut self, rule: &Rule) {
        if self.posted.has_kind(5) {
            return;
        }
        if let Some(value) = self.of_kind(4).ample {
            self.posted.add(5, value);
        } else if self.mixed() && rule.ample(self.of_kind(4).senders) {
            self.posted.add(5, 0);
        }
    }

    fn test_7(&mut self, rule: &Rule) {
        if self.decision.is_some() {
            return;
        }
        let ample = self.of_kind(5).ample;
        if let Some(value @ 1..) = ample {
            self.decide(value, 2);
            return;
        }
        if self.mixed() && rule.ample(self.of_kind(5).senders) {
            if let Some(value) = self.lowest_backed(rule) {
                self.decide(value, 1);
                return;
            }
        }
        if ample == Some(0) {
            self.decide(0, 0);
        }
    }

    /// The lowest character with a kind 5 sender and strong kind 4 senders.
    fn lowest_backed(&self, rule: &Rule) -> Option<u8> {
        let backed = |value: usize| {
            self.of_kind(5).by_value[value] != 0 && rule.strong(self.of_kind(4).by_value[value])
        };
        (1..VALUES)
            .find(|&value| backed(value))
            .map(|value| value as u8)
    }
}
