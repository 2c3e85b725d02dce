//! A board of the plain method.

use crate::board::{Decision, Words};
use crate::rule::Rule;

pub struct PlainBoard {
    depth: u8,
    votes: [Votes; 2], // of kind 1 and 2
    branch: Option<u8>,
    posted: Words,
    decision: Option<Decision>,
}

/// The first votes of one kind: who sent them, and which values they bear, a bit for each.
#[derive(Clone, Copy, Default)]
struct Votes {
    senders: u16,
    values: u16,
}

impl PlainBoard {
    pub fn new(depth: u8, character: u8) -> PlainBoard {
        PlainBoard {
            depth,
            votes: [Votes::default(); 2],
            branch: None,
            posted: Words::one(1, character),
            decision: None,
        }
    }

    pub fn posted(&self) -> Words {
        self.posted
    }

    pub fn decision(&self) -> Option<Decision> {
        self.decision
    }

    pub fn count(&mut self, rule: &Rule, sender: u8, kind: u8, value: u8) -> Words {
        let votes = &mut self.votes[usize::from(kind - 1)];
        if votes.senders >> sender & 1 == 1 {
            return Words::EMPTY;
        }
        votes.senders |= 1 << sender;
        votes.values |= 1 << value;
        if self.decision.is_some() {
            return Words::EMPTY;
        }
        let before = self.posted;
        if self.branch.is_none() && rule.ample(self.votes[0].senders) {
            self.fix_branch();
        }
        if let Some(branch) = self.branch {
            if self.depth == 1 {
                self.decision = Some(Decision {
                    value: branch,
                    grade: (branch != 0).into(),
                });
            } else if rule.ample(self.votes[1].senders) {
                self.decision = Some(compare(branch, self.votes[1].values));
            }
        }
        self.posted.without(before)
    }

    fn fix_branch(&mut self) {
        let values = self.votes[0].values;
        let branch = if values.is_power_of_two() {
            values.trailing_zeros() as u8
        } else {
            0
        };
        self.branch = Some(branch);
        if self.depth == 2 {
            self.posted.add(2, branch);
        }
    }
}

/// The decision of a board with this branch, from the values of kind 2.
fn compare(branch: u8, values: u16) -> Decision {
    let characters = values & !1;
    if branch != 0 {
        let grade = if values == 1 << branch { 2 } else { 1 };
        Decision {
            value: branch,
            grade,
        }
    } else if characters != 0 {
        Decision {
            value: characters.trailing_zeros() as u8,
            grade: 1,
        }
    } else {
        Decision::NONE
    }
}
