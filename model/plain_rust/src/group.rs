//! The boards of a harbour: opening a group, and the calls on it.

use std::hint::black_box;

use crate::board::{Board, Decision, Words};
use crate::echo_board::EchoBoard;
use crate::frame::{self, Word, Writer};
use crate::plain_board::PlainBoard;
use crate::refusal::Refused;
use crate::rule::{Rule, MOST_BOARDS, MOST_SETS};

const MOST_CHARACTERS: u16 = 8;
const GROUP: u16 = 1;
const CHANGE: u16 = 1;

/// One counted word posts at most six words.
const SCRATCH: usize = 6 * frame::LONGEST;

#[derive(Clone, Copy, PartialEq)]
pub enum Method {
    Plain,
    Echo,
}

/// What an opening asks for, good or bad.
pub struct Opening {
    pub method: Method,
    pub depth: u16,
    pub crew: u16,
    pub family: Family,
    pub characters: u16,
    pub bad: u16,
    pub starts: [u16; MOST_BOARDS],
}

pub enum Family {
    Count {
        most: u16,
    },
    /// There may be more sets than are kept.
    Listed {
        count: u16,
        sets: [u16; MOST_SETS],
    },
}

/// What an accepted call did: how many words were posted, and what the board that it names first has decided by now.
pub struct Done {
    pub posted: u8,
    pub decision: Option<Decision>,
}

pub struct Group {
    method: Method,
    depth: u8,
    kinds: u8,
    characters: u8,
    bad: u16,
    rule: Rule,
    crew: usize,
    starts: [u8; MOST_BOARDS],
    boards: [Option<Board>; MOST_BOARDS],
    scratch: [u8; SCRATCH],
}

impl Group {
    pub fn open(opening: &Opening) -> Result<Group, Refused> {
        let crew = usize::from(opening.crew);
        if !(1..=MOST_BOARDS).contains(&crew) {
            return Err(Refused(1));
        }
        if !(1..=MOST_CHARACTERS).contains(&opening.characters) {
            return Err(Refused(2));
        }
        let (kinds, cover) = match (opening.method, opening.depth) {
            (Method::Plain, 1) => (1, 2),
            (Method::Plain, 2) => (2, 2),
            (Method::Echo, 1) => (3, 3),
            (Method::Echo, 2) => (5, 3),
            _ => return Err(Refused(3)),
        };
        let rule = match opening.family {
            Family::Count { most } => Rule::count(crew, cover, most),
            Family::Listed { count, sets } => {
                let count = usize::from(count);
                if count > MOST_SETS || Rule::outside(crew, &sets[..count]) {
                    return Err(Refused(4));
                }
                Rule::listed(crew, cover, sets, count)
            }
        };
        let rule = rule.ok_or(Refused(5))?;
        let starts = &opening.starts[..crew];
        if !starts
            .iter()
            .all(|start| (1..=opening.characters).contains(start))
        {
            return Err(Refused(9));
        }
        if !rule.may_fail(opening.bad) {
            return Err(Refused(28));
        }
        Ok(Group {
            method: opening.method,
            depth: opening.depth as u8,
            kinds,
            characters: opening.characters as u8,
            bad: opening.bad,
            rule,
            crew,
            starts: opening.starts.map(|start| start as u8),
            boards: [const { None }; MOST_BOARDS],
            scratch: [0; SCRATCH],
        })
    }

    pub fn start(&mut self, board: u16) -> Result<Done, Refused> {
        let board = self.board_of_crew(board)?;
        self.ask_steady(board)?;
        if self.boards[board].is_some() {
            return Err(Refused(24));
        }
        let character = self.starts[board];
        let started = self.boards[board].insert(match self.method {
            Method::Plain => Board::Plain(PlainBoard::new(self.depth, character)),
            Method::Echo => Board::Echo(EchoBoard::new(self.depth, character)),
        });
        let news = started.posted();
        Ok(self.done(board, news))
    }

    pub fn carry(&mut self, to: u16, from: u16, kind: u16, value: u16) -> Result<Done, Refused> {
        let to = self.board_of_crew(to)?;
        let from = self.board_of_crew(from)?;
        self.ask_steady(to)?;
        self.ask_steady(from)?;
        let (Some(_), Some(sender)) = (&self.boards[to], &self.boards[from]) else {
            return Err(Refused(25));
        };
        if !sender.posted().has(kind, value) {
            return Err(Refused(27));
        }
        let mut frame = [0; frame::LONGEST];
        let mut writer = Writer::new(&mut frame);
        writer.word(&word(from, kind as u8, value as u8));
        let length = writer.finish();
        self.take(to, from, &frame[..length])
    }

    pub fn forge(&mut self, to: u16, from: u16, frame: &[u8]) -> Result<Done, Refused> {
        let to = self.board_of_crew(to)?;
        let from = self.board_of_crew(from)?;
        self.ask_steady(to)?;
        if self.boards[to].is_none() {
            return Err(Refused(25));
        }
        if self.method == Method::Plain || !self.is_listed(from) {
            return Err(Refused(26));
        }
        self.take(to, from, frame)
    }

    fn board_of_crew(&self, board: u16) -> Result<usize, Refused> {
        let board = usize::from(board);
        if board < self.crew {
            Ok(board)
        } else {
            Err(Refused(22))
        }
    }

    fn is_listed(&self, board: usize) -> bool {
        self.bad >> board & 1 == 1
    }

    /// In the echo method a listed board does nothing but forge.
    fn ask_steady(&self, board: usize) -> Result<(), Refused> {
        if self.method == Method::Echo && self.is_listed(board) {
            Err(Refused(23))
        } else {
            Ok(())
        }
    }

    /// Takes a frame at a started board, on the port of another.
    fn take(&mut self, to: usize, port: usize, frame: &[u8]) -> Result<Done, Refused> {
        let word = Word::read(frame)?;
        if word.group != GROUP || word.change != CHANGE {
            return Err(Refused(16));
        }
        if usize::from(word.sender) != port {
            return Err(Refused(17));
        }
        if word.kind > self.kinds {
            return Err(Refused(18));
        }
        if word.value > self.characters
            || self.method == Method::Plain && word.kind == 1 && word.value == 0
        {
            return Err(Refused(19));
        }
        let board = self.boards[to].as_mut().ok_or(Refused(25))?;
        let news = board.count(&self.rule, word.sender, word.kind, word.value);
        Ok(self.done(to, news))
    }

    /// Writes what a board newly posts into the scratch.
    fn done(&mut self, board: usize, news: Words) -> Done {
        let mut posted = 0;
        let mut writer = Writer::new(&mut self.scratch);
        for (kind, value) in news.in_order() {
            writer.word(&word(board, kind, value));
            posted += 1;
        }
        writer.finish();
        // The frames are for the wire, which is not here; without this the compiler could leave the writing out.
        black_box(&self.scratch);
        let decision = self.boards[board].as_ref().and_then(Board::decision);
        Done { posted, decision }
    }
}

fn word(sender: usize, kind: u8, value: u8) -> Word {
    Word {
        group: GROUP,
        change: CHANGE,
        sender: sender as u8,
        kind,
        value,
    }
}
