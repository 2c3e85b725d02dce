//! A session: the group that is open, and the answer to each line.

use std::io::{self, Write};

use crate::board::Decision;
use crate::group::{Done, Group};
use crate::line::{self, Call};
use crate::refusal::Refused;

const NO_GROUP: Refused = Refused(21);
const UNREADABLE: Refused = Refused(29);

#[derive(Default)]
pub struct Session {
    group: Option<Group>,
}

impl Session {
    /// Plays one line, which has its line feed.
    pub fn play(&mut self, line: &[u8]) -> Answer {
        match line::read(line) {
            Some(call) => Answer {
                letter: line[0],
                result: self.call(call),
            },
            None => Answer {
                letter: b'?',
                result: Err(UNREADABLE),
            },
        }
    }

    fn call(&mut self, call: Call) -> Result<Done, Refused> {
        match call {
            Call::Open(opening) => {
                self.group = Some(Group::open(&opening)?);
                Ok(Done {
                    posted: 0,
                    decision: None,
                })
            }
            Call::Start { board } => self.open_group()?.start(board),
            Call::Carry {
                to,
                from,
                kind,
                value,
            } => self.open_group()?.carry(to, from, kind, value),
            Call::Forge { to, from, frame } => self.open_group()?.forge(to, from, frame),
        }
    }

    fn open_group(&mut self) -> Result<&mut Group, Refused> {
        self.group.as_mut().ok_or(NO_GROUP)
    }
}

pub struct Answer {
    letter: u8,
    result: Result<Done, Refused>,
}

impl Answer {
    /// LETTER,NUMBER,WORDS,VALUE,GRADE and a line feed.
    pub fn write(&self, output: &mut impl Write) -> io::Result<()> {
        let (number, posted, decision) = match self.result {
            Ok(Done { posted, decision }) => (0, posted, decision),
            Err(Refused(number)) => (number, 0, None),
        };
        let mut text = *b"?,00,0,-,-\n";
        let mut start = 0;
        if number >= 10 {
            text[2] = b'0' + number / 10;
        } else {
            start = 1; // a number of one digit
            text[2] = b',';
        }
        text[start] = self.letter;
        text[3] = b'0' + number % 10;
        text[5] = b'0' + posted;
        if let Some(Decision { value, grade }) = decision {
            text[7] = b'0' + value;
            text[9] = b'0' + grade;
        }
        output.write_all(&text[start..])
    }
}
