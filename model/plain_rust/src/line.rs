//! Session lines: which call a line asks for.

use crate::group::{Family, Method, Opening};
use crate::rule::{MOST_BOARDS, MOST_SETS};

/// The most bytes before the line feed.
pub const LONGEST: usize = 120;

pub enum Call<'a> {
    Open(Opening),
    Start {
        board: u16,
    },
    Carry {
        to: u16,
        from: u16,
        kind: u16,
        value: u16,
    },
    Forge {
        to: u16,
        from: u16,
        frame: &'a [u8],
    },
}

/// The call of a line with its line feed, or `None` for a line that cannot be read.
pub fn read(line: &[u8]) -> Option<Call<'_>> {
    if line.len() > LONGEST + 1 {
        return None;
    }
    let (&letter, rest) = line.split_first()?;
    let mut fields = Fields { rest };
    let call = match letter {
        b's' => Call::Start {
            board: fields.number()?,
        },
        b'c' => Call::Carry {
            to: fields.number()?,
            from: fields.number()?,
            kind: fields.number()?,
            value: fields.number()?,
        },
        b'f' => {
            return Some(Call::Forge {
                to: fields.number()?,
                from: fields.number()?,
                frame: fields.rest.strip_prefix(b",")?,
            })
        }
        b'o' | b'g' => Call::Open(fields.opening(letter == b'g')?),
        _ => return None,
    };
    (fields.rest == b"\n").then_some(call)
}

/// What is left of a line. Each field is read with the comma before it.
struct Fields<'a> {
    rest: &'a [u8],
}

impl Fields<'_> {
    fn number(&mut self) -> Option<u16> {
        let [b',', first @ b'0'..=b'9', rest @ ..] = self.rest else {
            return None;
        };
        let mut number = u32::from(first - b'0');
        let mut rest = rest;
        while let [digit @ b'0'..=b'9', behind @ ..] = rest {
            if number == 0 {
                return None; // a leading zero
            }
            number = number * 10 + u32::from(digit - b'0');
            if number > u32::from(u16::MAX) {
                return None;
            }
            rest = behind;
        }
        self.rest = rest;
        u16::try_from(number).ok()
    }

    /// As many numbers as asked, of which the first `N` are kept: where there are more, the opening is refused.
    fn numbers<const N: usize>(&mut self, count: u16) -> Option<[u16; N]> {
        let mut kept = [0; N];
        for place in 0..usize::from(count) {
            let number = self.number()?;
            if let Some(kept) = kept.get_mut(place) {
                *kept = number;
            }
        }
        Some(kept)
    }

    fn opening(&mut self, by_list: bool) -> Option<Opening> {
        let method = match self.rest {
            [b',', b'p', rest @ ..] => {
                self.rest = rest;
                Method::Plain
            }
            [b',', b'e', rest @ ..] => {
                self.rest = rest;
                Method::Echo
            }
            _ => return None,
        };
        let depth = self.number()?;
        let crew = self.number()?;
        let amount = self.number()?;
        let characters = self.number()?;
        let bad = self.number()?;
        let family = if by_list {
            Family::Listed {
                count: amount,
                sets: self.numbers::<MOST_SETS>(amount)?,
            }
        } else {
            Family::Count { most: amount }
        };
        let starts = self.numbers::<MOST_BOARDS>(crew)?;
        Some(Opening {
            method,
            depth,
            crew,
            family,
            characters,
            bad,
            starts,
        })
    }
}
