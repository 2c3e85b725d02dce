//! Frames: the bytes of a word on the wire.

use crate::refusal::Refused;

/// The most bytes of a frame.
pub const LONGEST: usize = 19;

#[derive(Clone, Copy, Debug, PartialEq)]
pub struct Word {
    pub group: u16,
    pub change: u16,
    pub sender: u8,
    pub kind: u8,
    pub value: u8,
}

impl Word {
    /// The word of a frame.
    pub fn read(frame: &[u8]) -> Result<Word, Refused> {
        let mut reader = Reader { rest: frame };
        let word = Word {
            group: reader.field(1, 65535, b',')?,
            change: reader.field(1, 65535, b',')?,
            sender: reader.field(0, 15, b',')? as u8,
            kind: reader.field(1, 5, b',')? as u8,
            value: reader.field(0, 8, b'\n')? as u8,
        };
        if reader.rest.is_empty() {
            Ok(word)
        } else {
            Err(Refused(15))
        }
    }
}

struct Reader<'a> {
    rest: &'a [u8],
}

impl Reader<'_> {
    /// A number from `least` to `largest`, with the byte that has to follow it.
    fn field(&mut self, least: u16, largest: u16, mark: u8) -> Result<u16, Refused> {
        let [first @ b'0'..=b'9', rest @ ..] = self.rest else {
            return Err(Refused(11));
        };
        let mut number = u32::from(first - b'0');
        let mut rest = rest;
        while let [digit @ b'0'..=b'9', behind @ ..] = rest {
            if *first == b'0' {
                return Err(Refused(12));
            }
            // A run of digits may be of any length; beyond the largest number of all, more digits tell nothing new.
            number = (number * 10 + u32::from(digit - b'0')).min(1 << 16);
            rest = behind;
        }
        if number < u32::from(least) || number > u32::from(largest) {
            return Err(Refused(13));
        }
        match rest {
            [byte, behind @ ..] if *byte == mark => self.rest = behind,
            _ => return Err(Refused(14)),
        }
        Ok(number as u16)
    }
}

/// Writes frames into a buffer, one behind the other.
pub struct Writer<'a> {
    buffer: &'a mut [u8],
    used: usize,
}

impl<'a> Writer<'a> {
    pub fn new(buffer: &'a mut [u8]) -> Self {
        Writer { buffer, used: 0 }
    }

    pub fn word(&mut self, word: &Word) {
        self.field(word.group, b',');
        self.field(word.change, b',');
        self.field(word.sender.into(), b',');
        self.field(word.kind.into(), b',');
        self.field(word.value.into(), b'\n');
    }

    /// Puts zero bytes behind the frames; answers how many bytes the frames have.
    pub fn finish(self) -> usize {
        self.buffer[self.used..].fill(0);
        self.used
    }

    fn field(&mut self, number: u16, mark: u8) {
        self.number(number);
        self.byte(mark);
    }

    fn number(&mut self, number: u16) {
        if number >= 10 {
            self.number(number / 10);
        }
        self.byte(b'0' + (number % 10) as u8);
    }

    fn byte(&mut self, byte: u8) {
        self.buffer[self.used] = byte;
        self.used += 1;
    }
}

#[cfg(test)]
mod tests {
    use super::*;

    #[test]
    fn frames_are_read() {
        let word = Word {
            group: 1,
            change: 1,
            sender: 0,
            kind: 1,
            value: 3,
        };
        let frames: [(&[u8], Result<Word, Refused>); 6] = [
            (b"1,1,0,1,3\n", Ok(word)),
            (b"1,1,0,1,3", Err(Refused(14))),
            (b"1,1,0,1,3\n3", Err(Refused(15))),
            (b"01,1,0,1,3\n", Err(Refused(12))),
            (b"1,1,0,1,33\n", Err(Refused(13))),
            (b"", Err(Refused(11))),
        ];
        for (frame, answer) in frames {
            assert_eq!(Word::read(frame), answer);
        }
    }

    #[test]
    fn frames_are_written() {
        let word = Word {
            group: 65535,
            change: 10,
            sender: 15,
            kind: 5,
            value: 8,
        };
        let mut buffer = [b'x'; LONGEST];
        let mut writer = Writer::new(&mut buffer);
        writer.word(&word);
        let length = writer.finish();
        assert_eq!(&buffer, b"65535,10,15,5,8\n\0\0\0");
        assert_eq!(Word::read(&buffer[..length]), Ok(word));
    }
}
