//! Lines of the input.

use std::io::{self, BufRead, BufReader, ErrorKind, Read};

use crate::line::LONGEST;

const INPUT_BUFFER: usize = 1 << 16;

/// How much of a line is kept: enough to see that a longer one cannot be read.
const KEPT: usize = LONGEST + 2;

/// Calls `play` with each line and its line feed; a last line without one gets one.
///
/// A line that stands whole in the input buffer is handed over from there. Of a line with more than `KEPT` bytes the
/// rest may be left out, its line feed too.
pub fn for_each_line(
    input: impl Read,
    mut play: impl FnMut(&[u8]) -> io::Result<()>,
) -> io::Result<()> {
    let mut input = BufReader::with_capacity(INPUT_BUFFER, input);
    let mut front = Vec::with_capacity(KEPT + 1); // of a line whose end was not yet read
    loop {
        let buffer = match input.fill_buf() {
            Err(error) if error.kind() == ErrorKind::Interrupted => continue,
            buffer => buffer?,
        };
        if buffer.is_empty() {
            break;
        }
        for piece in buffer.split_inclusive(|&byte| byte == b'\n') {
            let ended = piece.ends_with(b"\n");
            if ended && front.is_empty() {
                play(piece)?;
                continue;
            }
            let room = KEPT - front.len();
            front.extend_from_slice(&piece[..piece.len().min(room)]);
            if ended {
                play(&front)?;
                front.clear();
            }
        }
        let read = buffer.len();
        input.consume(read);
    }
    if !front.is_empty() {
        front.push(b'\n');
        play(&front)?;
    }
    Ok(())
}
