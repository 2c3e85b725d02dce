//! Plays a harbour of boards from session lines, one answer for each line, as `bench` does (docs/FORMATS.md).
//!
//! Written from the rules alone and without proofs, so that the speed of the proved program can be compared with it
//! (docs/PERFORMANCE.md).

mod board;
mod echo_board;
mod frame;
mod group;
mod input;
mod line;
mod plain_board;
mod refusal;
mod rule;
mod session;

use std::io::{self, BufWriter, Write};

use session::Session;

const OUTPUT_BUFFER: usize = 1 << 16;

fn main() -> io::Result<()> {
    let mut session = Session::default();
    let mut output = BufWriter::with_capacity(OUTPUT_BUFFER, io::stdout().lock());
    input::for_each_line(io::stdin().lock(), |line| {
        session.play(line).write(&mut output)
    })?;
    output.flush()
}
