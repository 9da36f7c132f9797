//! Answers command lines by calls of the original: the protocol is in `compare/worked.txt`.

extern crate alloc;

/// The original's modules under the paths that they ask for, and what they name beside them.
#[allow(dead_code)]
mod util {
    include!(env!("ORIGINAL_MODULES"));
}

mod answers;
mod stated;
mod tokens;

use std::io::{self, BufRead, BufWriter, Write};

/// Answers each line of standard input by one line on standard output.
fn main() -> io::Result<()> {
    let mut input = io::stdin().lock();
    let mut output = BufWriter::new(io::stdout().lock());
    let mut line = vec![];
    while input.read_until(b'\n', &mut line)? > 0 {
        if line.last() == Some(&b'\n') {
            line.pop();
        }
        writeln!(output, "{}", answers::answer(&String::from_utf8_lossy(&line)))?;
        line.clear();
    }
    output.flush()
}
