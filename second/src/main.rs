//! The line program on standard input and output.

use std::io::{self, BufWriter};

fn main() -> io::Result<()> {
    second::line::serve(io::stdin().lock(), BufWriter::new(io::stdout().lock()))
}
