use std::io::{self, Read, Write};

use second::sheet::MAX_SHEET;

/// The sheet program: a sheet on standard input, its lines on standard output.
fn main() -> io::Result<()> {
    let mut input = vec![];
    io::stdin().lock().take(MAX_SHEET as u64).read_to_end(&mut input)?;
    io::stdout().lock().write_all(&second::run_sheet(&input))
}
