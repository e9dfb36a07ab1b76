use std::io::{self, Read, Write};

/// The class program: a class file on standard input, its report on standard output.
fn main() -> io::Result<()> {
    let mut file = vec![];
    io::stdin().lock().read_to_end(&mut file)?;
    let mut report = vec![];
    second::class::report(&file, &mut report);
    io::stdout().lock().write_all(&report)
}
