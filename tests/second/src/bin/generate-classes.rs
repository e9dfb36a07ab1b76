use std::io::{self, Write};
use std::path::Path;
use std::{env, fs, process};

use second::classes::Classes;

/// `generate-classes SEED COUNT DIR`: the class files 0 to COUNT - 1 of a seed, as files in DIR; with `-` for DIR, as
/// lines of hexadecimal digits on standard output.
fn main() -> io::Result<()> {
    let given: Vec<String> = env::args().skip(1).collect();
    let (Some(seed), Some(count), Some(form)) = (number(&given, 0), number(&given, 1), given.get(2)) else {
        eprintln!("usage: generate-classes SEED COUNT DIR   (- for DIR: hexadecimal lines on standard output)");
        process::exit(2);
    };
    let classes = Classes::new(seed);
    for index in 0..count {
        let file = classes.class(index);
        if form == "-" {
            let digits: String = file.iter().map(|byte| format!("{byte:02x}")).collect();
            writeln!(io::stdout(), "{digits}")?;
        } else {
            fs::create_dir_all(form)?;
            fs::write(Path::new(form).join(format!("{seed}-{index:06}.class")), file)?;
        }
    }
    Ok(())
}

fn number(given: &[String], place: usize) -> Option<u64> {
    given.get(place)?.parse().ok()
}
