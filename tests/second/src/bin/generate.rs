use std::io::{self, Write};
use std::path::Path;
use std::{env, fs, process};

use second::nested::nested_sheet;
use second::sheets::random_sheet_of;
use second::Edition;

/// `generate SEED COUNT DIR [KIND]`: the sheets 0 to COUNT - 1 of a seed, as files in DIR; with `-` for DIR, as lines of
/// hexadecimal digits on standard output. KIND is their edition, or `nested` for sheets of nested tasks. They are of
/// edition 1 if nothing is said.
fn main() -> io::Result<()> {
    let given: Vec<String> = env::args().skip(1).collect();
    let (Some(seed), Some(count), Some(form), Some(kind)) =
        (number(&given, 0), number(&given, 1), given.get(2), kind(&given))
    else {
        eprintln!("usage: generate SEED COUNT DIR [1|2|nested]   (- for DIR: hexadecimal lines on standard output)");
        process::exit(2);
    };
    for index in 0..count {
        let sheet = match kind {
            Kind::Of(edition) => random_sheet_of(edition, seed, index),
            Kind::Nested => nested_sheet(seed, index),
        };
        if form == "-" {
            let digits: String = sheet.iter().map(|byte| format!("{byte:02x}")).collect();
            writeln!(io::stdout(), "{digits}")?;
        } else {
            fs::create_dir_all(form)?;
            fs::write(Path::new(form).join(format!("{seed}-{index:06}.sheet")), sheet)?;
        }
    }
    Ok(())
}

fn number(given: &[String], place: usize) -> Option<u64> {
    given.get(place)?.parse().ok()
}

enum Kind {
    Of(Edition),
    Nested,
}

fn kind(given: &[String]) -> Option<Kind> {
    match given.get(3).map(String::as_str) {
        None => Some(Kind::Of(Edition::First)),
        Some("nested") => Some(Kind::Nested),
        Some(_) => Edition::try_from(number(given, 3)?).ok().map(Kind::Of),
    }
}
