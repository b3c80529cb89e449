//! The resolver on the command line: paragraphs or a script from standard input, or made ones.

use std::env;
use std::io::{self, Read, Write};
use std::process::ExitCode;

use resolver::made::Generator;
use resolver::{levels, script};

const USAGE: &str = "\
usage: resolver levels < PARAGRAPHS
       resolver replay < SCRIPT
       resolver make levels SEED COUNT
       resolver make script SEED LINES";

fn main() -> ExitCode {
    let arguments: Vec<String> = env::args().skip(1).collect();
    let words: Vec<&str> = arguments.iter().map(String::as_str).collect();
    match output(&words).and_then(|bytes| io::stdout().write_all(&bytes)) {
        Ok(()) => ExitCode::SUCCESS,
        Err(error) => {
            eprintln!("{error}");
            ExitCode::FAILURE
        }
    }
}

/// What the arguments ask to print.
fn output(words: &[&str]) -> io::Result<Vec<u8>> {
    match *words {
        ["levels"] => Ok(levels::report(&input()?).into_bytes()),
        ["replay"] => Ok(script::replay(&input()?).into_bytes()),
        ["make", "levels", seed, count] => {
            let mut made = Generator::new(number(seed)?);
            Ok((0..number(count)?).flat_map(|_| made.paragraph().into_bytes()).collect())
        }
        ["make", "script", seed, lines] => {
            Ok(Generator::new(number(seed)?).script(number(lines)? as usize))
        }
        _ => Err(usage()),
    }
}

/// All of standard input.
fn input() -> io::Result<Vec<u8>> {
    let mut bytes = Vec::new();
    io::stdin().read_to_end(&mut bytes)?;
    Ok(bytes)
}

/// A number among the arguments.
fn number(word: &str) -> io::Result<u64> {
    word.parse().map_err(|_| usage())
}

/// What to say to arguments that make no sense.
fn usage() -> io::Error {
    io::Error::new(io::ErrorKind::InvalidInput, USAGE)
}
