//! Writes the stored list of the original's answers: `make_replay`.
//! `make_replay --check [FILE]` asks the original again, `make_replay --case N` shows what a case lends.

use std::process::ExitCode;

#[cfg(has_original)]
fn main() -> ExitCode {
    let words: Vec<String> = std::env::args().skip(1).collect();
    let words: Vec<&str> = words.iter().map(String::as_str).collect();
    let done = match words[..] {
        [] => list::write(),
        ["--check"] => list::check(&list::stored()),
        ["--check", file] => list::check(file),
        ["--case", number] => list::show(number),
        _ => Err("usage: make_replay [--check [FILE] | --case N]".into()),
    };
    match done {
        Ok(said) => {
            println!("{said}");
            ExitCode::SUCCESS
        }
        Err(message) => {
            eprintln!("make_replay: {message}");
            ExitCode::FAILURE
        }
    }
}

#[cfg(not(has_original))]
fn main() -> ExitCode {
    eprintln!("make_replay: {}", differential::ORIGINAL_MISSING);
    ExitCode::from(2)
}

#[cfg(has_original)]
mod list {
    use differential::replay::{cases, List, ANSWERS, PROGRAM, SUMMARY};
    use std::fs;

    /// The path of the stored list.
    pub fn stored() -> String {
        format!("{PROGRAM}/{ANSWERS}")
    }

    /// Makes the list, and writes it and what the program is to print.
    pub fn write() -> Result<String, String> {
        let list = List::stored();
        let unreached = list.unreached();
        if !unreached.is_empty() {
            return Err(format!("no case gives {unreached:?}"));
        }
        let bytes = list.bytes();
        put(&stored(), &bytes)?;
        put(&format!("{PROGRAM}/{SUMMARY}"), list.summary().as_bytes())?;
        Ok(format!("{} cases, {} bytes, written", list.cases(), bytes.len()))
    }

    /// Asks the original again for each case of a list.
    pub fn check(path: &str) -> Result<String, String> {
        let bytes = get(path)?;
        let list = List::asked_again(&bytes).ok_or(format!("{path} is no whole list"))?;
        if list.bytes() == bytes {
            Ok(format!("{} cases, as the original answers", list.cases()))
        } else {
            Err(format!("{path}: the original answers otherwise"))
        }
    }

    /// The text and the pixel buffer's length of a case of the stored list.
    pub fn show(number: &str) -> Result<String, String> {
        let path = stored();
        let cases = cases(&get(&path)?).ok_or(format!("{path} is no whole list"))?;
        let case = number.parse().ok().and_then(|n: usize| cases.get(n));
        let case = case.ok_or(format!("there is no case {number}"))?;
        Ok(format!("{} cells, \"{}\"", case.cells, case.text.escape_ascii()))
    }

    fn get(path: &str) -> Result<Vec<u8>, String> {
        fs::read(path).map_err(|e| format!("{path}: {e}"))
    }

    fn put(path: &str, bytes: &[u8]) -> Result<(), String> {
        fs::write(path, bytes).map_err(|e| format!("{path}: {e}"))
    }
}
