//! Compares the proved reader with the original: all families of texts, then as many drawn comparisons as are
//! asked for. `compare [--seed N] [--count N]`.

use std::process::ExitCode;

#[cfg(has_original)]
fn main() -> ExitCode {
    let (seed, count) = match options(std::env::args().skip(1)) {
        Ok(options) => options,
        Err(message) => {
            eprintln!("compare: {message}\nusage: compare [--seed N] [--count N]");
            return ExitCode::from(2);
        }
    };
    let interface = match differential::library::linked() {
        Ok(interface) => interface,
        Err(message) => {
            eprintln!("compare: {message}");
            return ExitCode::from(2);
        }
    };
    let started = std::time::Instant::now();
    let run = match differential::trials::run(&interface, seed, count) {
        Ok(run) => run,
        Err(difference) => {
            print!("{difference}");
            println!("seed {seed}: the original and ours DIFFER");
            return ExitCode::FAILURE;
        }
    };
    let seconds = started.elapsed().as_secs_f64();
    println!("{} comparisons of the families, {} drawn", run.families, run.drawn);
    println!("pictures drawn, {}", run.reached.summary());
    let unreached = run.unreached();
    if !unreached.is_empty() {
        println!("never tried: {}", unreached.join(", "));
    }
    println!("seed {seed}, {seconds:.1} s, no difference in {}", run.tally.summary());
    if unreached.is_empty() {
        ExitCode::SUCCESS
    } else {
        ExitCode::FAILURE
    }
}

#[cfg(not(has_original))]
fn main() -> ExitCode {
    eprintln!("compare: {}", differential::ORIGINAL_MISSING);
    ExitCode::from(2)
}

/// The seed and the count of drawn comparisons.
#[cfg(has_original)]
fn options(mut words: impl Iterator<Item = String>) -> Result<(u64, u64), String> {
    let (mut seed, mut count) = (differential::trials::SEED, differential::trials::COUNT);
    while let Some(word) = words.next() {
        let chosen = match word.as_str() {
            "--seed" => &mut seed,
            "--count" => &mut count,
            _ => return Err(format!("unknown word {word:?}")),
        };
        let number = words.next().and_then(|n| n.replace('_', "").parse().ok());
        *chosen = number.ok_or(format!("{word} wants a number"))?;
    }
    Ok((seed, count))
}
