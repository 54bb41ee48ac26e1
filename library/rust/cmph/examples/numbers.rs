//! Writes the number of each line of a file of keys, as `cmph -m FUNCTION KEYS` does: `key -> number`.
//!
//!     numbers FUNCTION KEYS
//!
//! A key without a number is named on standard error, and the status is 1 then. Two keys with one number are not looked for.
use cmph::{Function, Keys, NONE};
use std::error::Error;
use std::ffi::OsStr;
use std::io::{self, BufWriter, Write};
use std::process::ExitCode;
use std::{env, fs};

fn main() -> ExitCode {
    let words: Vec<_> = env::args_os().skip(1).collect();
    let [function, keys] = &words[..] else {
        eprintln!("usage: numbers FUNCTION KEYS");
        return ExitCode::from(2);
    };
    match write_numbers(function, keys) {
        Ok(true) => ExitCode::SUCCESS,
        Ok(false) => ExitCode::from(1),
        Err(fault) => {
            eprintln!("numbers: {fault}");
            ExitCode::from(3)
        }
    }
}

/// Writes the lines of all keys that have a number. Returns whether all have one.
fn write_numbers(function: &OsStr, keys: &OsStr) -> Result<bool, Box<dyn Error>> {
    let dump = fs::read(function)?;
    let function = Function::open(&dump)?;
    let keys: Keys = fs::read(keys)?
        .split_inclusive(|byte| *byte == b'\n')
        .map(|line| line.strip_suffix(b"\n").unwrap_or(line))
        .collect();
    let mut numbers = vec![NONE; keys.len()];
    function.answers(keys.bytes(), keys.ends(), &mut numbers)?;

    let mut out = BufWriter::new(io::stdout().lock());
    let mut all = true;
    for (line, (key, number)) in keys.iter().zip(&numbers).enumerate() {
        if *number == NONE {
            eprintln!("numbers: line {}: key is unknown", line + 1);
            all = false;
        } else {
            out.write_all(key)?;
            writeln!(out, " -> {number}")?;
        }
    }
    out.flush()?;
    Ok(all)
}
