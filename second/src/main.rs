//! The command: the three programs on standard input, and the generator.

use second::{audit_text, desk_text, gen, order_text};
use std::io::{Read, Write};
use std::process::ExitCode;

const USAGE: &str = "second desk|order|audit < FILE
second gen desk|order|audit SEED N DIR
second texts desk|order|audit SEED N";

fn main() -> ExitCode {
    let words: Vec<String> = std::env::args().skip(1).collect();
    let words: Vec<&str> = words.iter().map(String::as_str).collect();
    match command(&words) {
        Ok(()) => ExitCode::SUCCESS,
        Err(message) => {
            eprintln!("{message}");
            ExitCode::FAILURE
        }
    }
}

fn command(words: &[&str]) -> Result<(), String> {
    match words {
        [program] => print(&(Program::named(program)?.text)(&input()?)),
        ["gen", program, seed, count, folder] => {
            write_files(&Program::named(program)?, number(seed)?, number(count)?, folder)
        }
        ["texts", program, seed, count] => {
            print_texts(&Program::named(program)?, number(seed)?, number(count)?)
        }
        _ => Err(USAGE.to_string()),
    }
}

/// One of the three programs: how its files are made and what it prints for one.
struct Program {
    file: fn(u64, u64) -> Vec<u8>,
    text: fn(&[u8]) -> String,
}

impl Program {
    fn named(name: &str) -> Result<Program, String> {
        match name {
            "desk" => Ok(Program { file: gen::desk_file, text: desk_text }),
            "order" => Ok(Program { file: gen::order_file, text: order_text }),
            "audit" => Ok(Program { file: gen::audit_file, text: audit_text }),
            _ => Err(USAGE.to_string()),
        }
    }
}

fn number(word: &str) -> Result<u64, String> {
    word.parse().map_err(|_| format!("not a number: {word}"))
}

fn input() -> Result<Vec<u8>, String> {
    let mut bytes = Vec::new();
    std::io::stdin().read_to_end(&mut bytes).map_err(|error| error.to_string())?;
    Ok(bytes)
}

fn print(text: &str) -> Result<(), String> {
    std::io::stdout().write_all(text.as_bytes()).map_err(|error| error.to_string())
}

fn write_files(program: &Program, seed: u64, count: u64, folder: &str) -> Result<(), String> {
    std::fs::create_dir_all(folder).map_err(|error| error.to_string())?;
    for index in 0..count {
        let path = format!("{folder}/{index}.bin");
        let bytes = (program.file)(seed, index);
        std::fs::write(&path, bytes).map_err(|error| format!("{path}: {error}"))?;
    }
    Ok(())
}

fn print_texts(program: &Program, seed: u64, count: u64) -> Result<(), String> {
    for index in 0..count {
        let bytes = (program.file)(seed, index);
        print(&format!("file {index}, {} bytes\n{}", bytes.len(), (program.text)(&bytes)))?;
    }
    Ok(())
}
