//! Turns tapes into their text form and back: `tape encode < x.txt > x.tape`, `tape decode < x.tape > x.txt`.

use outside::text;
use std::io::{self, Read, Write};
use std::process::ExitCode;

const USAGE: &str = "usage: tape encode < TEXT > TAPE, or tape decode < TAPE > TEXT";

fn main() -> ExitCode {
    let arguments: Vec<String> = std::env::args().skip(1).collect();
    let result = match arguments.iter().map(String::as_str).collect::<Vec<_>>()[..] {
        ["encode"] => convert(encode),
        ["decode"] => convert(decode),
        _ => {
            eprintln!("{USAGE}");
            return ExitCode::from(2);
        }
    };
    match result {
        Ok(()) => ExitCode::SUCCESS,
        Err(reason) => {
            eprintln!("tape: {reason}");
            ExitCode::from(1)
        }
    }
}

fn convert(form: fn(Vec<u8>) -> Result<Vec<u8>, String>) -> Result<(), String> {
    let mut input = Vec::new();
    io::stdin().read_to_end(&mut input).map_err(|error| error.to_string())?;
    let output = form(input)?;
    io::stdout().write_all(&output).map_err(|error| error.to_string())
}

fn encode(input: Vec<u8>) -> Result<Vec<u8>, String> {
    let text = String::from_utf8(input).map_err(|_| "the text is not UTF-8".to_string())?;
    text::encode(&text)
}

fn decode(input: Vec<u8>) -> Result<Vec<u8>, String> {
    let text = text::decode(&input).map_err(|reason| format!("this tape is not sound: {reason}"))?;
    Ok(text.into_bytes())
}
