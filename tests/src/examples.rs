//! The example sessions: NAME.txt gives NAME.tape, the run of that tape prints NAME.out, and the comments in
//! NAME.txt that show output show all of it and nothing else.
//!
//! Such a comment begins with `# => ` and holds one line of the output. A line that ends in `...` shows only the
//! start of its octets, and `# => 5-8 0` shows the lines `5 0` to `8 0`.

use crate::difference::first_difference;
use crate::model::replay;
use crate::program::Program;
use crate::text;
use std::fs;
use std::path::{Path, PathBuf};

const SHOWN: &str = "# => ";

/// Checks every example of a directory; the names that were checked, and what was found wrong.
pub fn check(directory: &Path, program: &Program) -> std::io::Result<(Vec<String>, Vec<String>)> {
    let mut texts: Vec<PathBuf> = Vec::new();
    for entry in fs::read_dir(directory)? {
        let path = entry?.path();
        if path.extension().is_some_and(|extension| extension == "txt") {
            texts.push(path);
        }
    }
    texts.sort();
    let (mut names, mut faults) = (Vec::new(), Vec::new());
    for path in texts {
        let name = path.file_stem().unwrap_or_default().to_string_lossy().into_owned();
        if let Err(fault) = check_one(&path, program) {
            faults.push(format!("example {name}: {fault}"));
        }
        names.push(name);
    }
    if names.is_empty() {
        faults.push(format!("there are no examples in {}", directory.display()));
    }
    Ok((names, faults))
}

fn check_one(path: &Path, program: &Program) -> Result<(), String> {
    let read = |path: PathBuf| fs::read(&path).map_err(|error| format!("{}: {error}", path.display()));
    let text = String::from_utf8(read(path.to_path_buf())?).map_err(|_| "the text is not UTF-8".to_string())?;
    let tape = read(path.with_extension("tape"))?;
    let expected = read(path.with_extension("out"))?;
    if text::encode(&text)? != tape {
        return Err("the text does not give the tape".to_string());
    }
    check_shown(&text, &String::from_utf8_lossy(&expected))?;
    compare("the model", &replay::replay(&tape), &expected)?;
    let run = program.run(&tape, true).map_err(|error| format!("the program did not run: {error}"))?;
    match run.fault() {
        Some(fault) => Err(fault),
        None => compare("the program", &run.output, &expected),
    }
}

fn compare(whose: &str, output: &[u8], expected: &[u8]) -> Result<(), String> {
    match first_difference(output, expected) {
        None => Ok(()),
        Some((place, own, other)) => Err(format!("line {place} of {whose} is '{own}', expected '{other}'")),
    }
}

/// The output lines that the comments of a text show are those expected.
fn check_shown(text: &str, expected: &str) -> Result<(), String> {
    let shown: Vec<String> =
        text.lines().filter_map(|line| line.trim_start().strip_prefix(SHOWN)).flat_map(shown_lines).collect();
    let lines: Vec<&str> = expected.lines().collect();
    if shown.len() != lines.len() {
        return Err(format!("the comments show {} lines of output, and there are {}", shown.len(), lines.len()));
    }
    for (shown, line) in shown.iter().zip(lines) {
        let same = match shown.strip_suffix("...") {
            Some(start) => line.starts_with(start),
            None => line == shown,
        };
        if !same {
            return Err(format!("a comment shows the output line '{shown}', expected '{line}'"));
        }
    }
    Ok(())
}

/// The lines that one comment shows: one, or those of a range.
fn shown_lines(comment: &str) -> Vec<String> {
    let (place, rest) = comment.split_once(' ').unwrap_or((comment, ""));
    let range = place
        .split_once('-')
        .and_then(|(first, last)| Some((first.parse::<usize>().ok()?, last.parse::<usize>().ok()?)));
    match range {
        Some((first, last)) => (first..=last).map(|place| format!("{place} {rest}")).collect(),
        None => vec![comment.to_string()],
    }
}
