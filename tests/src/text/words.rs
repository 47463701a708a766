//! The words of one line of the text form.

use std::collections::VecDeque;

/// A line without its comment: plain words, and named ones such as `server=0` or `description="a b"`.
#[derive(Debug, Default)]
pub struct Words {
    /// The line begins with a blank: it goes on with what the line before it began.
    pub indented: bool,
    plain: VecDeque<String>,
    named: Vec<(String, Vec<u8>)>,
}

impl Words {
    /// The words of a line; a `#` outside quotes begins a comment.
    pub fn of_line(line: &str) -> Result<Words, String> {
        let mut words = Words { indented: line.starts_with([' ', '\t']), ..Words::default() };
        let mut rest = line.trim_start();
        while !rest.is_empty() && !rest.starts_with('#') {
            let end = rest.find(|c: char| c.is_whitespace() || "#=".contains(c)).unwrap_or(rest.len());
            let (word, after) = rest.split_at(end);
            rest = match after.strip_prefix('=') {
                Some(value) => {
                    let (octets, after) = value_at_start(value)?;
                    words.named.push((word.to_string(), octets));
                    after
                }
                None => {
                    words.plain.push_back(word.to_string());
                    after
                }
            };
            rest = rest.trim_start();
        }
        Ok(words)
    }

    pub fn is_empty(&self) -> bool {
        self.plain.is_empty() && self.named.is_empty()
    }

    /// The first plain word, which is left in its place.
    pub fn first(&self) -> Option<&str> {
        self.plain.front().map(String::as_str)
    }

    /// Takes the first plain word.
    pub fn take_first(&mut self) -> Option<String> {
        self.plain.pop_front()
    }

    /// Takes the plain word `word` if the line has it.
    pub fn take_plain(&mut self, word: &str) -> bool {
        let place = self.plain.iter().position(|plain| plain == word);
        place.map(|place| self.plain.remove(place)).is_some()
    }

    /// Takes the value of a name, if the line has it.
    pub fn take_named(&mut self, name: &str) -> Option<Vec<u8>> {
        let place = self.named.iter().position(|(other, _)| other == name)?;
        Some(self.named.remove(place).1)
    }

    /// Takes all names for which something holds, with their values, as they follow each other.
    pub fn take_all(&mut self, holds: impl Fn(&str) -> bool) -> Vec<(String, Vec<u8>)> {
        let (taken, left) = std::mem::take(&mut self.named).into_iter().partition(|(name, _)| holds(name));
        self.named = left;
        taken
    }

    /// Takes the number of a name, if the line has it.
    pub fn optional(&mut self, name: &str, most: u64) -> Result<Option<u64>, String> {
        match self.take_named(name) {
            None => Ok(None),
            Some(value) => Ok(Some(number(&String::from_utf8_lossy(&value), most)?)),
        }
    }

    /// Takes the number of a name that the line must have.
    pub fn number(&mut self, name: &str, most: u64) -> Result<u64, String> {
        self.optional(name, most)?.ok_or_else(|| format!("'{name}=' is missing"))
    }

    /// Takes all plain words that are left as octets in hex; `61*20` stands for 20 times the octet 61.
    pub fn take_hex(&mut self) -> Result<Vec<u8>, String> {
        let mut octets = Vec::new();
        for word in self.plain.drain(..) {
            match word.split_once('*') {
                Some((digits, times)) => octets.extend(octets_of_hex(digits)?.repeat(number(times, 65_535)? as usize)),
                None => octets.extend(octets_of_hex(&word)?),
            }
        }
        Ok(octets)
    }

    /// Nothing may be left of the line.
    pub fn end(self) -> Result<(), String> {
        match (self.plain.front(), self.named.first()) {
            (Some(word), _) => Err(format!("'{word}' does not belong here")),
            (_, Some((name, _))) => Err(format!("'{name}=' does not belong here")),
            _ => Ok(()),
        }
    }
}

/// The value after an equals sign, quoted or up to the next blank, and what follows it.
fn value_at_start(text: &str) -> Result<(Vec<u8>, &str), String> {
    match text.strip_prefix('"') {
        Some(quoted) => quoted_value(quoted),
        None => {
            let end = text.find(|c: char| c.is_whitespace() || c == '#').unwrap_or(text.len());
            Ok((text.as_bytes()[..end].to_vec(), &text[end..]))
        }
    }
}

/// Octets up to the closing quote. `\"`, `\\` and `\xNN` stand for one octet each.
fn quoted_value(text: &str) -> Result<(Vec<u8>, &str), String> {
    let mut octets = Vec::new();
    let mut rest = text;
    loop {
        let end = rest.find(['"', '\\']).ok_or("a quote is not closed")?;
        octets.extend_from_slice(&rest.as_bytes()[..end]);
        let mark = &rest[end..];
        if let Some(after) = mark.strip_prefix('"') {
            return Ok((octets, after));
        }
        let (octet, taken) = escaped(mark)?;
        octets.push(octet);
        rest = &mark[taken..];
    }
}

/// The octet of an escape and the number of its characters.
fn escaped(mark: &str) -> Result<(u8, usize), String> {
    match mark.as_bytes() {
        [_, c @ (b'"' | b'\\'), ..] => Ok((*c, 2)),
        [_, b'x', high, low, ..] => {
            let digits = [*high, *low];
            let octets = octets_of_hex(&String::from_utf8_lossy(&digits))?;
            Ok((octets[0], 4))
        }
        _ => Err("only \\\", \\\\ and \\xNN may follow a backslash".to_string()),
    }
}

/// A decimal number, or a hex one after `0x`, of at most `most`.
pub fn number(text: &str, most: u64) -> Result<u64, String> {
    let value = match text.strip_prefix("0x") {
        Some(digits) => u64::from_str_radix(digits, 16).ok(),
        None => text.parse().ok(),
    };
    value.filter(|value| *value <= most).ok_or_else(|| format!("'{text}' is not a number from 0 to {most}"))
}

/// The octets of pairs of hex digits.
pub fn octets_of_hex(digits: &str) -> Result<Vec<u8>, String> {
    let values: Option<Vec<u8>> = digits.chars().map(|c| c.to_digit(16).map(|value| value as u8)).collect();
    match values {
        Some(values) if values.len() % 2 == 0 => Ok(values.chunks(2).map(|pair| pair[0] << 4 | pair[1]).collect()),
        _ => Err(format!("'{digits}' is not octets in hex")),
    }
}

/// Octets as lower-case hex digits.
pub fn hex(octets: &[u8]) -> String {
    let digit = |value: u8| char::from(b"0123456789abcdef"[usize::from(value)]);
    octets.iter().flat_map(|octet| [digit(octet >> 4), digit(octet & 15)]).collect()
}

/// Octets between quotes, with everything escaped that is not a plain character.
pub fn quoted(octets: &[u8]) -> String {
    let mut text = String::from("\"");
    for octet in octets {
        match octet {
            b'"' | b'\\' => text.extend(['\\', char::from(*octet)]),
            b' '..=b'~' => text.push(char::from(*octet)),
            _ => text.push_str(&format!("\\x{octet:02x}")),
        }
    }
    text + "\""
}
