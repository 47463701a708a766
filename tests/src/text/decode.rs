//! From a tape to the text form.

use super::words::{hex, quoted};
use super::words_of_message;
use crate::tables::{field_type, Order, Table};
use crate::tape::{self, Event, Settings};

/// Octets in hex on one line; longer bodies go on, indented.
const OCTETS_ON_A_LINE: usize = 48;

/// The text of a sound tape, one event on a line with its place as a comment; of any other tape, why it is not sound.
pub fn decode(octets: &[u8]) -> Result<String, String> {
    let events = tape::split(octets)?;
    let session = events[0].body[0];
    let mut text = String::new();
    for (place, event) in events.iter().enumerate() {
        let lines = event_lines(event, session);
        let (first, more) = lines.split_once('\n').unwrap_or((&lines, ""));
        text.push_str(&format!("{first}  # {place}\n"));
        if !more.is_empty() {
            text.push_str(&format!("{more}\n"));
        }
    }
    Ok(text)
}

/// The line of an event, and the indented lines that go on with it.
fn event_lines(event: &Event, session: u8) -> String {
    let server = event.server;
    match event.kind {
        tape::SETTINGS => settings_line(&event.body),
        tape::TABLE => table_lines(&event.body),
        tape::PUT => {
            let template = u16::from_be_bytes([event.body[0], event.body[1]]);
            with_hex(format!("put template={template}"), &event.body[2..])
        }
        tape::MESSAGE => match words_of_message(&event.body, session) {
            Some(words) => format!("message server={server} {words}"),
            None => with_hex(format!("message server={server}"), &event.body),
        },
        tape::DOWN => format!("down server={server}"),
        tape::OFFER => format!("offer server={server}"),
        tape::TICK => "tick".to_string(),
        _ => "next".to_string(),
    }
}

fn settings_line(body: &[u8]) -> String {
    let settings = Settings::from_octets(body).expect("a sound tape has settings of either form");
    let numbers = [
        ("session", u32::from(settings.session)),
        ("configuration", settings.configuration.into()),
        ("servers", settings.servers.into()),
        ("threshold", settings.threshold.into()),
        ("duration", settings.duration.into()),
        ("store", settings.store),
        ("first-dsn", settings.first_dsn),
        ("boot", settings.boot),
    ];
    let numbers: Vec<String> = numbers.iter().map(|(name, number)| format!("{name}={number}")).collect();
    let priorities = &settings.priorities[..settings.form.priorities()];
    let priorities: Vec<String> = priorities.iter().map(u8::to_string).collect();
    format!("settings {} priorities={}", numbers.join(" "), priorities.join(","))
}

/// A table part by part where its octets are laid out as one, else in hex.
fn table_lines(octets: &[u8]) -> String {
    let Some(table) = Table::from_octets(octets) else {
        return with_hex("table".to_string(), octets);
    };
    let order = if table.order == Order::Little { " order=little" } else { "" };
    let mut lines = format!("table configuration={}{order}", table.configuration);
    for template in &table.templates {
        lines.push_str(&format!("\n  template {} description={}", template.id, quoted(&template.description)));
        for key in &template.keys {
            let kind = field_type(key.kind).map_or_else(|| format!("0x{:04x}", key.kind), |kind| kind.name.to_string());
            let disabled = if key.disabled { " disabled" } else { "" };
            lines.push_str(&format!("\n    key {} type={kind}{disabled}", key.id));
        }
    }
    lines
}

/// A line and octets in hex, on the same line if they are few.
fn with_hex(line: String, octets: &[u8]) -> String {
    if octets.len() <= OCTETS_ON_A_LINE {
        return format!("{line} {}", hex(octets)).trim_end().to_string();
    }
    let parts: Vec<String> = octets.chunks(OCTETS_ON_A_LINE).map(hex).collect();
    format!("{line}\n  {}", parts.join("\n  "))
}
