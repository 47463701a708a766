//! From the text form to a tape.

use super::message_of_words;
use super::words::{number, octets_of_hex, Words};
use crate::model::append::append;
use crate::model::exporter::MAX_SERVERS;
use crate::model::walk::Value;
use crate::tables::{Key, Order, Table, Template, BLOB, FIELD_TYPES, IPV4, IPV6, STRING, ZERO_STRING};
use crate::tape::{self, Event, Form, Settings};

/// The most octets that a field has beside those of a string, a blob or an address: a number of 64 bits.
const MOST_OCTETS_BESIDE: usize = 8;

/// The tape that a text gives, or the line that is at fault and why. Only sound tapes have a text.
pub fn encode(text: &str) -> Result<Vec<u8>, String> {
    let mut encoder = Encoder::default();
    for (place, line) in text.lines().enumerate() {
        encoder.line(line).map_err(|reason| format!("line {}: {reason}", place + 1))?;
    }
    encoder.close_table();
    if encoder.events.len() > tape::MAX_EVENTS {
        return Err(format!("{} events, more than {}", encoder.events.len(), tape::MAX_EVENTS));
    }
    let octets = tape::build(&encoder.events);
    tape::split(&octets)?;
    Ok(octets)
}

/// What the lines so far have said.
#[derive(Default)]
struct Encoder {
    events: Vec<Event>,
    /// The session of the settings, which named messages carry.
    session: u8,
    /// The table that is being given part by part; it becomes the body of the last event.
    table: Option<Table>,
    /// How often the last event was repeated.
    times: u64,
}

impl Encoder {
    fn line(&mut self, line: &str) -> Result<(), String> {
        let mut words = Words::of_line(line)?;
        if words.is_empty() {
            return Ok(());
        }
        if words.indented {
            return self.continuation(words);
        }
        self.close_table();
        let name = words.take_first().ok_or("the line names no event")?;
        let event = match name.as_str() {
            "settings" => self.settings(&mut words)?,
            "table" => self.begin_table(&mut words)?,
            "put" => Event::put(words.number("template", 65_535)? as u16, &record_of_words(self.order(), &mut words)?),
            "message" => {
                let server = words.number("server", 255)? as u8;
                Event::message(server, message_of_words(&mut words, self.session)?)
            }
            "down" => Event::down(words.number("server", 255)? as u8),
            "offer" => Event::offer(words.number("server", 255)? as u8),
            "tick" => Event::tick(),
            "next" => Event::next(),
            _ => return Err(format!("no event '{name}'")),
        };
        self.times = times(&mut words)?;
        words.end()?;
        self.events.extend((0..self.times).map(|_| event.clone()));
        Ok(())
    }

    /// The settings; where the line has no priorities, those of an indented line follow.
    fn settings(&mut self, words: &mut Words) -> Result<Event, String> {
        let settings = Settings {
            session: words.number("session", 255)? as u8,
            configuration: words.number("configuration", 255)? as u8,
            servers: words.number("servers", 255)? as u8,
            threshold: words.number("threshold", 255)? as u8,
            duration: words.number("duration", 65_535)? as u16,
            store: match words.number("store", 65_536)? {
                0 => return Err("a tape cannot say a store of 0 octets".to_string()),
                octets => octets as u32,
            },
            first_dsn: words.number("first-dsn", u64::from(u32::MAX))? as u32,
            boot: words.number("boot", u64::from(u32::MAX))? as u32,
            // The priorities that the words say take the place of these.
            form: Form::Short,
            priorities: [0; MAX_SERVERS],
        };
        self.session = settings.session;
        let mut event = Event::settings(&settings);
        event.body.truncate(tape::OCTETS_BEFORE_PRIORITIES);
        event.body.extend(priorities_of_words(words)?);
        Ok(event)
    }

    /// A table in hex, or the first line of one that is given part by part.
    fn begin_table(&mut self, words: &mut Words) -> Result<Event, String> {
        if let Some(configuration) = words.optional("configuration", 255)? {
            let order = order_of_words(words)?;
            self.table = Some(Table { configuration: configuration as u8, order, templates: Vec::new() });
        }
        Ok(Event::table(words.take_hex()?))
    }

    /// The order that the table states for records; big-endian under flags that no table has.
    fn order(&self) -> Order {
        let flags = self.events.get(1).and_then(|table| table.body.get(1));
        flags.and_then(|flags| Order::of_flags(*flags)).unwrap_or(Order::Big)
    }

    /// An indented line: a part of the table, or more octets for the last event's body.
    fn continuation(&mut self, mut words: Words) -> Result<(), String> {
        let order = self.order();
        let last = self.events.last_mut().ok_or("an indented line goes on with the line above, and there is none")?;
        if self.times != 1 {
            return Err("an indented line cannot go on with a repeated event".to_string());
        }
        match (words.first(), &mut self.table) {
            (Some("template"), Some(table)) => table.templates.push(template_of_words(&mut words)?),
            (Some("key"), Some(table)) => {
                let template = table.templates.last_mut().ok_or("a key stands under its template")?;
                template.keys.push(key_of_words(&mut words)?);
            }
            (_, Some(_)) => return Err("a table goes on with 'template' or 'key'".to_string()),
            (None, None) if last.kind == tape::SETTINGS => last.body.extend(priorities_of_words(&mut words)?),
            (_, None) if last.kind == tape::PUT => last.body.extend(record_of_words(order, &mut words)?),
            (_, None) => last.body.extend(words.take_hex()?),
        }
        words.end()
    }

    /// Puts the table that was given part by part into its event.
    fn close_table(&mut self) {
        if let (Some(table), Some(last)) = (self.table.take(), self.events.last_mut()) {
            last.body = table.octets();
        }
    }
}

/// How often an event is repeated: `times=5` at any event, or `tick 5` and `next 5`.
fn times(words: &mut Words) -> Result<u64, String> {
    let most = tape::MAX_EVENTS as u64;
    match words.take_first() {
        Some(text) => number(&text, most),
        None => Ok(words.optional("times", most)?.unwrap_or(1)),
    }
}

/// `order=little` or `order=big`, which may be missing.
fn order_of_words(words: &mut Words) -> Result<Order, String> {
    match words.take_named("order").as_deref() {
        None | Some(b"big") => Ok(Order::Big),
        Some(b"little") => Ok(Order::Little),
        Some(_) => Err("'order=' is big or little".to_string()),
    }
}

/// The octets of a record, or of a part of one: in hex, or field by field in that order.
fn record_of_words(order: Order, words: &mut Words) -> Result<Vec<u8>, String> {
    let fields = words.take_all(|name| FIELD_TYPES.iter().any(|kind| kind.name == name));
    if fields.is_empty() {
        return words.take_hex();
    }
    if words.first().is_some() {
        return Err("a line of a record is in hex or field by field, not both".to_string());
    }
    let octets: Result<Vec<Vec<u8>>, String> =
        fields.iter().map(|(name, value)| field_of_words(order, name, value)).collect();
    Ok(octets?.concat())
}

/// `unsigned16=5`, `signed8=-1`, `ipv4=c0000201` or `string="text"`: the octets of a field in that order. A float is
/// given by its bits as a number, and a zero-string without its zero.
fn field_of_words(order: Order, name: &str, value: &[u8]) -> Result<Vec<u8>, String> {
    let kind = FIELD_TYPES.iter().find(|kind| kind.name == name).map_or(0, |kind| kind.number);
    let text = String::from_utf8_lossy(value);
    let (value, octets) = match kind {
        IPV4 | IPV6 => (Value::Octets, octets_of_hex(&text)?),
        STRING | ZERO_STRING | BLOB => (Value::Octets, value.to_vec()),
        _ => match text.strip_prefix('-') {
            Some(size) => (Value::Negative(number(size, u64::MAX)?), Vec::new()),
            None => (Value::Number(number(&text, u64::MAX)?), Vec::new()),
        },
    };
    let mut field = vec![0; octets.len() + MOST_OCTETS_BESIDE];
    let end = append(order, kind, value, &octets, &mut field, 0);
    field.truncate(end.map_err(|_| format!("'{text}' is no value of type {name}"))?);
    Ok(field)
}

/// `template 3 description="minutes"`; the description may be missing.
fn template_of_words(words: &mut Words) -> Result<Template, String> {
    words.take_first();
    let id = number(&words.take_first().unwrap_or_default(), 65_535)? as u16;
    let description = words.take_named("description").unwrap_or_default();
    if description.len() > 65_535 {
        return Err("the description is longer than 65535 octets".to_string());
    }
    Ok(Template { id, description, keys: Vec::new() })
}

/// `key 9 type=unsigned16 disabled`; the type is a name or a number.
fn key_of_words(words: &mut Words) -> Result<Key, String> {
    words.take_first();
    let id = number(&words.take_first().unwrap_or_default(), u64::from(u32::MAX))? as u32;
    let name = words.take_named("type").ok_or("'type=' is missing")?;
    let listed = FIELD_TYPES.iter().find(|kind| kind.name.as_bytes() == name);
    let kind = match listed {
        Some(kind) => kind.number,
        None => number(&String::from_utf8_lossy(&name), 65_535)? as u16,
    };
    Ok(Key { id, kind, disabled: words.take_plain("disabled") })
}

/// `priorities=5,3`, which may be missing: all priorities of the shortest form of settings that has a place for each number;
/// those left out are 0.
fn priorities_of_words(words: &mut Words) -> Result<Vec<u8>, String> {
    let Some(text) = words.take_named("priorities") else {
        return Ok(Vec::new());
    };
    let text = String::from_utf8_lossy(&text);
    let numbers: Result<Vec<u8>, String> = text.split(',').map(|part| Ok(number(part, 255)? as u8)).collect();
    let mut priorities = numbers?;
    let form = Form::ALL.into_iter().find(|form| priorities.len() <= form.priorities());
    priorities.resize(form.ok_or_else(|| format!("more than {MAX_SERVERS} priorities"))?.priorities(), 0);
    Ok(priorities)
}
