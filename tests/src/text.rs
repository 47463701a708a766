//! The text form of tapes: one event on a line, its parts by name; `#` begins a comment.
//!
//! ```text
//! settings session=7 configuration=1 servers=1 threshold=4 duration=10 store=1024 first-dsn=0 boot=3600 priorities=1
//! table configuration=1
//!   template 3 description="minutes by port"
//!     key 9 type=unsigned16
//!     key 10 type=string disabled
//! put template=3 0005
//! put template=3 unsigned16=5
//! message server=0 start
//! message server=0 data-ack dsn=5 configuration=1
//! message server=0 ff00ff
//! offer server=0
//! down server=0
//! next
//! tick 5
//! ```
//!
//! Up to eight priorities give the short form of settings, 24 octets, and nine to sixteen the long one, 32 octets; those
//! left out are 0. They may stand on an indented line of their own.
//!
//! `table configuration=1 order=little` begins a little-endian table. A record is given in hex, or field by field: by the
//! name of its type and its value, in the order that the table states.
//!
//! A named message has the session of the settings unless it says `session=`. `times=5` repeats any event (`tick 5`
//! for short). In hex, `61*20` stands for 20 times the octet 61. An indented line goes on with the line above it: the
//! parts of a table, more fields of a record, or more octets in hex. Whatever has no named form is given in hex, so that
//! every sound tape has a text.

mod decode;
mod encode;
pub mod words;

pub use decode::decode;
pub use encode::encode;

use crate::messages::{self, MessageParts};

/// The messages that have a name, with their numbers.
const MESSAGE_NAMES: [(&str, u8); 10] = [
    ("start", messages::START),
    ("start-ack", messages::START_ACK),
    ("stop", messages::STOP),
    ("stop-ack", messages::STOP_ACK),
    ("template-data", messages::TMPL_DATA),
    ("final-template-data-ack", messages::FINAL_TMPL_DATA_ACK),
    ("start-negotiate", messages::START_NEGOTIATE),
    ("start-negotiate-ack", messages::START_NEGOTIATE_ACK),
    ("data", messages::DATA),
    ("data-ack", messages::DATA_ACK),
];

/// The message that the words after `message server=N` name, or give in hex. `session` is that of the tape's settings.
fn message_of_words(words: &mut words::Words, session: u8) -> Result<Vec<u8>, String> {
    let named = MESSAGE_NAMES.iter().find(|(name, _)| words.first() == Some(*name));
    let Some((_, number)) = named else {
        return words.take_hex();
    };
    words.take_first();
    let session = words.optional("session", 255)?.unwrap_or(u64::from(session)) as u8;
    let parts = match *number {
        messages::START_ACK => MessageParts::start_ack(session, words.number("boot", u64::from(u32::MAX))? as u32),
        messages::TMPL_DATA => MessageParts::new(messages::TMPL_DATA, session, words.take_hex()?),
        messages::FINAL_TMPL_DATA_ACK => {
            MessageParts::final_tmpl_data_ack(session, words.number("configuration", 255)? as u8)
        }
        messages::DATA => {
            let template = words.number("template", 65_535)? as u16;
            let configuration = words.number("configuration", 255)? as u8;
            let flags = words.number("flags", 255)? as u8;
            let dsn = words.number("dsn", u64::from(u32::MAX))? as u32;
            MessageParts::data(session, template, configuration, flags, dsn, &words.take_hex()?)
        }
        messages::DATA_ACK => {
            let dsn = words.number("dsn", u64::from(u32::MAX))? as u32;
            MessageParts::data_ack(session, dsn, words.number("configuration", 255)? as u8)
        }
        number => MessageParts::bare(number, session),
    };
    Ok(parts.octets())
}

/// The words that name a message, if there are any that give exactly these octets.
fn words_of_message(message: &[u8], session: u8) -> Option<String> {
    let parts = MessageParts::from_octets(message)?;
    let (name, _) = MESSAGE_NAMES.iter().find(|(_, number)| *number == parts.number)?;
    let body = &parts.body;
    let number32 = |at: usize| Some(u32::from_be_bytes(body.get(at..at + 4)?.try_into().ok()?));
    let fields = match parts.number {
        messages::START_ACK => format!(" boot={}", number32(0)?),
        messages::TMPL_DATA => format!(" {}", words::hex(body)),
        messages::FINAL_TMPL_DATA_ACK => format!(" configuration={}", body.first()?),
        messages::DATA => {
            let (head, record) = body.split_at_checked(8)?;
            let template = u16::from_be_bytes([head[0], head[1]]);
            format!(
                " template={template} configuration={} flags={} dsn={} {}",
                head[2],
                head[3],
                number32(4)?,
                words::hex(record)
            )
        }
        messages::DATA_ACK => format!(" dsn={} configuration={}", number32(0)?, body.get(4)?),
        _ => String::new(),
    };
    let other_session = if parts.session == session { String::new() } else { format!(" session={}", parts.session) };
    let line = format!("{name}{other_session}{fields}");
    let mut again = words::Words::of_line(&line).ok()?;
    (message_of_words(&mut again, session).ok()? == message).then(|| line.trim_end().to_string())
}

#[cfg(test)]
mod tests {
    use super::*;
    use crate::tape::{self, Event};

    const SETTINGS: &str =
        "settings session=7 configuration=1 servers=1 threshold=4 duration=10 store=1024 first-dsn=0 boot=3600 priorities=1";
    const TABLE: &str = "table configuration=1
  template 3 description=\"a \\\"b\\\" \\\\ \\x00#\"   # a comment
    key 9 type=unsigned16
    key 0x0a type=0x400c disabled";

    /// The events after settings and table that a text gives.
    fn events(text: &str) -> Result<Vec<Event>, String> {
        let octets = encode(&format!("{SETTINGS}\n{TABLE}\n{text}"))?;
        Ok(tape::split(&octets)?[2..].to_vec())
    }

    #[test]
    fn the_example_of_the_paper_is_encoded() {
        let table = "table 01010001 0003 0001 0000 0000 00000018 00000009 0004 0000 00000000";
        let text = format!("{SETTINGS}\n{table}\nput template=3 0005\nnext\nmessage server=0 0101070000000008\n");
        let octets = encode(&text).expect("a sound tape");
        assert_eq!(octets[..22], [0, 5, 0, 0, 0, 24, 1, 0, 0, 28, 2, 0, 0, 4, 6, 0, 0, 0, 3, 0, 0, 8]);
        assert_eq!(octets[22..46], [7, 1, 1, 4, 0, 10, 3, 255, 0, 0, 0, 0, 0, 0, 14, 16, 1, 0, 0, 0, 0, 0, 0, 0]);
        assert_eq!(octets[74..], [0, 3, 0, 5, 1, 1, 7, 0, 0, 0, 0, 8]);
        assert_eq!(decode(&octets).map(|text| text.contains("message server=0 start  # 4")), Ok(true));
    }

    /// The settings' body of a tape with such priorities.
    fn settings_of(priorities: &str) -> Result<Vec<u8>, String> {
        let settings = SETTINGS.replace("priorities=1", &format!("priorities={priorities}"));
        let octets = encode(&format!("{settings}\n{TABLE}\n"))?;
        assert_eq!(decode(&octets).and_then(|text| encode(&text)).as_ref(), Ok(&octets));
        Ok(tape::split(&octets)?[0].body.clone())
    }

    #[test]
    fn the_number_of_priorities_is_the_form_of_the_settings() {
        let before = settings_of("0").expect("settings")[..16].to_vec();
        let numbers = |count: u8| (1..=count).map(|number| number.to_string()).collect::<Vec<_>>().join(",");
        for (count, length) in [(1, 8), (7, 8), (8, 8), (9, 16), (15, 16), (16, 16)] {
            let mut priorities: Vec<u8> = (1..=count).collect();
            priorities.resize(length, 0);
            assert_eq!(settings_of(&numbers(count)), Ok([before.clone(), priorities].concat()), "{count}");
        }
        assert_eq!(settings_of(&numbers(17)), Err("line 1: more than 16 priorities".to_string()));
        for count in [8, 9] {
            let text = SETTINGS.replace("priorities=1", &format!("\n  priorities={}  # so many", numbers(count)));
            let body = encode(&format!("{text}\n{TABLE}\n")).and_then(|octets| tape::split(&octets));
            assert_eq!(body.map(|events| events[0].body.clone()), settings_of(&numbers(count)));
        }
        let missing = encode(&format!("{}\n{TABLE}\n", SETTINGS.replace("priorities=1", "")));
        assert_eq!(missing, Err("event 0: settings of 16 octets, not 24 or 32".to_string()));
        assert_eq!(settings_of("1,256"), Err("line 1: '256' is not a number from 0 to 255".to_string()));
    }

    #[test]
    fn all_priorities_of_a_form_are_decoded() {
        let words = |priorities: &str| {
            let settings = SETTINGS.replace("priorities=1", &format!("priorities={priorities}"));
            let text = encode(&format!("{settings}\n{TABLE}\n")).and_then(|octets| decode(&octets));
            text.map(|text| text.lines().next().and_then(|line| line.split(' ').nth(9)).map(str::to_string))
        };
        assert_eq!(words("4"), Ok(Some("priorities=4,0,0,0,0,0,0,0".to_string())));
        assert_eq!(words("4,0,0,0,0,0,0,0"), words("4"));
        let long = "priorities=4,0,0,0,0,0,0,0,0,0,0,0,0,0,0,0";
        assert_eq!(words("4,0,0,0,0,0,0,0,0"), Ok(Some(long.to_string())));
    }

    #[test]
    fn a_table_is_encoded_part_by_part() {
        let octets = encode(&format!("{SETTINGS}\n{TABLE}\nnext\n")).expect("a sound tape");
        let table = &tape::split(&octets).expect("a sound tape")[1].body;
        let description = b"a \"b\" \\ \0#";
        assert_eq!(table[..16], [1, 1, 0, 1, 0, 3, 0, 2, 0, 0, 0, 10, 0, 0, 0, 48]);
        assert_eq!(&table[16..26], description);
        assert_eq!(table[26..], [0, 0, 0, 0, 0, 9, 0, 4, 0, 0, 0, 0, 0, 0, 0, 0, 0, 10, 0x40, 0x0c, 0, 0, 0, 0, 0, 1]);
        assert_eq!(decode(&octets).and_then(|text| encode(&text)), Ok(octets));
    }

    /// The table and the records that are put of a text that begins with these words for the table.
    fn table_and_records(table: &str, text: &str) -> Result<(Vec<u8>, Vec<Vec<u8>>), String> {
        let octets = encode(&format!("{SETTINGS}\n{table}\n{text}"))?;
        assert_eq!(decode(&octets).and_then(|text| encode(&text)).as_ref(), Ok(&octets));
        let events = tape::split(&octets)?;
        Ok((events[1].body.clone(), events[2..].iter().map(|event| event.body[2..].to_vec()).collect()))
    }

    #[test]
    fn records_are_encoded_field_by_field_in_the_order_of_their_table() {
        let text = "put template=3 unsigned16=258 signed32=-2 float=0x3f800000 string=\"a b\" seconds=3600
  boolean=1 ipv4=c0000201
  zero-string=ok blob=\"\\x00\" unsigned64=0x0102030405060708";
        let big = "0102 fffffffe 3f800000 00000003612062 00000e10 01 c0000201 6f6b00 0000000100 0102030405060708";
        let little = "0201 feffffff 0000803f 03000000612062 00000e10 01 c0000201 6f6b00 0100000000 0807060504030201";
        for (order, flags, record) in [("", 1, big), (" order=big", 1, big), (" order=little", 0, little)] {
            let lines = format!("table configuration=1{order}\n  template 3\n    key 9 type=unsigned16");
            let (table, records) = table_and_records(&lines, text).expect("a sound tape");
            assert_eq!(table[..6], [1, flags, 0, 1, 0, 3]);
            assert_eq!(records, [words::octets_of_hex(&record.replace(' ', "")).expect("hex")]);
        }
        let in_hex = "table 01000001 0003 0001 0000 0000 00000018\n  00000009 0004 0000 00000000";
        assert_eq!(table_and_records(in_hex, "put template=3 unsigned16=5").map(|pair| pair.1), Ok(vec![vec![5, 0]]));
    }

    #[test]
    fn what_is_no_record_field_by_field_is_named() {
        let reason = |text: &str| events(text).expect_err("not a tape");
        assert_eq!(reason("put template=3 unsigned8=256"), "line 6: '256' is no value of type unsigned8");
        assert_eq!(reason("put template=3 signed8=-129"), "line 6: '-129' is no value of type signed8");
        assert_eq!(reason("put template=3 ipv4=0102"), "line 6: '0102' is no value of type ipv4");
        assert_eq!(
            reason("put template=3 unsigned8=5 05"),
            "line 6: a line of a record is in hex or field by field, not both"
        );
        assert_eq!(reason("next unsigned8=5"), "line 6: 'unsigned8=' does not belong here");
        assert_eq!(encode("table configuration=1 order=1"), Err("line 1: 'order=' is big or little".to_string()));
    }

    #[test]
    fn events_are_encoded_and_repeated() {
        let start = Event::message(2, vec![1, 1, 7, 0, 0, 0, 0, 8]);
        assert_eq!(events("tick 2\nnext\n"), Ok(vec![Event::tick(), Event::tick(), Event::next()]));
        assert_eq!(
            events("put template=4 times=2 61*3\n  00 01\n"),
            Err("line 7: an indented line cannot go on with a repeated event".to_string())
        );
        assert_eq!(events("put template=4 61*3\n  00 01 # more\n"), Ok(vec![Event::put(4, &[0x61, 0x61, 0x61, 0, 1])]));
        assert_eq!(events("message server=2 start times=2"), Ok(vec![start.clone(), start]));
        assert_eq!(
            events("message server=0 data-ack dsn=5 configuration=1 session=8"),
            events("message server=0 0121080000000010 00000005 01000000")
        );
        assert_eq!(events("down server=255\noffer server=3"), Ok(vec![Event::down(255), Event::offer(3)]));
    }

    #[test]
    fn what_cannot_be_encoded_is_named() {
        let reason = |text: &str| events(text).expect_err("not a tape");
        assert_eq!(reason("jump"), "line 6: no event 'jump'");
        assert_eq!(reason("next\nput 00"), "line 7: 'template=' is missing");
        assert_eq!(reason("put template=65536"), "line 6: '65536' is not a number from 0 to 65535");
        assert_eq!(reason("put template=1 000"), "line 6: '000' is not octets in hex");
        assert_eq!(reason("down server=1 server=2"), "line 6: 'server=' does not belong here");
        assert_eq!(reason("tick 600"), "line 6: '600' is not a number from 0 to 512");
        assert_eq!(reason("settings session=1"), "line 6: 'configuration=' is missing");
        assert_eq!(reason("table 00"), "event 2: a table stands only second");
        assert_eq!(encode(""), Err("the event count is 0, not 2 to 512".to_string()));
        assert_eq!(
            encode("  key 9"),
            Err("line 1: an indented line goes on with the line above, and there is none".to_string())
        );
        assert_eq!(decode(&[0, 2]), Err("the contents of 2 events are cut short".to_string()));
    }
}
