//! Deliveries and messages as lines of text or of JSON.

use clap::ValueEnum;
use muoswyld_group::{Delivery, Founding, Names};
use serde::Deserialize;
use serde_json::{json, Value};

/// How deliveries are printed.
#[derive(Clone, Copy, Debug, Default, PartialEq, Eq, ValueEnum, Deserialize)]
#[serde(rename_all = "lowercase")]
pub enum Form {
    /// A line each: NUMBER SENDER: TEXT, or NUMBER joined NAME and the like. A number of a later list has its generation before it: 1.17.
    #[default]
    Lines,
    /// An object of JSON a line.
    Json,
    /// Nothing is printed: deliveries are given to the caller at the socket that says `deliveries`.
    Socket,
    /// Nothing is printed.
    None,
}

/// Whether a character may be shown: no control, and none that changes the direction of what follows.
fn is_shown(c: char) -> bool {
    let changes_direction = matches!(c,
        '\u{061c}' | '\u{200e}' | '\u{200f}' | '\u{202a}'..='\u{202e}' | '\u{2066}'..='\u{2069}');
    let breaks_lines = matches!(c, '\u{2028}' | '\u{2029}');
    c == '\t' || !(c.is_control() || changes_direction || breaks_lines)
}

/// A message as text in one line: what can't be shown is replaced.
pub fn shown(message: &[u8]) -> String {
    let text = String::from_utf8_lossy(message);
    text.chars()
        .map(|c| if is_shown(c) { c } else { '\u{fffd}' })
        .collect()
}

/// A message in JSON: as text, if it is UTF-8, and else as digits.
fn content(message: &[u8]) -> (&'static str, Value) {
    match std::str::from_utf8(message) {
        Ok(text) => ("text", json!(text)),
        Err(_) => ("hex", json!(hex::encode(message))),
    }
}

/// A delivery as a line of text.
pub fn line(delivery: &Delivery) -> String {
    let at = delivery.at();
    let number = match at.generation {
        0 => at.number.to_string(),
        generation => format!("{generation}.{}", at.number),
    };
    match delivery {
        Delivery::Message { from, message, .. } => format!("{number} {from}: {}", shown(message)),
        Delivery::Joined { name, .. } => format!("{number} joined {name}"),
        Delivery::Left { name, .. } => format!("{number} left {name}"),
        Delivery::View {
            members,
            resilience,
            ..
        } => format!("{number} view {members} r{resilience}"),
        Delivery::Succeeded {
            founding, voters, ..
        } => {
            let Founding {
                founders,
                resilience,
                window,
                pb_up_to,
            } = founding;
            format!("{number} succeeded by {founders} r{resilience} window {window} pb-up-to {pb_up_to} voters {voters}")
        }
    }
}

/// Names, as JSON.
fn names(names: &Names) -> Value {
    let names: Vec<String> = names.iter().map(|name| name.to_string()).collect();
    json!(names)
}

/// A delivery as an object of JSON.
pub fn object(delivery: &Delivery) -> Value {
    let at = delivery.at();
    let mut object = json!({ "generation": at.generation, "number": at.number, "index": at.index });
    match delivery {
        Delivery::Message { from, message, .. } => {
            let (key, content) = content(message);
            object["kind"] = json!("message");
            object["from"] = json!(from.to_string());
            object[key] = content;
        }
        Delivery::Joined { name, .. } => {
            object["kind"] = json!("joined");
            object["name"] = json!(name.to_string());
        }
        Delivery::Left { name, .. } => {
            object["kind"] = json!("left");
            object["name"] = json!(name.to_string());
        }
        Delivery::View {
            members,
            resilience,
            ..
        } => {
            object["kind"] = json!("view");
            object["members"] = names(members);
            object["resilience"] = json!(resilience);
        }
        Delivery::Succeeded {
            members,
            founding,
            voters,
            ..
        } => {
            object["kind"] = json!("succeeded");
            object["members"] = names(members);
            object["founders"] = names(&founding.founders);
            object["resilience"] = json!(founding.resilience);
            object["window"] = json!(founding.window);
            object["pb-up-to"] = json!(founding.pb_up_to);
            object["voters"] = names(voters);
        }
    }
    object
}

#[cfg(test)]
mod tests {
    use super::*;
    use muoswyld_group::Position;

    #[test]
    fn controls_are_replaced() {
        assert_eq!(shown(b"a\tb\x1b[2J\n"), "a\tb\u{fffd}[2J\u{fffd}");
        assert_eq!(
            shown("a\u{202e}b\u{2066}c\u{200f}".as_bytes()),
            "a\u{fffd}b\u{fffd}c\u{fffd}"
        );
        assert_eq!(shown(b"\xff"), "\u{fffd}");
        assert_eq!(shown("äöü".as_bytes()), "äöü");
    }

    #[test]
    fn deliveries_of_later_lists_say_so() {
        let at = |generation| Position {
            generation,
            number: 17,
            index: 2,
        };
        let message = |generation| Delivery::Message {
            at: at(generation),
            from: "1/2".parse().unwrap(),
            message: b"x".to_vec(),
        };
        assert_eq!(line(&message(0)), "17 1/2: x");
        assert_eq!(line(&message(3)), "3.17 1/2: x");
        let said = json!({ "generation": 3, "number": 17, "index": 2, "kind": "message", "from": "1/2", "text": "x" });
        assert_eq!(object(&message(3)), said);
        let end = Delivery::Succeeded {
            at: at(0),
            members: "0,1/2".parse().unwrap(),
            founding: Founding {
                founders: "0,1".parse().unwrap(),
                resilience: 1,
                window: 500,
                pb_up_to: 1024,
            },
            voters: Names::nobody(),
        };
        let shown = "17 succeeded by 0,1 r1 window 500 pb-up-to 1024 voters -";
        assert_eq!(line(&end), shown);
        let said = json!({
            "generation": 0, "number": 17, "index": 2, "kind": "succeeded", "members": ["0", "1/2"],
            "founders": ["0", "1"], "resilience": 1, "window": 500, "pb-up-to": 1024, "voters": [],
        });
        assert_eq!(object(&end), said);
    }

    #[test]
    fn bytes_that_are_no_text_are_digits() {
        assert_eq!(content(b"ab"), ("text", json!("ab")));
        assert_eq!(content(b"\xff\x00"), ("hex", json!("ff00")));
    }
}
