//! Answers the lines of `canon`.

use crate::message::Message;
use crate::text::Text;

/// Writes the canonical text of the message that a line is, or the message's first fault.
pub fn answer(line: &[u8], out: &mut Vec<u8>) {
    match Message::of_line(line) {
        Ok(message) => Text(out).message(&message),
        Err(fault) => Text(out).fault(&fault),
    }
}
