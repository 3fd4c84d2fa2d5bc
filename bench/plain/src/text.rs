//! Canonical texts, written straight into the buffer that goes out: replies, refusals and messages.

use crate::fault::{Fault, ValueFault};
use crate::message::{Answer, Found, Master, Message, Repack, Status, Upload};
use crate::values::{Code, Gtin, CODE_BYTES};

/// Writes the parts of a text one behind the other. The names of fields are given with their quotes and marks.
pub struct Text<'a>(pub &'a mut Vec<u8>);

impl Text<'_> {
    /// A part that stands in the text as it is.
    pub fn put(&mut self, part: &str) -> &mut Self {
        self.0.extend_from_slice(part.as_bytes());
        self
    }

    /// A number in decimal.
    pub fn number(&mut self, number: impl itoa::Integer) -> &mut Self {
        self.0.extend_from_slice(itoa::Buffer::new().format(number).as_bytes());
        self
    }

    /// True or false.
    pub fn truth(&mut self, is_true: bool) -> &mut Self {
        self.put(if is_true { "true" } else { "false" })
    }

    /// Any text, in quotes.
    fn quoted(&mut self, text: &str) -> &mut Self {
        serde_json::to_writer(&mut *self.0, text).expect("a vector takes all bytes");
        self
    }

    /// The 14 digits of a product code.
    fn gtin(&mut self, gtin: Gtin) -> &mut Self {
        self.0.extend_from_slice(&gtin.digits());
        self
    }

    /// A code, in quotes. Of its characters the quote alone has another spelling.
    fn code(&mut self, code: &Code) -> &mut Self {
        let (bytes, length) = code.bytes();
        if code.has_quote() {
            return self.quoted(&String::from_utf8_lossy(&bytes[..length]));
        }
        // All bytes are copied, since how many these are is known to the compiler; those behind the last quote are taken back.
        let mut quoted = [b'"'; CODE_BYTES + 2];
        quoted[1..=CODE_BYTES].copy_from_slice(bytes);
        quoted[length + 1] = b'"';
        let end = self.0.len() + length + 2;
        self.0.extend_from_slice(&quoted);
        self.0.truncate(end);
        self
    }

    /// A code, or null for none.
    fn code_or_null(&mut self, code: Option<&Code>) -> &mut Self {
        match code {
            Some(code) => self.code(code),
            None => self.put("null"),
        }
    }

    /// A list of codes.
    fn codes(&mut self, codes: &[Code]) -> &mut Self {
        for (place, code) in codes.iter().enumerate() {
            self.0.push(if place == 0 { b'[' } else { b',' });
            self.code(code);
        }
        self.put("]")
    }

    /// The refusal of a line or a message.
    pub fn fault(&mut self, fault: &Fault) {
        self.put("{");
        if let Fault::WrongValue(_, fault) = fault {
            self.put("\"fault\":\"").put(fault.code()).put("\",");
        }
        if let Some(field) = fault.field() {
            self.put("\"field\":").quoted(&field).put(",");
        }
        if let Fault::WrongValue(_, ValueFault::CodeCharacter(place)) = fault {
            self.put("\"place\":").number(*place).put(",");
        }
        self.put("\"refused\":\"").put(fault.code()).put("\"}");
    }

    /// The canonical text of a message: of version 2 where version 1 cannot say it.
    pub fn message(&mut self, message: &Message) {
        match message {
            Message::Master(master) => self.master(master),
            Message::Upload(upload) => self.upload(upload),
            Message::Status(status) => self.status(status),
            Message::Recall { at, batch } => {
                self.put("{\"at\":").number(*at).put(",\"batch\":").code(&batch.batch);
                self.put(",\"gtin\":\"").gtin(batch.gtin).put("\",\"msg\":\"recall\"}");
            }
            Message::Repack(repack) => self.repack(repack),
            Message::Query(pack) => {
                self.put("{\"gtin\":\"").gtin(pack.gtin).put("\",\"msg\":\"query\",\"serial\":");
                self.code(&pack.serial).put("}");
            }
            Message::Answer(answer) => self.answer(answer),
            Message::Withdrawal { at, gtin } => {
                self.put("{\"at\":").number(*at).put(",\"gtin\":\"").gtin(*gtin);
                self.put("\",\"msg\":\"withdraw\",\"v\":2}");
            }
        }
    }

    fn master(&mut self, master: &Master) {
        self.put("{\"common\":").quoted(&master.common).put(",\"form\":").quoted(&master.form);
        self.put(",\"gtin\":\"").gtin(master.gtin).put("\",\"markets\":");
        for (place, market) in master.markets.iter().enumerate() {
            self.put(if place == 0 { "[\"" } else { ",\"" });
            self.0.extend_from_slice(market);
            self.put("\"");
        }
        self.put("],\"msg\":\"master\",\"name\":").quoted(&master.name);
        self.put(",\"pack_size\":").quoted(&master.pack_size).put(",\"pack_type\":").quoted(&master.pack_type);
        self.put(",\"scheme\":").quoted(&master.scheme).put(",\"strength\":").quoted(&master.strength).put("}");
    }

    fn upload(&mut self, upload: &Upload) {
        self.put("{\"batch\":").code(&upload.batch).put(",\"expiry\":\"");
        self.0.extend_from_slice(&upload.expiry.digits());
        self.put("\",\"gtin\":\"").gtin(upload.gtin).put("\",\"msg\":\"upload\"");
        if let Some(national) = &upload.national {
            self.put(",\"national\":").code(national);
        }
        self.put(",\"serials\":").codes(&upload.serials);
        self.put(if upload.national.is_some() { ",\"v\":2}" } else { "}" });
    }

    fn status(&mut self, status: &Status) {
        self.put("{\"at\":").number(status.at).put(",\"gtin\":\"").gtin(status.pack.gtin);
        self.put("\",\"msg\":\"status\",\"serial\":").code(&status.pack.serial);
        self.put(",\"to\":\"").put(status.to.name()).put("\",\"user\":").quoted(&status.user).put("}");
    }

    fn repack(&mut self, repack: &Repack) {
        self.put("{\"after_batch\":").code(&repack.after.batch).put(",\"after_gtin\":\"").gtin(repack.after.gtin);
        self.put("\",\"after_serials\":").codes(&repack.after_serials).put(",\"at\":").number(repack.at);
        self.put(",\"before_batch\":").code(&repack.before.batch).put(",\"before_gtin\":\"").gtin(repack.before.gtin);
        self.put("\",\"before_serials\":").codes(&repack.before_serials).put(",\"msg\":\"repack\"}");
    }

    fn answer(&mut self, answer: &Answer) {
        self.put("{\"asker\":").number(answer.asker).put(",\"found\":");
        let is_second = answer.found.as_ref().is_some_and(Found::is_second);
        match &answer.found {
            Some(found) => self.found(found),
            None => self.put("null"),
        };
        self.put(",\"gtin\":\"").gtin(answer.pack.gtin).put("\",\"msg\":\"answer\",\"q\":").number(answer.q);
        self.put(",\"serial\":").code(&answer.pack.serial).put(if is_second { ",\"v\":2}" } else { "}" });
    }

    fn found(&mut self, found: &Found) -> &mut Self {
        self.put("{\"batch\":").code(&found.batch).put(",\"expiry\":\"");
        self.0.extend_from_slice(&found.expiry.digits());
        self.put("\"");
        if found.is_second() {
            self.put(",\"national\":").code_or_null(found.national.as_ref());
        }
        self.put(",\"recalled\":").truth(found.recalled);
        self.put(",\"standing\":\"").put(found.standing.name()).put("\"");
        if found.is_second() {
            self.put(",\"withdrawn\":").truth(found.withdrawn);
        }
        self.put("}")
    }
}
