//! Messages, and how they are read.

use crate::fault::Fault;
use crate::fields::{kind_of, object_in, object_of, Fields, Object};
#[cfg(feature = "one-pass")]
use crate::one_pass;
use crate::values::{read_market, BatchKey, Code, Expiry, Gtin, Market, PackKey, Standing};
use serde_json::Value;

pub const MOST_MARKETS: usize = 32;
pub const MOST_SERIALS: usize = 100;

/// What is sold under a product code, and where.
pub struct Master {
    pub common: Box<str>,
    pub form: Box<str>,
    pub gtin: Gtin,
    pub markets: Box<[Market]>,
    pub name: Box<str>,
    pub pack_size: Box<str>,
    pub pack_type: Box<str>,
    pub scheme: Box<str>,
    pub strength: Box<str>,
}

/// Packs of a batch, each active.
pub struct Upload {
    pub batch: Code,
    pub expiry: Expiry,
    pub gtin: Gtin,
    pub national: Option<Code>,
    pub serials: Box<[Code]>,
}

/// A pack takes a standing.
pub struct Status {
    pub at: u64,
    pub pack: PackKey,
    pub to: Standing,
    pub user: Box<str>,
}

/// Packs of a batch were repackaged as packs of another.
pub struct Repack {
    pub after: BatchKey,
    pub after_serials: Box<[Code]>,
    pub at: u64,
    pub before: BatchKey,
    pub before_serials: Box<[Code]>,
}

/// What was found of a pack that is held.
pub struct Found {
    pub batch: Code,
    pub expiry: Expiry,
    pub national: Option<Code>,
    pub recalled: bool,
    pub standing: Standing,
    pub withdrawn: bool,
}

/// What was found of a pack, for the party whose message of this number was the query.
pub struct Answer {
    pub asker: u32,
    pub found: Option<Found>,
    pub pack: PackKey,
    pub q: u32,
}

/// A message of one of the eight kinds.
pub enum Message {
    Master(Box<Master>),
    Upload(Upload),
    Status(Status),
    Recall { at: u64, batch: BatchKey },
    Repack(Box<Repack>),
    Query(PackKey),
    Answer(Box<Answer>),
    Withdrawal { at: u64, gtin: Gtin },
}

impl Found {
    /// Whether version 1 cannot say it.
    pub fn is_second(&self) -> bool {
        self.national.is_some() || self.withdrawn
    }
}

impl Message {
    /// The message that a line is.
    pub fn of_line(line: &[u8]) -> Result<Message, Fault> {
        #[cfg(feature = "one-pass")]
        if let Some(message) = one_pass::message(line) {
            return Ok(message);
        }
        object_of(line).and_then(Message::read_object)
    }

    /// The message that a value is.
    pub fn read(value: Value) -> Result<Message, Fault> {
        Message::read_object(object_in(value)?)
    }

    /// The message that an object is: of version 2 where it has a `v`.
    fn read_object(object: Object) -> Result<Message, Fault> {
        let is_second = match object.get("v") {
            None => false,
            Some(version) if version.as_u64() == Some(2) => true,
            Some(_) => return Err(Fault::WrongType("v")),
        };
        match (kind_of(&object, "msg")?, is_second) {
            ("master", _) => read_master(fields_of(object, &MASTER, is_second)?),
            ("upload", false) => read_upload(Fields::of(object, &UPLOAD)?, is_second),
            ("upload", true) => read_upload(Fields::of(object, &SECOND_UPLOAD)?, is_second),
            ("status", _) => read_status(fields_of(object, &STATUS, is_second)?),
            ("recall", _) => read_recall(fields_of(object, &RECALL, is_second)?),
            ("repack", _) => read_repack(fields_of(object, &REPACK, is_second)?),
            ("query", _) => read_query(fields_of(object, &QUERY, is_second)?),
            ("answer", _) => read_answer(fields_of(object, &ANSWER, is_second)?, is_second),
            ("withdraw", true) => read_withdrawal(fields_of(object, &WITHDRAWAL, is_second)?),
            _ => Err(Fault::WrongType("msg")),
        }
    }
}

const MASTER: [&str; 11] =
    ["common", "form", "gtin", "markets", "msg", "name", "pack_size", "pack_type", "scheme", "strength", "v"];
const UPLOAD: [&str; 5] = ["batch", "expiry", "gtin", "msg", "serials"];
const SECOND_UPLOAD: [&str; 7] = ["batch", "expiry", "gtin", "msg", "national", "serials", "v"];
const STATUS: [&str; 7] = ["at", "gtin", "msg", "serial", "to", "user", "v"];
const RECALL: [&str; 5] = ["at", "batch", "gtin", "msg", "v"];
const REPACK: [&str; 9] =
    ["after_batch", "after_gtin", "after_serials", "at", "before_batch", "before_gtin", "before_serials", "msg", "v"];
const QUERY: [&str; 4] = ["gtin", "msg", "serial", "v"];
const ANSWER: [&str; 7] = ["asker", "found", "gtin", "msg", "q", "serial", "v"];
const WITHDRAWAL: [&str; 4] = ["at", "gtin", "msg", "v"];
const FOUND: [&str; 4] = ["batch", "expiry", "recalled", "standing"];
const SECOND_FOUND: [&str; 6] = ["batch", "expiry", "national", "recalled", "standing", "withdrawn"];

/// The fields of an object that may have those of these names; the last of them, `v`, in version 2 alone.
fn fields_of(object: Object, names: &[&str], is_second: bool) -> Result<Fields, Fault> {
    let count = if is_second { names.len() } else { names.len() - 1 };
    Fields::of(object, &names[..count])
}

fn read_master(mut fields: Fields) -> Result<Message, Fault> {
    let common = fields.free_text("common")?;
    let form = fields.free_text("form")?;
    let gtin = fields.gtin("gtin")?;
    let markets = fields.list("markets", MOST_MARKETS, read_market)?;
    fields.pass("msg")?;
    Ok(Message::Master(Box::new(Master {
        common,
        form,
        gtin,
        markets,
        name: fields.free_text("name")?,
        pack_size: fields.free_text("pack_size")?,
        pack_type: fields.free_text("pack_type")?,
        scheme: fields.free_text("scheme")?,
        strength: fields.free_text("strength")?,
    })))
}

fn read_upload(mut fields: Fields, is_second: bool) -> Result<Message, Fault> {
    let batch = fields.code("batch")?;
    let expiry = fields.expiry("expiry")?;
    let gtin = fields.gtin("gtin")?;
    fields.pass("msg")?;
    let national = if is_second { fields.code_or_null("national")? } else { None };
    let serials = fields.list("serials", MOST_SERIALS, Code::read)?;
    Ok(Message::Upload(Upload { batch, expiry, gtin, national, serials }))
}

fn read_status(mut fields: Fields) -> Result<Message, Fault> {
    let at = fields.moment("at")?;
    let gtin = fields.gtin("gtin")?;
    fields.pass("msg")?;
    let serial = fields.code("serial")?;
    let to = read_standing(&mut fields, "to")?;
    let user = fields.free_text("user")?;
    Ok(Message::Status(Status { at, pack: PackKey { gtin, serial }, to, user }))
}

fn read_recall(mut fields: Fields) -> Result<Message, Fault> {
    let at = fields.moment("at")?;
    let batch = fields.code("batch")?;
    let gtin = fields.gtin("gtin")?;
    Ok(Message::Recall { at, batch: BatchKey { gtin, batch } })
}

fn read_repack(mut fields: Fields) -> Result<Message, Fault> {
    let batch = fields.code("after_batch")?;
    let gtin = fields.gtin("after_gtin")?;
    let after = BatchKey { gtin, batch };
    let after_serials = fields.list("after_serials", MOST_SERIALS, Code::read)?;
    let at = fields.moment("at")?;
    let batch = fields.code("before_batch")?;
    let gtin = fields.gtin("before_gtin")?;
    let before = BatchKey { gtin, batch };
    let before_serials = fields.list("before_serials", MOST_SERIALS, Code::read)?;
    Ok(Message::Repack(Box::new(Repack { after, after_serials, at, before, before_serials })))
}

fn read_query(mut fields: Fields) -> Result<Message, Fault> {
    let gtin = fields.gtin("gtin")?;
    fields.pass("msg")?;
    let serial = fields.code("serial")?;
    Ok(Message::Query(PackKey { gtin, serial }))
}

fn read_answer(mut fields: Fields, is_second: bool) -> Result<Message, Fault> {
    let asker = fields.number("asker")?;
    let found = match fields.value("found")? {
        Value::Null => None,
        value => Some(read_found(value, is_second).map_err(|_| Fault::WrongType("found"))?),
    };
    let gtin = fields.gtin("gtin")?;
    fields.pass("msg")?;
    let q = match fields.number("q")? {
        0 => return Err(Fault::WrongType("q")),
        number => number,
    };
    let serial = fields.code("serial")?;
    Ok(Message::Answer(Box::new(Answer { asker, found, pack: PackKey { gtin, serial }, q })))
}

fn read_found(value: Value, is_second: bool) -> Result<Found, Fault> {
    let names: &[&str] = if is_second { &SECOND_FOUND } else { &FOUND };
    let mut fields = Fields::of(object_in(value)?, names)?;
    let batch = fields.code("batch")?;
    let expiry = fields.expiry("expiry")?;
    let national = if is_second { fields.code_or_null("national")? } else { None };
    let recalled = fields.truth("recalled")?;
    let standing = read_standing(&mut fields, "standing")?;
    let withdrawn = is_second && fields.truth("withdrawn")?;
    Ok(Found { batch, expiry, national, recalled, standing, withdrawn })
}

fn read_withdrawal(mut fields: Fields) -> Result<Message, Fault> {
    let at = fields.moment("at")?;
    let gtin = fields.gtin("gtin")?;
    Ok(Message::Withdrawal { at, gtin })
}

fn read_standing(fields: &mut Fields, name: &'static str) -> Result<Standing, Fault> {
    Standing::read(fields.text(name)?.as_bytes()).ok_or(Fault::WrongType(name))
}
