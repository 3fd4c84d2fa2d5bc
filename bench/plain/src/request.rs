//! What a line of `steps` asks.

use crate::fault::{Fault, ValueFault};
use crate::fields::{kind_of, object_of, Fields};
use crate::message::Message;
#[cfg(feature = "one-pass")]
use crate::one_pass;
use crate::values::{read_market, Market, PackKey};
use serde_json::Value;

/// What a line opens.
pub struct Opening {
    pub parties: Vec<Vec<Market>>,
    pub submissions: u32,
    pub uplink: u32,
    pub window: u32,
    pub wire: u32,
}

/// A link, by the numbers of its two parties.
#[derive(Clone, Copy)]
pub struct LinkKey {
    pub from: u32,
    pub to: u32,
}

/// A step of an open system.
pub enum Step {
    Submit { from: u32, message: Message },
    Verify { party: u32, pack: PackKey },
    Verdict { party: u32, q: u32 },
    Route { from: u32 },
    Relay(LinkKey),
    Apply(LinkKey),
    Repeat { link: LinkKey, number: u32 },
    Close(LinkKey),
    Lose(LinkKey),
}

/// What a line asks.
pub enum Request {
    Open(Opening),
    Step(Step),
}

impl Request {
    /// What a line asks, or its first fault.
    pub fn read(line: &[u8]) -> Result<Request, Fault> {
        #[cfg(feature = "one-pass")]
        if let Some(request) = one_pass::request(line) {
            return Ok(request);
        }
        let object = object_of(line)?;
        let step = match kind_of(&object, "do")? {
            "open" => {
                let names = ["do", "parties", "submissions", "uplink", "window", "wire"];
                return read_opening(Fields::of(object, &names)?).map(Request::Open);
            }
            "submit" => read_submission(Fields::of(object, &["do", "from", "message"])?)?,
            "verify" => read_verification(Fields::of(object, &["do", "gtin", "party", "serial"])?)?,
            "verdict" => {
                let mut fields = Fields::of(object, &["do", "party", "q"])?;
                fields.pass("do")?;
                Step::Verdict { party: fields.number("party")?, q: fields.number("q")? }
            }
            "route" => {
                let mut fields = Fields::of(object, &["do", "from"])?;
                fields.pass("do")?;
                Step::Route { from: fields.number("from")? }
            }
            "repeat" => {
                let mut fields = Fields::of(object, &["do", "from", "number", "to"])?;
                fields.pass("do")?;
                let from = fields.number("from")?;
                let number = fields.number("number")?;
                Step::Repeat { link: LinkKey { from, to: fields.number("to")? }, number }
            }
            "relay" => Step::Relay(read_link(Fields::of(object, &LINK)?)?),
            "apply" => Step::Apply(read_link(Fields::of(object, &LINK)?)?),
            "close" => Step::Close(read_link(Fields::of(object, &LINK)?)?),
            "lose" => Step::Lose(read_link(Fields::of(object, &LINK)?)?),
            _ => return Err(Fault::WrongType("do")),
        };
        Ok(Request::Step(step))
    }
}

const LINK: [&str; 3] = ["do", "from", "to"];

fn read_link(mut fields: Fields) -> Result<LinkKey, Fault> {
    fields.pass("do")?;
    Ok(LinkKey { from: fields.number("from")?, to: fields.number("to")? })
}

fn read_submission(mut fields: Fields) -> Result<Step, Fault> {
    fields.pass("do")?;
    let from = fields.number("from")?;
    let message = Message::read(fields.value("message")?)?;
    Ok(Step::Submit { from, message })
}

fn read_verification(mut fields: Fields) -> Result<Step, Fault> {
    fields.pass("do")?;
    let gtin = fields.gtin("gtin")?;
    let party = fields.number("party")?;
    let serial = fields.code("serial")?;
    Ok(Step::Verify { party, pack: PackKey { gtin, serial } })
}

fn read_opening(mut fields: Fields) -> Result<Opening, Fault> {
    fields.pass("do")?;
    Ok(Opening {
        parties: read_parties(&fields.value("parties")?)?,
        submissions: fields.number("submissions")?,
        uplink: fields.number("uplink")?,
        window: fields.number("window")?,
        wire: fields.number("wire")?,
    })
}

/// The markets that each party serves.
fn read_parties(value: &Value) -> Result<Vec<Vec<Market>>, Fault> {
    let wrong_type = || Fault::WrongType("parties");
    let wrong_market = |fault: ValueFault| Fault::WrongValue("parties", fault);
    let texts_of = |list: &Value| -> Option<Vec<String>> {
        list.as_array()?.iter().map(|text| text.as_str().map(str::to_string)).collect()
    };
    let lists = value.as_array().ok_or_else(wrong_type)?;
    let lists: Vec<Vec<String>> = lists.iter().map(texts_of).collect::<Option<_>>().ok_or_else(wrong_type)?;
    let markets_of =
        |texts: &Vec<String>| texts.iter().map(|text| read_market(text.as_bytes())).collect::<Result<_, _>>();
    lists.iter().map(markets_of).collect::<Result<_, _>>().map_err(wrong_market)
}
