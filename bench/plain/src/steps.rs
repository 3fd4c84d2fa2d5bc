//! Answers the lines of `steps`.

use crate::inquiries::{Joint, Verdict};
use crate::repository::Effect;
use crate::request::Request;
use crate::text::Text;
use crate::world::{Refusal, Reply, World};

/// What lines speak to: nothing, and from some line on a system.
#[derive(Default)]
pub struct Session {
    world: Option<World>,
}

impl Session {
    /// Writes the reply to a line.
    pub fn answer(&mut self, line: &[u8], out: &mut Vec<u8>) {
        let mut text = Text(out);
        match Request::read(line) {
            Ok(request) => match self.take(request) {
                Ok(reply) => text.reply(&reply),
                Err(refusal) => text.refusal(&refusal),
            },
            Err(fault) => text.fault(&fault),
        }
    }

    fn take(&mut self, request: Request) -> Result<Reply, Refusal> {
        match (request, &mut self.world) {
            (Request::Open(_), Some(_)) => Err(Refusal::AlreadyOpen),
            (Request::Open(opening), None) => {
                self.world = Some(World::open(&opening)?);
                Ok(Reply::Opened(opening.parties.len()))
            }
            (Request::Step(_), None) => Err(Refusal::NotOpen),
            (Request::Step(step), Some(world)) => world.step(step),
        }
    }
}

impl Text<'_> {
    /// A refusal of an opening or a step.
    pub fn refusal(&mut self, refusal: &Refusal) {
        self.put("{");
        if let Refusal::LinkFull(party) = refusal {
            self.put("\"party\":").number(*party).put(",");
        }
        self.put("\"refused\":\"").put(refusal.code()).put("\"}");
    }

    fn reply(&mut self, reply: &Reply) {
        match reply {
            Reply::Opened(count) => self.put("{\"opened\":").number(*count),
            Reply::Submitted(k) => self.put("{\"submitted\":").number(*k),
            Reply::Verdict(verdict) => self.verdict(verdict),
            Reply::Asked(q) => self.put("{\"asked\":").number(*q),
            Reply::Joint(Joint::NotAsked) => self.put("{\"verdict\":\"not asked\""),
            Reply::Joint(Joint::Pending(left)) => self.put("{\"left\":").number(*left).put(",\"verdict\":\"pending\""),
            Reply::Joint(Joint::Decided(verdict)) => self.verdict(verdict),
            Reply::Routed { k, reach } => {
                self.put("{\"reach\":[");
                for (place, party) in reach.parties().enumerate() {
                    self.put(if place == 0 { "" } else { "," }).number(party);
                }
                self.put("],\"routed\":").number(*k)
            }
            Reply::Relayed(number) => self.put("{\"relayed\":").number(*number),
            Reply::Applied { number, effect, answer } => self.applied(*number, effect, *answer),
            Reply::Old(number) => self.put("{\"old\":").number(*number),
            Reply::Gap { number, expected } => {
                self.put("{\"expected\":").number(*expected).put(",\"gap\":").number(*number)
            }
            Reply::Repeated(number) => self.put("{\"repeated\":").number(*number),
            Reply::Closed => self.put("{\"closed\":true"),
            Reply::Lost(number) => self.put("{\"lost\":").number(*number),
        }
        .put("}");
    }

    fn verdict(&mut self, verdict: &Verdict) -> &mut Self {
        match verdict {
            Verdict::Authentic => self.put("{\"verdict\":\"authentic\""),
            Verdict::NotAuthentic { is_falsification } => {
                self.put("{\"falsification\":").truth(*is_falsification).put(",\"verdict\":\"not authentic\"")
            }
        }
    }

    fn applied(&mut self, number: u32, effect: &Effect, answer: Option<u32>) -> &mut Self {
        self.put("{");
        if let Some(k) = answer {
            self.put("\"answer\":").number(k).put(",");
        }
        self.put("\"applied\":").number(number).put(",\"effect\":\"");
        match effect {
            Effect::Done(code) => self.put(code).put("\""),
            Effect::Uploaded { new, old } => self.put("E12\",\"new\":").number(*new).put(",\"old\":").number(*old),
        }
    }
}
