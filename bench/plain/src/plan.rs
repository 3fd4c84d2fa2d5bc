//! What the lines of a plan ask: what each party is to submit.

use crate::message::Message;
use crate::request::{Opening, Request, Step};
use crate::text::Text;
use crate::world::{check_opening, Refusal};
use std::collections::VecDeque;

/// What each party is to submit, in order.
pub struct Plan {
    pub opening: Opening,
    pub work: Vec<VecDeque<Message>>,
}

/// What some lines plan: nothing yet, a plan, or the text of the first refusal.
#[derive(Default)]
pub enum Planned {
    #[default]
    Nothing,
    Plan(Plan),
    Refused(Vec<u8>),
}

impl Planned {
    /// Adds what a line asks. Behind one that is refused no other is looked at.
    pub fn take(&mut self, line: &[u8]) {
        if matches!(self, Planned::Refused(_)) {
            return;
        }
        let mut told = Vec::new();
        let mut text = Text(&mut told);
        let is_planned = match Request::read(line) {
            Ok(request) => self.add(request).map_err(|refusal| text.refusal(&refusal)).is_ok(),
            Err(fault) => {
                text.fault(&fault);
                false
            }
        };
        if !is_planned {
            *self = Planned::Refused(told);
        }
    }

    fn add(&mut self, request: Request) -> Result<(), Refusal> {
        match (request, &mut *self) {
            (Request::Open(opening), Planned::Nothing) => {
                check_opening(&opening)?;
                let work = opening.parties.iter().map(|_| VecDeque::new()).collect();
                *self = Planned::Plan(Plan { opening, work });
                Ok(())
            }
            (Request::Open(_), _) => Err(Refusal::AlreadyOpen),
            (Request::Step(step), Planned::Plan(plan)) => plan.add(step),
            (Request::Step(_), _) => Err(Refusal::NotOpen),
        }
    }
}

impl Plan {
    fn add(&mut self, step: Step) -> Result<(), Refusal> {
        match step {
            Step::Submit { from, message } => {
                let list = self.list(from)?;
                if matches!(message, Message::Query(_) | Message::Answer(_)) {
                    return Err(Refusal::NotSubmitted);
                }
                list.push_back(message);
            }
            Step::Verify { party, pack } => self.list(party)?.push_back(Message::Query(pack)),
            _ => return Err(Refusal::NotOfAPlan),
        }
        Ok(())
    }

    fn list(&mut self, party: u32) -> Result<&mut VecDeque<Message>, Refusal> {
        self.work.get_mut(party as usize).ok_or(Refusal::NoSuchParty)
    }
}
