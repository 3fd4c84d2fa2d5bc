//! Reads lines and messages in one pass over their bytes, their keys in any order. Of an opening, and of what has a fault, it gives none.

use crate::message::{Answer, Found, Master, Message, Repack, Status, Upload, MOST_MARKETS, MOST_SERIALS};
use crate::request::{LinkKey, Request, Step};
use crate::scan::Scanner;
use crate::values::{read_market, BatchKey, Code, Expiry, Gtin, Market, PackKey, Standing};

/// The message that a line is.
pub fn message(line: &[u8]) -> Option<Message> {
    Scanner::read(line, read_message)
}

/// The step that a line asks.
pub fn request(line: &[u8]) -> Option<Request> {
    Scanner::read(line, |scanner| {
        let mut asked = Asked::default();
        scanner.object(|scanner, key| asked.take(scanner, key))?;
        asked.step().map(Request::Step)
    })
}

fn read_message(scanner: &mut Scanner) -> Option<Message> {
    let mut told = Told::default();
    scanner.object(|scanner, key| told.take(scanner, key))?;
    told.message()
}

/// Which fields were met, a bit for each.
#[derive(Default)]
struct Met(u32);

impl Met {
    /// Keeps the value of a field, which is met for the first time.
    fn keep<T>(&mut self, field: u32, place: &mut Option<T>, value: Option<T>) -> Option<()> {
        if self.0 & field != 0 || value.is_none() {
            return None;
        }
        self.0 |= field;
        *place = value;
        Some(())
    }
}

/// What a line asks.
enum Task {
    Submit,
    Verify,
    Verdict,
    Route,
    Relay,
    Apply,
    Repeat,
    Close,
    Lose,
}

/// The fields of a line.
#[derive(Default)]
struct Asked {
    met: Met,
    task: Option<Task>,
    from: Option<u32>,
    gtin: Option<Gtin>,
    message: Option<Message>,
    number: Option<u32>,
    party: Option<u32>,
    q: Option<u32>,
    serial: Option<Code>,
    to: Option<u32>,
}

impl Asked {
    const FROM: u32 = 1;
    const GTIN: u32 = 1 << 1;
    const MESSAGE: u32 = 1 << 2;
    const NUMBER: u32 = 1 << 3;
    const PARTY: u32 = 1 << 4;
    const Q: u32 = 1 << 5;
    const SERIAL: u32 = 1 << 6;
    const TO: u32 = 1 << 7;
    const TASK: u32 = 1 << 8;

    const SUBMISSION: u32 = Self::TASK | Self::FROM | Self::MESSAGE;
    const VERIFICATION: u32 = Self::TASK | Self::GTIN | Self::PARTY | Self::SERIAL;
    const VERDICT: u32 = Self::TASK | Self::PARTY | Self::Q;
    const ROUTING: u32 = Self::TASK | Self::FROM;
    const LINK: u32 = Self::TASK | Self::FROM | Self::TO;
    const REPETITION: u32 = Self::LINK | Self::NUMBER;

    fn take(&mut self, scanner: &mut Scanner, key: &[u8]) -> Option<()> {
        let met = &mut self.met;
        match key {
            b"do" => met.keep(Self::TASK, &mut self.task, read_task(scanner)),
            b"from" => met.keep(Self::FROM, &mut self.from, scanner.number()),
            b"to" => met.keep(Self::TO, &mut self.to, scanner.number()),
            b"message" => met.keep(Self::MESSAGE, &mut self.message, read_message(scanner)),
            b"gtin" => met.keep(Self::GTIN, &mut self.gtin, scanner.gtin()),
            b"party" => met.keep(Self::PARTY, &mut self.party, scanner.number()),
            b"serial" => met.keep(Self::SERIAL, &mut self.serial, scanner.code()),
            b"number" => met.keep(Self::NUMBER, &mut self.number, scanner.number()),
            b"q" => met.keep(Self::Q, &mut self.q, scanner.number()),
            _ => None,
        }
    }

    /// The step, where these are its fields.
    fn step(self) -> Option<Step> {
        Some(match (self.task?, self.met.0) {
            (Task::Submit, Self::SUBMISSION) => Step::Submit { from: self.from?, message: self.message? },
            (Task::Verify, Self::VERIFICATION) => {
                Step::Verify { party: self.party?, pack: PackKey { gtin: self.gtin?, serial: self.serial? } }
            }
            (Task::Verdict, Self::VERDICT) => Step::Verdict { party: self.party?, q: self.q? },
            (Task::Route, Self::ROUTING) => Step::Route { from: self.from? },
            (Task::Relay, Self::LINK) => Step::Relay(LinkKey { from: self.from?, to: self.to? }),
            (Task::Apply, Self::LINK) => Step::Apply(LinkKey { from: self.from?, to: self.to? }),
            (Task::Close, Self::LINK) => Step::Close(LinkKey { from: self.from?, to: self.to? }),
            (Task::Lose, Self::LINK) => Step::Lose(LinkKey { from: self.from?, to: self.to? }),
            (Task::Repeat, Self::REPETITION) => {
                Step::Repeat { link: LinkKey { from: self.from?, to: self.to? }, number: self.number? }
            }
            _ => return None,
        })
    }
}

fn read_task(scanner: &mut Scanner) -> Option<Task> {
    Some(match &*scanner.text()? {
        b"submit" => Task::Submit,
        b"verify" => Task::Verify,
        b"verdict" => Task::Verdict,
        b"route" => Task::Route,
        b"relay" => Task::Relay,
        b"apply" => Task::Apply,
        b"repeat" => Task::Repeat,
        b"close" => Task::Close,
        b"lose" => Task::Lose,
        _ => return None,
    })
}

/// What a message says.
enum Kind {
    Master,
    Upload,
    Status,
    Recall,
    Repack,
    Query,
    Answer,
    Withdrawal,
}

/// The fields of a message.
#[derive(Default)]
struct Told {
    met: Met,
    kind: Option<Kind>,
    version: Option<u64>,
    after_batch: Option<Code>,
    after_gtin: Option<Gtin>,
    after_serials: Option<Box<[Code]>>,
    asker: Option<u32>,
    at: Option<u64>,
    batch: Option<Code>,
    before_batch: Option<Code>,
    before_gtin: Option<Gtin>,
    before_serials: Option<Box<[Code]>>,
    common: Option<Box<str>>,
    expiry: Option<Expiry>,
    form: Option<Box<str>>,
    found: Option<Option<Seen>>,
    gtin: Option<Gtin>,
    markets: Option<Box<[Market]>>,
    name: Option<Box<str>>,
    national: Option<Option<Code>>,
    pack_size: Option<Box<str>>,
    pack_type: Option<Box<str>>,
    q: Option<u32>,
    scheme: Option<Box<str>>,
    serial: Option<Code>,
    serials: Option<Box<[Code]>>,
    strength: Option<Box<str>>,
    to: Option<Standing>,
    user: Option<Box<str>>,
}

impl Told {
    const AFTER_BATCH: u32 = 1;
    const AFTER_GTIN: u32 = 1 << 1;
    const AFTER_SERIALS: u32 = 1 << 2;
    const ASKER: u32 = 1 << 3;
    const AT: u32 = 1 << 4;
    const BATCH: u32 = 1 << 5;
    const BEFORE_BATCH: u32 = 1 << 6;
    const BEFORE_GTIN: u32 = 1 << 7;
    const BEFORE_SERIALS: u32 = 1 << 8;
    const COMMON: u32 = 1 << 9;
    const EXPIRY: u32 = 1 << 10;
    const FORM: u32 = 1 << 11;
    const FOUND: u32 = 1 << 12;
    const GTIN: u32 = 1 << 13;
    const MARKETS: u32 = 1 << 14;
    const KIND: u32 = 1 << 15;
    const NAME: u32 = 1 << 16;
    const NATIONAL: u32 = 1 << 17;
    const PACK_SIZE: u32 = 1 << 18;
    const PACK_TYPE: u32 = 1 << 19;
    const Q: u32 = 1 << 20;
    const SCHEME: u32 = 1 << 21;
    const SERIAL: u32 = 1 << 22;
    const SERIALS: u32 = 1 << 23;
    const STRENGTH: u32 = 1 << 24;
    const TO: u32 = 1 << 25;
    const USER: u32 = 1 << 26;
    const VERSION: u32 = 1 << 27;

    const MASTER: u32 = Self::KIND
        | Self::COMMON
        | Self::FORM
        | Self::GTIN
        | Self::MARKETS
        | Self::NAME
        | Self::PACK_SIZE
        | Self::PACK_TYPE
        | Self::SCHEME
        | Self::STRENGTH;
    const UPLOAD: u32 = Self::KIND | Self::BATCH | Self::EXPIRY | Self::GTIN | Self::SERIALS;
    const SECOND_UPLOAD: u32 = Self::UPLOAD | Self::NATIONAL;
    const STATUS: u32 = Self::KIND | Self::AT | Self::GTIN | Self::SERIAL | Self::TO | Self::USER;
    const RECALL: u32 = Self::KIND | Self::AT | Self::BATCH | Self::GTIN;
    const REPACK: u32 = Self::KIND
        | Self::AFTER_BATCH
        | Self::AFTER_GTIN
        | Self::AFTER_SERIALS
        | Self::AT
        | Self::BEFORE_BATCH
        | Self::BEFORE_GTIN
        | Self::BEFORE_SERIALS;
    const QUERY: u32 = Self::KIND | Self::GTIN | Self::SERIAL;
    const ANSWER: u32 = Self::KIND | Self::ASKER | Self::FOUND | Self::GTIN | Self::Q | Self::SERIAL;
    const WITHDRAWAL: u32 = Self::KIND | Self::AT | Self::GTIN;

    fn take(&mut self, scanner: &mut Scanner, key: &[u8]) -> Option<()> {
        let met = &mut self.met;
        match key {
            b"msg" => met.keep(Self::KIND, &mut self.kind, read_kind(scanner)),
            b"gtin" => met.keep(Self::GTIN, &mut self.gtin, scanner.gtin()),
            b"at" => met.keep(Self::AT, &mut self.at, scanner.moment()),
            b"serial" => met.keep(Self::SERIAL, &mut self.serial, scanner.code()),
            b"to" => met.keep(Self::TO, &mut self.to, scanner.standing()),
            b"user" => met.keep(Self::USER, &mut self.user, scanner.free_text()),
            b"batch" => met.keep(Self::BATCH, &mut self.batch, scanner.code()),
            b"expiry" => met.keep(Self::EXPIRY, &mut self.expiry, scanner.expiry()),
            b"serials" => met.keep(Self::SERIALS, &mut self.serials, read_serials(scanner)),
            b"v" => met.keep(Self::VERSION, &mut self.version, scanner.whole().filter(|version| *version == 2)),
            b"national" => met.keep(Self::NATIONAL, &mut self.national, scanner.or_null(Scanner::code)),
            b"asker" => met.keep(Self::ASKER, &mut self.asker, scanner.number()),
            b"found" => met.keep(Self::FOUND, &mut self.found, scanner.or_null(Seen::read)),
            b"q" => met.keep(Self::Q, &mut self.q, scanner.number().filter(|q| *q > 0)),
            b"markets" => met.keep(Self::MARKETS, &mut self.markets, scanner.list(MOST_MARKETS, read_name)),
            b"common" => met.keep(Self::COMMON, &mut self.common, scanner.free_text()),
            b"form" => met.keep(Self::FORM, &mut self.form, scanner.free_text()),
            b"name" => met.keep(Self::NAME, &mut self.name, scanner.free_text()),
            b"pack_size" => met.keep(Self::PACK_SIZE, &mut self.pack_size, scanner.free_text()),
            b"pack_type" => met.keep(Self::PACK_TYPE, &mut self.pack_type, scanner.free_text()),
            b"scheme" => met.keep(Self::SCHEME, &mut self.scheme, scanner.free_text()),
            b"strength" => met.keep(Self::STRENGTH, &mut self.strength, scanner.free_text()),
            b"after_batch" => met.keep(Self::AFTER_BATCH, &mut self.after_batch, scanner.code()),
            b"after_gtin" => met.keep(Self::AFTER_GTIN, &mut self.after_gtin, scanner.gtin()),
            b"after_serials" => met.keep(Self::AFTER_SERIALS, &mut self.after_serials, read_serials(scanner)),
            b"before_batch" => met.keep(Self::BEFORE_BATCH, &mut self.before_batch, scanner.code()),
            b"before_gtin" => met.keep(Self::BEFORE_GTIN, &mut self.before_gtin, scanner.gtin()),
            b"before_serials" => met.keep(Self::BEFORE_SERIALS, &mut self.before_serials, read_serials(scanner)),
            _ => None,
        }
    }

    /// The message, where these are its fields.
    fn message(self) -> Option<Message> {
        let is_second = self.version.is_some();
        Some(match (self.kind.as_ref()?, self.met.0 & !Self::VERSION) {
            (Kind::Master, Self::MASTER) => Message::Master(Box::new(self.master()?)),
            (Kind::Upload, Self::UPLOAD) if !is_second => Message::Upload(self.upload(None)?),
            (Kind::Upload, Self::SECOND_UPLOAD) if is_second => {
                let national = self.national?;
                Message::Upload(self.upload(national)?)
            }
            (Kind::Status, Self::STATUS) => {
                let pack = PackKey { gtin: self.gtin?, serial: self.serial? };
                Message::Status(Status { at: self.at?, pack, to: self.to?, user: self.user? })
            }
            (Kind::Recall, Self::RECALL) => {
                Message::Recall { at: self.at?, batch: BatchKey { gtin: self.gtin?, batch: self.batch? } }
            }
            (Kind::Repack, Self::REPACK) => Message::Repack(Box::new(self.repack()?)),
            (Kind::Query, Self::QUERY) => Message::Query(PackKey { gtin: self.gtin?, serial: self.serial? }),
            (Kind::Answer, Self::ANSWER) => Message::Answer(Box::new(self.answer(is_second)?)),
            (Kind::Withdrawal, Self::WITHDRAWAL) if is_second => Message::Withdrawal { at: self.at?, gtin: self.gtin? },
            _ => return None,
        })
    }

    fn master(self) -> Option<Master> {
        Some(Master {
            common: self.common?,
            form: self.form?,
            gtin: self.gtin?,
            markets: self.markets?,
            name: self.name?,
            pack_size: self.pack_size?,
            pack_type: self.pack_type?,
            scheme: self.scheme?,
            strength: self.strength?,
        })
    }

    fn upload(self, national: Option<Code>) -> Option<Upload> {
        Some(Upload { batch: self.batch?, expiry: self.expiry?, gtin: self.gtin?, national, serials: self.serials? })
    }

    fn repack(self) -> Option<Repack> {
        Some(Repack {
            after: BatchKey { gtin: self.after_gtin?, batch: self.after_batch? },
            after_serials: self.after_serials?,
            at: self.at?,
            before: BatchKey { gtin: self.before_gtin?, batch: self.before_batch? },
            before_serials: self.before_serials?,
        })
    }

    fn answer(self, is_second: bool) -> Option<Answer> {
        let found = match self.found? {
            Some(seen) => Some(seen.found(is_second)?),
            None => None,
        };
        Some(Answer { asker: self.asker?, found, pack: PackKey { gtin: self.gtin?, serial: self.serial? }, q: self.q? })
    }
}

fn read_kind(scanner: &mut Scanner) -> Option<Kind> {
    Some(match &*scanner.text()? {
        b"master" => Kind::Master,
        b"upload" => Kind::Upload,
        b"status" => Kind::Status,
        b"recall" => Kind::Recall,
        b"repack" => Kind::Repack,
        b"query" => Kind::Query,
        b"answer" => Kind::Answer,
        b"withdraw" => Kind::Withdrawal,
        _ => return None,
    })
}

fn read_serials(scanner: &mut Scanner) -> Option<Box<[Code]>> {
    scanner.list(MOST_SERIALS, Scanner::code)
}

fn read_name(scanner: &mut Scanner) -> Option<Market> {
    read_market(&scanner.text()?).ok()
}

/// The fields of what was found.
#[derive(Default)]
struct Seen {
    met: Met,
    batch: Option<Code>,
    expiry: Option<Expiry>,
    national: Option<Option<Code>>,
    recalled: Option<bool>,
    standing: Option<Standing>,
    withdrawn: Option<bool>,
}

impl Seen {
    const BATCH: u32 = 1;
    const EXPIRY: u32 = 1 << 1;
    const NATIONAL: u32 = 1 << 2;
    const RECALLED: u32 = 1 << 3;
    const STANDING: u32 = 1 << 4;
    const WITHDRAWN: u32 = 1 << 5;

    const FIRST: u32 = Self::BATCH | Self::EXPIRY | Self::RECALLED | Self::STANDING;
    const SECOND: u32 = Self::FIRST | Self::NATIONAL | Self::WITHDRAWN;

    fn read(scanner: &mut Scanner) -> Option<Seen> {
        let mut seen = Seen::default();
        scanner.object(|scanner, key| seen.take(scanner, key))?;
        Some(seen)
    }

    fn take(&mut self, scanner: &mut Scanner, key: &[u8]) -> Option<()> {
        let met = &mut self.met;
        match key {
            b"batch" => met.keep(Self::BATCH, &mut self.batch, scanner.code()),
            b"expiry" => met.keep(Self::EXPIRY, &mut self.expiry, scanner.expiry()),
            b"national" => met.keep(Self::NATIONAL, &mut self.national, scanner.or_null(Scanner::code)),
            b"recalled" => met.keep(Self::RECALLED, &mut self.recalled, scanner.truth()),
            b"standing" => met.keep(Self::STANDING, &mut self.standing, scanner.standing()),
            b"withdrawn" => met.keep(Self::WITHDRAWN, &mut self.withdrawn, scanner.truth()),
            _ => None,
        }
    }

    /// What was found, where these are its fields in a version.
    fn found(self, is_second: bool) -> Option<Found> {
        if self.met.0 != if is_second { Self::SECOND } else { Self::FIRST } {
            return None;
        }
        Some(Found {
            batch: self.batch?,
            expiry: self.expiry?,
            national: self.national.flatten(),
            recalled: self.recalled?,
            standing: self.standing?,
            withdrawn: self.withdrawn.unwrap_or(false),
        })
    }
}
