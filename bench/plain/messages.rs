//! What begins, continues and ends a message, and what each of its items does.

use crate::calendar::{Day, Zone, read_date};
use crate::codes::Code;
use crate::listing::{Listing, Name, Record};
use crate::settings::{Setting, State};
use crate::text::{Form, Kind, Part, is_readable, kind_of, lines, without_comments};
use crate::values::{BadValue, Value};

/// The number of a refusal, and the place in the text.
#[derive(Clone, Copy, Debug, PartialEq, Eq)]
pub struct Fault {
    pub number: u8,
    pub place: usize,
}

#[derive(Clone, Copy, Debug, PartialEq, Eq)]
pub struct Answer {
    pub number: u8,
    pub delivered: usize,
    pub found: u64,
}

const NO_ROOM: u8 = 14;

fn refused<T>(number: u8, place: usize) -> Result<T, Fault> {
    Err(Fault { number, place })
}

#[derive(Clone, Copy)]
enum Stage {
    Outside,
    Message,
    Header,
    Body,
    Skipping,
}

/// An item of a table's header.
enum Head {
    Column(Code),
    Sets(Setting),
}

/// The message that is open, or was last.
struct Message {
    form: Form,
    is_revised: bool,
    /// The station, or the source of a table.
    name: Name,
    zone: Zone,
    opening: State,
    state: State,
    /// The number of its last continuation.
    number: u8,
    heads: Vec<Head>,
    /// The code of a series, its steps so far, and the mark of its next record.
    code: Option<Code>,
    steps: u64,
    series: u8,
}

/// A value on its way to a record.
struct Sent<'a> {
    station: Name,
    source: Name,
    code: Code,
    state: &'a State,
    step: u64,
    series: u8,
    value: &'a [u8],
    place: usize,
}

impl Message {
    fn new(form: Form, is_revised: bool, name: Name, date: Day, zone: Zone) -> Message {
        let opening = State::opening(date, zone.opening_hour());
        Message {
            form,
            is_revised,
            name,
            zone,
            opening,
            state: opening,
            number: 0,
            heads: Vec::new(),
            code: None,
            steps: 0,
            series: 1,
        }
    }

    fn log(&self, sent: Sent, listing: &mut Listing) -> Result<(), Fault> {
        let Some(duration) = sent.code.duration.or(sent.state.variable) else {
            return refused(9, sent.place);
        };
        let value = match Value::read(sent.value, sent.code.element, sent.state.is_si) {
            Ok(value) => value,
            Err(BadValue::Unread) => return refused(10, sent.place),
            Err(BadValue::TooLarge) => return refused(11, sent.place),
        };
        let Some(observed) = sent.state.observed(self.zone, sent.step) else {
            return refused(12, sent.place);
        };
        let record = Record {
            station: sent.station,
            observed,
            created: sent.state.created,
            code: sent.code,
            duration,
            value,
            is_revised: self.is_revised,
            series: sent.series,
            source: sent.source,
        };
        listing
            .put(&record)
            .or_else(|_| refused(NO_ROOM, sent.place))
    }

    /// What a D item sets, where it may stand.
    fn setting(&self, item: Part, today: Day) -> Result<Setting, Fault> {
        let is_series = self.form == Form::E;
        match Setting::read(item.bytes, today, self.zone) {
            Some(Setting::Interval(_)) if !is_series || self.steps > 0 => refused(6, item.place),
            Some(Setting::Time(_) | Setting::Relative(_)) if is_series && self.steps > 0 => {
                refused(6, item.place)
            }
            Some(setting) => Ok(setting),
            None => refused(6, item.place),
        }
    }

    /// An item of an opening or a continuation.
    fn take_item(&mut self, item: Part, today: Day, listing: &mut Listing) -> Result<(), Fault> {
        if item.bytes.first() == Some(&b'D') {
            let setting = self.setting(item, today)?;
            match self.form {
                Form::B => self.heads.push(Head::Sets(setting)),
                Form::A | Form::E => self.state.apply(setting),
            }
            return Ok(());
        }
        match (self.form, self.code) {
            (Form::E, Some(code)) => self.take_step(code, item, listing),
            _ if item.bytes.is_empty() => Ok(()),
            (Form::A, _) => self.take_pair(item, listing),
            (Form::B, _) => {
                self.heads.push(Head::Column(read_code(item)?));
                Ok(())
            }
            (Form::E, None) => {
                self.code = Some(read_code(item)?);
                Ok(())
            }
        }
    }

    /// A code and its value.
    fn take_pair(&self, item: Part, listing: &mut Listing) -> Result<(), Fault> {
        let Some((word, rest)) = item.split_word() else {
            return Ok(());
        };
        let sent = Sent {
            station: self.name,
            source: Name::NONE,
            code: read_code(word)?,
            state: &self.state,
            step: 0,
            series: 0,
            value: rest.without_blanks().bytes,
            place: item.place,
        };
        self.log(sent, listing)
    }

    fn take_step(&mut self, code: Code, item: Part, listing: &mut Listing) -> Result<(), Fault> {
        let step = self.steps;
        self.steps += 1;
        if item.bytes.is_empty() {
            return Ok(());
        }
        if self.state.interval.is_none() {
            return refused(8, item.place);
        }
        let sent = Sent {
            station: self.name,
            source: Name::NONE,
            code,
            state: &self.state,
            step,
            series: self.series,
            value: item.bytes,
            place: item.place,
        };
        self.log(sent, listing)?;
        self.series = 2;
        Ok(())
    }

    /// The items of a body line, each against the next column of the header.
    fn take_body<'a>(
        &self,
        station: Name,
        items: impl Iterator<Item = Part<'a>>,
        today: Day,
        listing: &mut Listing,
    ) -> Result<(), Fault> {
        let mut state = self.opening;
        let mut heads = self.heads.iter();
        let mut column = None;
        for item in items {
            while column.is_none()
                && let Some(head) = heads.next()
            {
                match head {
                    Head::Sets(setting) => state.apply(*setting),
                    Head::Column(code) => column = Some(*code),
                }
            }
            if item.bytes.first() == Some(&b'D') {
                state.apply(self.setting(item, today)?);
                continue;
            }
            let code = column.take();
            if item.bytes.is_empty() {
                continue;
            }
            let Some(code) = code else {
                return refused(8, item.place);
            };
            let sent = Sent {
                station,
                source: self.name,
                code,
                state: &state,
                step: 0,
                series: 0,
                value: item.bytes,
                place: item.place,
            };
            self.log(sent, listing)?;
        }
        Ok(())
    }
}

fn read_code(item: Part) -> Result<Code, Fault> {
    Code::read(item.bytes).ok_or(Fault {
        number: 7,
        place: item.place,
    })
}

struct Reader<'a> {
    today: Day,
    listing: Listing<'a>,
    stage: Stage,
    message: Message,
}

impl Reader<'_> {
    fn take_items(&mut self, rest: Part) -> Result<(), Fault> {
        for item in rest.message_items() {
            self.message
                .take_item(item, self.today, &mut self.listing)?;
        }
        Ok(())
    }

    fn take_opening(&mut self, line: Part, form: Form, is_revised: bool) -> Result<(), Fault> {
        if !is_readable(line.bytes) {
            return refused(2, line.place);
        }
        let blanked = without_comments(line.bytes);
        let bytes = &*blanked;
        let fields = Part { bytes, ..line }.behind_letters(is_revised);
        let Some((word, rest)) = fields.split_word() else {
            return refused(4, line.end());
        };
        let Some(name) = Name::read(word.bytes) else {
            return refused(4, word.place);
        };
        let Some((word, rest)) = rest.split_word() else {
            return refused(5, line.end());
        };
        let Some(date) = read_date(self.today, word.bytes) else {
            return refused(5, word.place);
        };
        let zone = rest
            .split_word()
            .and_then(|(word, behind)| Some((Zone::named(word.bytes)?, behind)));
        let (zone, rest) = zone.unwrap_or((Zone::UTC, rest));
        self.message = Message::new(form, is_revised, name, date, zone);
        self.stage = match form {
            Form::B => Stage::Header,
            Form::A | Form::E => Stage::Message,
        };
        self.take_items(rest)
    }

    fn take_continuation(&mut self, line: Part) -> Result<(), Fault> {
        if !is_readable(line.bytes) {
            return refused(2, line.place);
        }
        let blanked = without_comments(line.bytes);
        let bytes = &*blanked;
        let number = self.message.number + 1;
        let rest = Part { bytes, ..line }.behind_number(
            self.message.form,
            self.message.is_revised,
            number,
        );
        let Some(rest) = rest else {
            return refused(3, line.place);
        };
        self.message.number = number;
        self.take_items(rest)
    }

    fn take_body(&mut self, line: Part) -> Result<(), Fault> {
        if !is_readable(line.bytes) {
            return refused(2, line.place);
        }
        let blanked = without_comments(line.bytes);
        let bytes = &*blanked;
        let Some((word, rest)) = (Part { bytes, ..line }).split_word() else {
            return Ok(());
        };
        let Some(station) = Name::read(word.bytes) else {
            return refused(4, word.place);
        };
        self.message
            .take_body(station, rest.body_items(), self.today, &mut self.listing)
    }

    fn is_in_table(&self) -> bool {
        matches!(self.stage, Stage::Header | Stage::Body)
    }

    fn take_line(&mut self, line: Part, kind: Kind) -> Result<(), Fault> {
        match (kind, self.stage) {
            (Kind::Opening { form, is_revised }, _) => self.take_opening(line, form, is_revised),
            (_, Stage::Skipping) => Ok(()),
            (Kind::Continuation, Stage::Outside) => refused(3, line.place),
            (Kind::Continuation, Stage::Message | Stage::Header) => self.take_continuation(line),
            (Kind::Plain, Stage::Header | Stage::Body) => {
                self.stage = Stage::Body;
                self.take_body(line)
            }
            (Kind::Continuation | Kind::Dotted, Stage::Header | Stage::Body) => {
                refused(13, line.place)
            }
            (Kind::End | Kind::Dotted | Kind::Plain, _) => {
                self.stage = Stage::Outside;
                Ok(())
            }
        }
    }
}

/// Reads `text` under the current date and the daylight law. Listing lines go to `out` while it has
/// room, and what is refused goes behind what `faults` holds.
pub fn decode(text: &[u8], today: Day, out: &mut [u8], faults: &mut Vec<Fault>) -> Answer {
    let held = faults.len();
    let mut reader = Reader {
        today,
        listing: Listing::new(out),
        stage: Stage::Outside,
        message: Message::new(Form::A, false, Name::NONE, today, Zone::UTC),
    };
    let number = if today.is_message_day() {
        take_text(&mut reader, text, faults)
    } else {
        faults.push(Fault {
            number: 1,
            place: 0,
        });
        1
    };
    Answer {
        number,
        delivered: reader.listing.count,
        found: (faults.len() - held) as u64,
    }
}

fn take_text(reader: &mut Reader, text: &[u8], faults: &mut Vec<Fault>) -> u8 {
    for line in lines(text) {
        let kind = kind_of(line.bytes);
        if matches!(kind, Kind::Opening { .. }) && reader.is_in_table() {
            faults.push(Fault {
                number: 13,
                place: line.place,
            });
        }
        if let Err(fault) = reader.take_line(line, kind) {
            faults.push(fault);
            if fault.number == NO_ROOM {
                return NO_ROOM;
            }
            reader.stage = Stage::Skipping;
        }
    }
    if reader.is_in_table() {
        faults.push(Fault {
            number: 13,
            place: text.len(),
        });
    }
    0
}
