//! D items, the state of a message that they change, and the observation time that follows from it.

use crate::calendar::{
    Day, Move, Reading, Unit, Zone, joined, nearest_century, read_date, two_digits,
};

const CENTURY: usize = 0;
const YEAR: usize = 1;
const MONTH: usize = 2;
const DAY: usize = 3;
const HOUR: usize = 4;
const MINUTE: usize = 5;
const SECOND: usize = 6;

#[derive(Clone, Copy)]
pub enum Setting {
    Time([Option<u8>; 7]),
    Relative(Move),
    Interval(Move),
    Created(Reading),
    Units { is_si: bool },
    Variable(Option<u16>),
}

fn first_group(kind: u8) -> Option<usize> {
    Some(match kind {
        b'T' => CENTURY,
        b'Y' => YEAR,
        b'M' => MONTH,
        b'D' => DAY,
        b'H' => HOUR,
        b'N' => MINUTE,
        b'S' => SECOND,
        _ => return None,
    })
}

fn is_in_bounds(group: usize, n: u8) -> bool {
    match group {
        MONTH => (1..=12).contains(&n),
        DAY => (1..=31).contains(&n),
        HOUR => n <= 24,
        MINUTE | SECOND => n <= 59,
        _ => true,
    }
}

fn read_groups(digits: &[u8], first: usize, today: Day) -> Option<[Option<u8>; 7]> {
    let (pairs, []) = digits.as_chunks::<2>() else {
        return None;
    };
    if pairs.is_empty() || first + pairs.len() > 7 {
        return None;
    }
    let mut groups = [None; 7];
    for (group, &[tens, ones]) in (first..).zip(pairs) {
        let n = two_digits(tens, ones)?;
        if !is_in_bounds(group, n) {
            return None;
        }
        groups[group] = Some(n);
    }
    let end = first + pairs.len();
    if end > HOUR {
        groups[end..].fill(Some(0));
    }
    if first == YEAR {
        groups[CENTURY] = groups[YEAR].map(|year| nearest_century(today, year));
    }
    Some(groups)
}

fn read_move(text: &[u8]) -> Option<Move> {
    let (&letter, count) = text.split_first()?;
    let unit = match letter {
        b'S' => Unit::Seconds(1),
        b'N' => Unit::Seconds(60),
        b'H' => Unit::Seconds(3600),
        b'D' => Unit::Days,
        b'M' => Unit::Months(1),
        b'Y' => Unit::Months(12),
        b'E' => Unit::MonthEnds,
        _ => return None,
    };
    let (sign, digits) = match count {
        [b'-', rest @ ..] => (-1, rest),
        [b'+', rest @ ..] => (1, rest),
        _ => (1, count),
    };
    let size = match *digits {
        [ones] => two_digits(b'0', ones)?,
        [tens, ones] => two_digits(tens, ones)?,
        _ => return None,
    };
    Some(Move {
        unit,
        count: sign * i64::from(size),
    })
}

fn read_creation(digits: &[u8], today: Day, zone: Zone) -> Option<Reading> {
    let date_length = match digits.len() {
        6 | 8 => 4,
        10 => 6,
        12 => 8,
        _ => return None,
    };
    let (date, clock) = digits.split_at(date_length);
    let (hour, minute) = match *clock {
        [h, i] => (two_digits(h, i)?, 0),
        [h, i, m, n] => (two_digits(h, i)?, two_digits(m, n)?),
        _ => return None,
    };
    let local = Reading::new(read_date(today, date)?, hour, minute, 0)?;
    local.in_utc(zone.hours_behind(local))
}

fn read_variable(text: &[u8]) -> Option<Option<u16>> {
    let [unit, tens, ones] = *text else {
        return (text == b"Z").then_some(None);
    };
    let base = match unit {
        b'N' => 0,
        b'H' => 1000,
        b'D' => 2000,
        b'M' => 3000,
        b'Y' => 4000,
        b'E' => 6000,
        _ => return None,
    };
    Some(Some(base + u16::from(two_digits(tens, ones)?)))
}

impl Setting {
    /// What an item that begins with D sets.
    pub fn read(item: &[u8], today: Day, zone: Zone) -> Option<Setting> {
        let [_, kind, rest @ ..] = item else {
            return None;
        };
        if let Some(first) = first_group(*kind) {
            return read_groups(rest, first, today).map(Setting::Time);
        }
        match kind {
            b'R' => read_move(rest).map(Setting::Relative),
            b'I' => read_move(rest).map(Setting::Interval),
            b'C' => read_creation(rest, today, zone).map(Setting::Created),
            b'U' if rest == b"E" => Some(Setting::Units { is_si: false }),
            b'U' if rest == b"S" => Some(Setting::Units { is_si: true }),
            b'V' => read_variable(rest).map(Setting::Variable),
            _ => None,
        }
    }
}

#[derive(Clone, Copy)]
pub struct State {
    groups: [u8; 7],
    pub created: Option<Reading>,
    pub is_si: bool,
    pub variable: Option<u16>,
    pub relative: Option<Move>,
    pub interval: Option<Move>,
}

impl State {
    pub fn opening(date: Day, hour: u8) -> State {
        let century = (date.year / 100) as u8;
        let year = (date.year % 100) as u8;
        State {
            groups: [century, year, date.month, date.day, hour, 0, 0],
            created: None,
            is_si: false,
            variable: None,
            relative: None,
            interval: None,
        }
    }

    pub fn apply(&mut self, setting: Setting) {
        match setting {
            Setting::Time(groups) => {
                for (held, given) in self.groups.iter_mut().zip(groups) {
                    *held = given.unwrap_or(*held);
                }
            }
            Setting::Relative(by) => self.relative = Some(by),
            Setting::Interval(by) => self.interval = Some(by),
            Setting::Created(at) => self.created = Some(at),
            Setting::Units { is_si } => self.is_si = is_si,
            Setting::Variable(number) => self.variable = number,
        }
    }

    /// The observation time in UTC of a step, which is 0 outside series.
    pub fn observed(&self, zone: Zone, step: u64) -> Option<Reading> {
        let [century, year, month, day, hour, minute, second] = self.groups;
        let date = Day {
            year: joined(century, year),
            month,
            day,
        };
        let mut reading = Reading::new(date, hour, minute, second)?;
        let hours_behind = zone.hours_behind(reading);
        if let Some(by) = self.relative {
            reading = reading.moved(by)?;
        }
        if step > 0
            && let Some(by) = self.interval
        {
            reading = reading.moved(by.times(step)?)?;
        }
        reading.in_utc(hours_behind)
    }
}
