//! Records and their listing lines in lent bytes.

use crate::calendar::Reading;
use crate::codes::Code;
use crate::values::Value;

pub const LINE_LENGTH: usize = 80;

/// A station or a source, padded with blanks.
#[derive(Clone, Copy)]
pub struct Name([u8; 8]);

impl Name {
    pub const NONE: Name = Name([b' '; 8]);

    pub fn read(word: &[u8]) -> Option<Name> {
        let is_name = (3..=8).contains(&word.len())
            && word
                .iter()
                .all(|b| b.is_ascii_uppercase() || b.is_ascii_digit());
        is_name.then(|| {
            let mut signs = [b' '; 8];
            signs[..word.len()].copy_from_slice(word);
            Name(signs)
        })
    }
}

pub struct Record {
    pub station: Name,
    pub observed: Reading,
    pub created: Option<Reading>,
    pub code: Code,
    pub duration: u16,
    pub value: Value,
    pub is_revised: bool,
    pub series: u8,
    pub source: Name,
}

/// Writes a number into all of `columns`, with leading zeros.
fn put_digits(columns: &mut [u8], number: u32) {
    let mut rest = number;
    for column in columns.iter_mut().rev() {
        *column = b'0' + (rest % 10) as u8;
        rest /= 10;
    }
}

/// ccyymmddhhnn
fn put_minute(columns: &mut [u8], at: Reading) {
    put_digits(&mut columns[0..4], at.day.year.into());
    put_digits(&mut columns[4..6], at.day.month.into());
    put_digits(&mut columns[6..8], at.day.day.into());
    put_digits(&mut columns[8..10], at.second / 3600);
    put_digits(&mut columns[10..12], at.second / 60 % 60);
}

/// Writes an amount at the right end of 14 columns.
fn put_amount(columns: &mut [u8; 14], amount: Option<i64>) {
    let Some(amount) = amount else {
        columns[4..].copy_from_slice(b"-9999.0000");
        return;
    };
    let size = amount.unsigned_abs();
    put_digits(&mut columns[10..], (size % 10_000) as u32);
    columns[9] = b'.';
    let mut at = 9;
    let mut whole = size / 10_000;
    loop {
        at -= 1;
        columns[at] = b'0' + (whole % 10) as u8;
        whole /= 10;
        if whole == 0 {
            break;
        }
    }
    if amount < 0 {
        columns[at - 1] = b'-';
    }
}

impl Record {
    fn line(&self) -> [u8; LINE_LENGTH] {
        let mut line = [b' '; LINE_LENGTH];
        line[0..8].copy_from_slice(&self.station.0);
        put_minute(&mut line[9..21], self.observed);
        put_digits(&mut line[21..23], self.observed.second % 60);
        if let Some(created) = self.created {
            put_minute(&mut line[24..36], created);
        }
        line[37..44].copy_from_slice(&self.code.signs);
        put_digits(&mut line[45..49], self.duration.into());
        let mut amount = [b' '; 14];
        put_amount(&mut amount, self.value.amount);
        line[50..64].copy_from_slice(&amount);
        line[65] = self.value.qualifier;
        line[67] = b'0' + u8::from(self.is_revised);
        line[69] = b'0' + self.series;
        line[71..79].copy_from_slice(&self.source.0);
        line[79] = b'\n';
        line
    }
}

pub struct Full;

/// A listing in lent bytes, as many whole lines as fit.
pub struct Listing<'a> {
    lines: &'a mut [[u8; LINE_LENGTH]],
    pub count: usize,
}

impl<'a> Listing<'a> {
    pub fn new(bytes: &'a mut [u8]) -> Listing<'a> {
        let (lines, _) = bytes.as_chunks_mut();
        Listing { lines, count: 0 }
    }

    pub fn put(&mut self, record: &Record) -> Result<(), Full> {
        let line = self.lines.get_mut(self.count).ok_or(Full)?;
        *line = record.line();
        self.count += 1;
        Ok(())
    }
}
