//! Days, local readings, moves, zones and the daylight law.

const DAY_SECONDS: i64 = 86_400;

/// The days of the years 0 to 9999.
const ALL_DAYS: i64 = 3_652_425;

#[derive(Clone, Copy, PartialEq, Eq, PartialOrd, Ord)]
pub struct Day {
    pub year: u16,
    pub month: u8,
    pub day: u8,
}

fn is_leap(year: u16) -> bool {
    year.is_multiple_of(4) && (!year.is_multiple_of(100) || year.is_multiple_of(400))
}

fn month_length(year: u16, month: u8) -> u8 {
    match month {
        2 if is_leap(year) => 29,
        2 => 28,
        4 | 6 | 9 | 11 => 30,
        _ => 31,
    }
}

impl Day {
    /// Whether it is a real day of 1900 to 2099.
    pub fn is_message_day(self) -> bool {
        (1900..=2099).contains(&self.year)
            && (1..=12).contains(&self.month)
            && (1..=month_length(self.year, self.month)).contains(&self.day)
    }

    /// The days since the first day of the year 0. Years are counted from March here, so that a leap
    /// day is the last day of its year.
    fn number(self) -> i64 {
        let (year, month) = if self.month > 2 {
            (i64::from(self.year), i64::from(self.month) - 3)
        } else {
            (i64::from(self.year) - 1, i64::from(self.month) + 9)
        };
        let leaps = year.div_euclid(4) - year.div_euclid(100) + year.div_euclid(400);
        365 * year + leaps + (153 * month + 2) / 5 + i64::from(self.day) + 59
    }

    fn from_number(number: i64) -> Option<Day> {
        if !(0..ALL_DAYS).contains(&number) {
            return None;
        }
        let since_march = number - 60;
        let era = since_march.div_euclid(146_097);
        let of_era = since_march.rem_euclid(146_097);
        let year_of_era = (of_era - of_era / 1460 + of_era / 36_524 - of_era / 146_096) / 365;
        let of_year = of_era - (365 * year_of_era + year_of_era / 4 - year_of_era / 100);
        let from_march = (5 * of_year + 2) / 153;
        let day = of_year - (153 * from_march + 2) / 5 + 1;
        let (month, carry) = if from_march < 10 {
            (from_march + 3, 0)
        } else {
            (from_march - 9, 1)
        };
        Some(Day {
            year: (era * 400 + year_of_era + carry) as u16,
            month: month as u8,
            day: day as u8,
        })
    }

    /// The first Sunday from this day on, as a day of its month.
    fn sunday_from(self) -> u8 {
        self.day + ((8 - self.number() % 7) % 7) as u8
    }
}

/// Two decimal digits as a number.
pub fn two_digits(tens: u8, ones: u8) -> Option<u8> {
    (tens.is_ascii_digit() && ones.is_ascii_digit()).then(|| (tens - b'0') * 10 + (ones - b'0'))
}

/// The century, 19 or 20, in which a year of two digits is nearer to the current one.
pub fn nearest_century(today: Day, year: u8) -> u8 {
    let year = u16::from(year);
    if (2000 + year).abs_diff(today.year) < (1900 + year).abs_diff(today.year) {
        20
    } else {
        19
    }
}

fn nearest_day(today: Day, month: u8, day: u8) -> Option<Day> {
    (today.year - 1..=today.year + 1)
        .map(|year| Day { year, month, day })
        .filter(|candidate| candidate.is_message_day())
        .min_by_key(|candidate| candidate.number().abs_diff(today.number()))
}

/// A date of the form mmdd, yymmdd or ccyymmdd.
pub fn read_date(today: Day, text: &[u8]) -> Option<Day> {
    let (year, month_day) = match *text {
        [m, n, d, e] => return nearest_day(today, two_digits(m, n)?, two_digits(d, e)?),
        [y, z, ref rest @ ..] if rest.len() == 4 => {
            let year = two_digits(y, z)?;
            (joined(nearest_century(today, year), year), rest)
        }
        [c, d, y, z, ref rest @ ..] if rest.len() == 4 => {
            (joined(two_digits(c, d)?, two_digits(y, z)?), rest)
        }
        _ => return None,
    };
    let day = Day {
        year,
        month: two_digits(month_day[0], month_day[1])?,
        day: two_digits(month_day[2], month_day[3])?,
    };
    day.is_message_day().then_some(day)
}

pub fn joined(century: u8, year: u8) -> u16 {
    u16::from(century) * 100 + u16::from(year)
}

/// A date and a second of the day, which is 86,400 at the hour 24:00.
#[derive(Clone, Copy)]
pub struct Reading {
    pub day: Day,
    pub second: u32,
}

#[derive(Clone, Copy)]
pub enum Unit {
    Seconds(i64),
    Days,
    Months(i64),
    MonthEnds,
}

#[derive(Clone, Copy)]
pub struct Move {
    pub unit: Unit,
    pub count: i64,
}

impl Move {
    pub fn times(self, steps: u64) -> Option<Move> {
        let count = self.count.checked_mul(i64::try_from(steps).ok()?)?;
        Some(Move { count, ..self })
    }
}

impl Reading {
    /// The reading of a day and a time of the day, if it is a time of 1900 to 2099.
    pub fn new(day: Day, hour: u8, minute: u8, second: u8) -> Option<Reading> {
        let whole = hour < 24 || (hour == 24 && minute == 0 && second == 0);
        (whole && minute < 60 && second < 60 && day.is_message_day()).then(|| Reading {
            day,
            second: u32::from(hour) * 3600 + u32::from(minute) * 60 + u32::from(second),
        })
    }

    pub fn moved(self, by: Move) -> Option<Reading> {
        match by.unit {
            Unit::Seconds(length) => {
                let start = self.day.number() * DAY_SECONDS + i64::from(self.second);
                let reached = start.checked_add(by.count.checked_mul(length)?)?;
                Some(Reading {
                    day: Day::from_number(reached.div_euclid(DAY_SECONDS))?,
                    second: reached.rem_euclid(DAY_SECONDS) as u32,
                })
            }
            Unit::Days => Some(Reading {
                day: Day::from_number(self.day.number().checked_add(by.count)?)?,
                ..self
            }),
            Unit::Months(length) => {
                let (year, month) = self.month_after(by.count.checked_mul(length)?)?;
                let day = self.day.day.min(month_length(year, month));
                Some(Reading {
                    day: Day { year, month, day },
                    ..self
                })
            }
            Unit::MonthEnds => {
                let (year, month) = self.month_after(by.count)?;
                let day = month_length(year, month);
                Some(Reading {
                    day: Day { year, month, day },
                    ..self
                })
            }
        }
    }

    fn month_after(self, count: i64) -> Option<(u16, u8)> {
        let start = i64::from(self.day.year) * 12 + i64::from(self.day.month) - 1;
        let reached = start.checked_add(count)?;
        (0..120_000)
            .contains(&reached)
            .then(|| ((reached / 12) as u16, (reached % 12) as u8 + 1))
    }

    /// The time in UTC of a local reading that many hours behind, if it is of 1900 to 2099.
    pub fn in_utc(self, hours_behind: u8) -> Option<Reading> {
        let utc = self.moved(Move {
            unit: Unit::Seconds(3600),
            count: i64::from(hours_behind),
        })?;
        utc.day.is_message_day().then_some(utc)
    }

    /// From 02:00 on the second Sunday of March to 02:00 on the first Sunday of November.
    fn is_daylight_by_law(self) -> bool {
        let year = self.day.year;
        let sunday = |month, day| Day { year, month, day }.sunday_from();
        let here = (self.day.month, self.day.day, self.second);
        (3, sunday(3, 8), 7_200) <= here && here < (11, sunday(11, 1), 7_200)
    }
}

#[derive(Clone, Copy)]
enum Daylight {
    Never,
    Always,
    ByLaw,
}

#[derive(Clone, Copy)]
pub struct Zone {
    standard_hours: u8,
    daylight: Daylight,
}

impl Zone {
    pub const UTC: Zone = Zone {
        standard_hours: 0,
        daylight: Daylight::Never,
    };

    pub fn named(word: &[u8]) -> Option<Zone> {
        let (letter, daylight) = match *word {
            [b'Z'] => return Some(Zone::UTC),
            [letter] => (letter, Daylight::ByLaw),
            [letter, b'S'] => (letter, Daylight::Never),
            [letter, b'D'] => (letter, Daylight::Always),
            _ => return None,
        };
        let standard_hours = match letter {
            b'A' => 4,
            b'E' => 5,
            b'C' => 6,
            b'M' => 7,
            b'P' => 8,
            b'L' => 9,
            _ => return None,
        };
        Some(Zone {
            standard_hours,
            daylight,
        })
    }

    /// The hour that holds where a message tells none.
    pub fn opening_hour(self) -> u8 {
        if self.standard_hours == 0 { 12 } else { 24 }
    }

    pub fn hours_behind(self, at: Reading) -> u8 {
        let is_saving = match self.daylight {
            Daylight::Never => false,
            Daylight::Always => true,
            Daylight::ByLaw => at.is_daylight_by_law(),
        };
        self.standard_hours - u8::from(is_saving)
    }
}
