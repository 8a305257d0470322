//! Lines of a text, their kinds, comments, words and items.

use std::borrow::Cow;

/// A part of a text and the place of its first byte.
#[derive(Clone, Copy)]
pub struct Part<'a> {
    pub bytes: &'a [u8],
    pub place: usize,
}

impl<'a> Part<'a> {
    pub fn end(self) -> usize {
        self.place + self.bytes.len()
    }

    fn from(self, start: usize) -> Part<'a> {
        Part {
            bytes: &self.bytes[start..],
            place: self.place + start,
        }
    }

    fn until(self, end: usize) -> Part<'a> {
        Part {
            bytes: &self.bytes[..end],
            ..self
        }
    }

    /// Less what is taken off at both ends.
    fn trimmed(self, is_off: impl Fn(u8) -> bool) -> Part<'a> {
        let kept = |b: &u8| !is_off(*b);
        let start = self.bytes.iter().position(kept).unwrap_or(0);
        let end = self.bytes.iter().rposition(kept).map_or(start, |i| i + 1);
        self.until(end).from(start)
    }

    pub fn without_blanks(self) -> Part<'a> {
        self.trimmed(|b| b == b' ')
    }

    /// The first word, and what stands behind it.
    pub fn split_word(self) -> Option<(Part<'a>, Part<'a>)> {
        let start = self.bytes.iter().position(|b| *b != b' ')?;
        let inner = self.from(start);
        let end = inner.bytes.iter().position(|b| *b == b' ');
        let end = end.unwrap_or(inner.bytes.len());
        Some((inner.until(end), inner.from(end)))
    }

    fn split_slashes(self) -> impl Iterator<Item = Part<'a>> {
        let mut place = self.place;
        self.bytes.split(|b| *b == b'/').map(move |bytes| {
            let part = Part { bytes, place };
            place = part.end() + 1;
            part.without_blanks()
        })
    }

    /// The items of an opening or a continuation: slashes at both ends fall together with the line breaks.
    pub fn message_items(self) -> impl Iterator<Item = Part<'a>> {
        self.trimmed(|b| b == b' ' || b == b'/').split_slashes()
    }

    /// The items of a body line: one slash at the end is dropped.
    pub fn body_items(self) -> impl Iterator<Item = Part<'a>> {
        let trimmed = self.without_blanks();
        let rest = match trimmed.bytes {
            [front @ .., b'/'] => trimmed.until(front.len()),
            _ => trimmed,
        };
        let has_items = !rest.without_blanks().bytes.is_empty();
        has_items
            .then(|| rest.split_slashes())
            .into_iter()
            .flatten()
    }

    /// Behind the letters of an opening.
    pub fn behind_letters(self, is_revised: bool) -> Part<'a> {
        self.from(if is_revised { 3 } else { 2 })
    }

    /// Behind the letters and the number of a continuation, if it has the ones asked for.
    pub fn behind_number(self, form: Form, is_revised: bool, number: u8) -> Option<Part<'a>> {
        let rest = match (self.bytes, is_revised) {
            ([b'.', letter, b'R', rest @ ..], true) if *letter == form.letter() => rest,
            ([b'.', letter, rest @ ..], false) if *letter == form.letter() => rest,
            _ => return None,
        };
        let (digits, behind) = match rest {
            [ones, b' ', behind @ ..] => ([b'0', *ones], behind),
            [tens, ones, b' ', behind @ ..] => ([*tens, *ones], behind),
            _ => return None,
        };
        let is_next = digits == [b'0' + number / 10, b'0' + number % 10];
        is_next.then(|| self.from(self.bytes.len() - behind.len()))
    }
}

#[derive(Clone, Copy, PartialEq, Eq)]
pub enum Form {
    A,
    B,
    E,
}

impl Form {
    fn letter(self) -> u8 {
        match self {
            Form::A => b'A',
            Form::B => b'B',
            Form::E => b'E',
        }
    }
}

#[derive(Clone, Copy)]
pub enum Kind {
    Opening { form: Form, is_revised: bool },
    Continuation,
    End,
    Dotted,
    Plain,
}

/// The lines, without line feeds and without the carriage return before one.
pub fn lines(text: &[u8]) -> impl Iterator<Item = Part<'_>> {
    let mut next = 0;
    text.split_inclusive(|b| *b == b'\n').map(move |whole| {
        let place = next;
        next += whole.len();
        let bytes = match whole {
            [front @ .., b'\r', b'\n'] | [front @ .., b'\n'] => front,
            _ => whole,
        };
        Part { bytes, place }
    })
}

pub fn kind_of(line: &[u8]) -> Kind {
    let (letter, rest) = match line {
        [b'.', b'E', b'N', b'D', ..] => return Kind::End,
        [b'.', letter, rest @ ..] => (letter, rest),
        [b'.'] => return Kind::Dotted,
        _ => return Kind::Plain,
    };
    let form = match letter {
        b'A' => Form::A,
        b'B' => Form::B,
        b'E' => Form::E,
        _ => return Kind::Dotted,
    };
    let (is_revised, behind) = match rest {
        [b'R', behind @ ..] => (true, behind),
        _ => (false, rest),
    };
    match behind.first() {
        None | Some(b' ') => Kind::Opening { form, is_revised },
        Some(b'0'..=b'9') => Kind::Continuation,
        Some(_) => Kind::Dotted,
    }
}

pub fn is_readable(line: &[u8]) -> bool {
    line.len() <= 1000 && line.iter().all(|b| (32..=126).contains(b))
}

/// The line with its comments turned to blanks.
pub fn without_comments(line: &[u8]) -> Cow<'_, [u8]> {
    if !line.contains(&b':') {
        return Cow::Borrowed(line);
    }
    let mut is_inside = false;
    let blanked = line.iter().map(|&b| {
        let is_colon = b == b':';
        is_inside ^= is_colon;
        if is_inside || is_colon { b' ' } else { b }
    });
    Cow::Owned(blanked.collect())
}
