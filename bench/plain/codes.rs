//! Parameter codes, elements and durations.

/// An SI value times `up` / `down`, and `plus` added, is the English one.
#[derive(Clone, Copy)]
pub struct Element {
    pub up: i64,
    pub down: i64,
    pub plus: i64,
    pub own_duration: u8,
    pub has_trace: bool,
}

#[derive(Clone, Copy)]
pub struct Code {
    pub signs: [u8; 7],
    pub element: Element,
    /// None where the message tells it.
    pub duration: Option<u16>,
}

fn element(letters: [u8; 2]) -> Option<Element> {
    let (up, down, plus) = match &letters {
        b"TA" | b"TD" | b"TM" | b"TP" | b"TS" => (9, 5, 32),
        b"PP" | b"PC" | b"SW" => (5, 127, 0),
        b"SF" | b"SD" | b"GD" | b"IT" => (50, 127, 0),
        b"HG" | b"HK" | b"HL" | b"HP" | b"HT" | b"HF" | b"HZ" => (1250, 381, 0),
        b"QR" | b"QI" | b"QT" | b"QD" | b"QS" => (1_953_125, 55_306_341, 0),
        b"UL" | b"UC" | b"XV" => (15_625, 25_146, 0),
        b"XR" | b"UD" | b"SA" | b"RP" | b"RI" => (1, 1, 0),
        _ => return None,
    };
    let own_duration = match &letters {
        b"PP" | b"SF" | b"UL" | b"RP" | b"RI" => b'D',
        _ => b'I',
    };
    let has_trace = matches!(&letters, b"PP" | b"PC" | b"SW" | b"SD" | b"SF");
    Some(Element {
        up,
        down,
        plus,
        own_duration,
        has_trace,
    })
}

fn duration(letter: u8) -> Option<u16> {
    Some(match letter {
        b'I' => 0,
        b'U' => 1,
        b'C' => 15,
        b'J' => 30,
        b'H' => 1001,
        b'B' => 1002,
        b'T' => 1003,
        b'F' => 1004,
        b'Q' => 1006,
        b'A' => 1008,
        b'K' => 1012,
        b'L' => 1018,
        b'D' => 2001,
        b'W' => 2007,
        b'M' => 3001,
        b'Y' => 4001,
        b'S' => 5001,
        b'R' => 5002,
        b'P' => 5004,
        b'X' => 5005,
        _ => return None,
    })
}

impl Code {
    pub fn read(text: &[u8]) -> Option<Code> {
        if !(2..=7).contains(&text.len()) {
            return None;
        }
        let mut signs = [b'Z'; 7];
        signs[..text.len()].copy_from_slice(text);
        let element = element([signs[0], signs[1]])?;
        if signs[2] == b'Z' {
            signs[2] = element.own_duration;
        }
        let duration = match signs[2] {
            b'V' => None,
            letter => Some(duration(letter)?),
        };
        if !signs[3].is_ascii_uppercase() {
            return None;
        }
        if signs[3] == b'Z' {
            signs[3] = b'R';
        }
        signs[4..]
            .iter()
            .all(|sign| sign.is_ascii_uppercase() || sign.is_ascii_digit())
            .then_some(Code {
                signs,
                element,
                duration,
            })
    }
}
