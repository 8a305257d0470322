//! Texts to decode: a river office's bulletins, made from a number so that every run has the same ones.

/// A sequence of numbers that is the same in every run.
pub struct Dice(u64);

impl Dice {
    pub fn new(start: u64) -> Dice {
        Dice(start)
    }

    fn next(&mut self) -> u64 {
        self.0 = self
            .0
            .wrapping_mul(6_364_136_223_846_793_005)
            .wrapping_add(1_442_695_040_888_963_407);
        self.0 >> 33
    }

    pub fn below(&mut self, limit: usize) -> usize {
        (self.next() % limit as u64) as usize
    }

    fn pick<'a>(&mut self, from: &[&'a str]) -> &'a str {
        from[self.below(from.len())]
    }

    fn one_in(&mut self, n: usize) -> bool {
        self.below(n) == 0
    }
}

const STATIONS: [&str; 16] = [
    "KLMO3", "HGRT1", "PINE5", "DRYC2", "ALDR7", "WEIR4", "WEIR5", "WEIR6", "MILL9", "FORD2",
    "OXBOW3", "LOCK12", "SPRG1", "DAM04", "BRDG8", "TARN6",
];
const SOURCES: [&str; 4] = ["BAKED", "NORTH", "RFC07", "WGRFC"];
const ZONES: [&str; 8] = ["Z", "M", "C", "ES", "PD", "P", "A", "MS"];
const CODES: [&str; 14] = [
    "HG", "QR", "PP", "TA", "SD", "SW", "PPQ", "TAIRZX", "HP", "QI", "PC", "HGIRG", "XR", "UD",
];
const FORECAST_CODES: [&str; 4] = ["HGIF", "QRIF", "PPQFZ", "TAIFZ"];
const REMARKS: [&str; 4] = [":by phone:", ":gauge in ice:", ":est/obs:", ":checked"];
const PROSE: [&str; 5] = [
    "RIVER AND WEATHER ROUNDUP, WEDNESDAY MORNING",
    "THE RIVER AT THE WEIR IS FALLING SLOWLY AND SHOULD BE BELOW BANKFULL BY NIGHT.",
    "",
    "NEXT REPORT AT NOON OR AS CONDITIONS WARRANT.",
    "$$",
];

fn date(dice: &mut Dice) -> String {
    let month_day = format!("03{:02}", 1 + dice.below(28));
    match dice.below(6) {
        0 => format!("24{month_day}"),
        1 => format!("2024{month_day}"),
        _ => month_day,
    }
}

fn value(dice: &mut Dice) -> String {
    let whole = dice.below(40);
    match dice.below(12) {
        0 => "M".to_string(),
        1 => format!("-{whole}.{}", dice.below(10)),
        2 => format!(".{:02}", dice.below(100)),
        3 => format!("{whole}.{:02}E", dice.below(100)),
        4 => format!("{}", whole * 25),
        _ => format!("{whole}.{:02}", dice.below(100)),
    }
}

/// A D item that any form of message allows.
fn setting(dice: &mut Dice) -> String {
    match dice.below(8) {
        0 => format!("DC03{:02}0530", 1 + dice.below(28)),
        1 => "DUS".to_string(),
        2 => "DRH-1".to_string(),
        3 => format!("DD{:02}{:02}", 1 + dice.below(28), dice.below(24)),
        _ => format!("DH{:02}{:02}", dice.below(24), dice.below(60)),
    }
}

fn letters(dice: &mut Dice, form: &str) -> String {
    format!(".{form}{}", if dice.one_in(12) { "R" } else { "" })
}

fn single(dice: &mut Dice) -> String {
    let opening = letters(dice, "A");
    let mut text = format!(
        "{opening} {} {} {} DH{:02}",
        dice.pick(&STATIONS),
        date(dice),
        dice.pick(&ZONES),
        dice.below(25),
    );
    for _ in 0..1 + dice.below(5) {
        if dice.one_in(5) {
            text += &format!("/{}", setting(dice));
        }
        text += &format!("/{} {}", dice.pick(&CODES), value(dice));
    }
    if dice.one_in(4) {
        text += &format!(" {}", dice.pick(&REMARKS));
    }
    if dice.one_in(4) {
        text += &format!("\n{opening}1 {} {}", dice.pick(&CODES), value(dice));
    }
    text + "\n"
}

fn table(dice: &mut Dice) -> String {
    let opening = letters(dice, "B");
    let columns = 1 + dice.below(4);
    let mut text = format!(
        "{opening} {} {} {} {}",
        dice.pick(&SOURCES),
        date(dice),
        dice.pick(&ZONES),
        setting(dice),
    );
    for column in 0..columns {
        if column > 0 && dice.one_in(4) {
            text += &format!("/{}", setting(dice));
        }
        text += &format!("/{}", dice.pick(&CODES));
    }
    text += "\n:        this morning's readings\n";
    for _ in 0..4 + dice.below(9) {
        let values: Vec<String> = (0..columns).map(|_| value(dice)).collect();
        let own = if dice.one_in(8) { "DH0730/" } else { "" };
        let line = format!("{:<8} {own}{}", dice.pick(&STATIONS), values.join(" / "));
        text += &line;
        if dice.one_in(6) {
            text += &format!(" {}", dice.pick(&REMARKS));
        }
        text += "\n";
    }
    text + ".END\n"
}

fn series(dice: &mut Dice) -> String {
    let opening = letters(dice, "E");
    let mut text = format!(
        "{opening} {} {} {} DH06/DC03200530/{}/DIH+{}",
        dice.pick(&STATIONS),
        date(dice),
        dice.pick(&ZONES),
        dice.pick(&FORECAST_CODES),
        [1, 3, 6, 12][dice.below(4)],
    );
    for _ in 0..3 {
        text += &format!("/{}", value(dice));
    }
    for line in 1..=1 + dice.below(3) {
        let values: Vec<String> = (0..8).map(|_| value(dice)).collect();
        text += &format!("\n{opening}{line} {}", values.join("/"));
    }
    text + "\n"
}

/// One slip in a message, as it happens where messages are typed or lines are lost.
fn damaged(dice: &mut Dice, message: String) -> String {
    match dice.below(10) {
        0 => message.replacen('.', ",", 2),
        1 => message.replace(".END\n", ""),
        2 => message.replacen(" 03", " 13", 1),
        3 => message.replacen("/H", "/h", 1),
        4 => message.replacen('\n', "\t\n", 1),
        5 => message.replacen("1 ", "2 ", 1),
        6 => message.replacen('/', "/DUS/HG 99999999/", 1),
        7 => message.replacen('/', "/PPV 1/", 1),
        8 => message.replacen('/', "/DM0230/", 1),
        _ => {
            let cut = dice.below(message.len());
            message[..cut].to_string() + "\n"
        }
    }
}

fn message(dice: &mut Dice) -> String {
    let whole = match dice.below(10) {
        0..=4 => single(dice),
        5..=7 => table(dice),
        _ => series(dice),
    };
    let whole = if dice.one_in(20) {
        damaged(dice, whole)
    } else {
        whole
    };
    if dice.one_in(10) {
        whole.replace('\n', "\r\n")
    } else {
        whole
    }
}

/// Messages of all forms with a little ordinary text between them, one in twenty damaged.
pub fn bulletin(dice: &mut Dice, length: usize) -> Vec<u8> {
    bulletin_with(dice, length, 0)
}

/// The same with so many lines of ordinary text behind each message.
pub fn bulletin_with(dice: &mut Dice, length: usize, prose: usize) -> Vec<u8> {
    let mut text = String::new();
    loop {
        let mut part = message(dice);
        for _ in 0..prose {
            part += dice.pick(&PROSE);
            part += "\n";
        }
        if dice.one_in(8) {
            part += dice.pick(&PROSE);
            part += "\n";
        }
        if text.len() + part.len() > length {
            return text.into_bytes();
        }
        text += &part;
    }
}

/// A table half of which is a header of D items before one code, the other half short body lines.
pub fn long_header(length: usize) -> Vec<u8> {
    let mut text = b".B BAKED 0310 Z DH06".to_vec();
    let mut number = 1;
    while text.len() < length / 2 && number < 100 {
        text.extend_from_slice(format!("\n.B{number} ").as_bytes());
        number += 1;
        for _ in 0..180 {
            text.extend_from_slice(b"DH06/");
        }
    }
    text.extend_from_slice(b"HG\n");
    while text.len() + 13 < length {
        text.extend_from_slice(b"KLMO3 2\n");
    }
    text.extend_from_slice(b".END\n");
    text
}

/// The text with a few bytes changed, left out or doubled.
pub fn scratched(dice: &mut Dice, text: &[u8]) -> Vec<u8> {
    const SIGNS: &[u8] = b"./: \nABEDRHGPTMZ019+-\r\tx";
    let mut copy = text.to_vec();
    for _ in 0..1 + dice.below(6) {
        if copy.is_empty() {
            break;
        }
        let at = dice.below(copy.len());
        match dice.below(4) {
            0 => {
                copy.remove(at);
            }
            1 => copy.insert(at, copy[at]),
            2 => copy.insert(at, SIGNS[dice.below(SIGNS.len())]),
            _ => copy[at] = SIGNS[dice.below(SIGNS.len())],
        }
    }
    copy
}
