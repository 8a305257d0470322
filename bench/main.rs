//! Holds the proved decoder to a plain one on the same texts, and then measures both side by side.
//! Its one argument is the path of the program `listing`.

mod proved;
mod sample;

use plain::{Answer, Day, Fault};
use sample::Dice;
use std::io::{self, Write};
use std::process::{Command, Stdio};
use std::time::{Duration, Instant};

const TODAY: Day = Day {
    year: 2024,
    month: 3,
    day: 20,
};
const LINE_LENGTH: usize = 80;
const BULLETIN_LENGTH: usize = 65_000;

/// Room for more records than so many bytes of text can give.
fn room_for(text: &[u8]) -> Vec<u8> {
    vec![0; (text.len() / 2 + 1) * LINE_LENGTH]
}

/// Decodes a text by both, and stops where they differ in the answer or in any byte of the listing.
fn compare(text: &[u8], room: usize) -> (Answer, Vec<Fault>) {
    let mut by_proved = vec![b'?'; room];
    let mut by_plain = by_proved.clone();
    let mut faults = Vec::new();
    let answer = proved::decode(text, TODAY, &mut by_proved);
    let plain_answer = plain::decode(text, TODAY, &mut by_plain, &mut faults);
    if answer != plain_answer || by_proved != by_plain {
        eprintln!("the decoders differ ({answer:?}, {plain_answer:?}) on:");
        eprintln!("{}", String::from_utf8_lossy(text));
        std::process::exit(1);
    }
    (answer, faults)
}

/// Compares both on the sample texts in short pieces, damaged and with little room.
fn compare_many(dice: &mut Dice) {
    let mut records = 0;
    let mut by_number = [0; 17];
    let texts = 20_000;
    for i in 0..texts {
        let length = 200 + dice.below(2_000);
        let mut text = sample::bulletin(dice, length);
        if i % 4 != 0 {
            text = sample::scratched(dice, &text);
        }
        let room = if i % 10 == 0 {
            dice.below(20) * LINE_LENGTH + dice.below(LINE_LENGTH)
        } else {
            text.len() / 2 * LINE_LENGTH
        };
        let (answer, faults) = compare(&text, room);
        records += answer.delivered;
        for fault in faults {
            by_number[usize::from(fault.number)] += 1;
        }
    }
    println!("same answers and same listing bytes on {texts} short texts, with {records} records");
    let counts: Vec<String> = (2..=14)
        .map(|number| format!("{number}: {}", by_number[number]))
        .collect();
    println!("faults in them, by number: {}", counts.join(", "));
}

fn median(times: &mut [Duration]) -> Duration {
    times.sort();
    times[times.len() / 2]
}

struct Timing {
    best: Duration,
    median: Duration,
}

/// Times two ways in turn, so that both see the same state of the machine.
fn time_both(rounds: usize, mut first: impl FnMut(), mut second: impl FnMut()) -> (Timing, Timing) {
    let mut times = (Vec::new(), Vec::new());
    for _ in 0..rounds {
        let start = Instant::now();
        first();
        times.0.push(start.elapsed());
        let start = Instant::now();
        second();
        times.1.push(start.elapsed());
    }
    let timing = |mut times: Vec<Duration>| Timing {
        median: median(&mut times),
        best: times[0],
    };
    (timing(times.0), timing(times.1))
}

fn per_byte(time: Duration, bytes: usize) -> f64 {
    time.as_nanos() as f64 / bytes as f64
}

fn row(name: &str, text: &[u8], rounds: usize) {
    let mut out = room_for(text);
    let (answer, faults) = compare(text, out.len());
    assert_eq!(answer.number, 0, "the room suffices");
    let mut plain_out = out.clone();
    let mut list = Vec::with_capacity(faults.len());
    let (proved, plain) = time_both(
        rounds,
        || {
            std::hint::black_box(proved::decode(text, TODAY, &mut out));
        },
        || {
            list.clear();
            std::hint::black_box(plain::decode(text, TODAY, &mut plain_out, &mut list));
        },
    );
    let bytes = text.len();
    let rate = |time: Duration| 1000.0 / per_byte(time, bytes);
    println!(
        "| {name} | {bytes} | {} | {} | {:.1} | {:.1} | {:.2} | {:.1} | {:.1} | {:.2} | {:.2} |",
        answer.delivered,
        answer.found,
        per_byte(proved.median, bytes),
        per_byte(proved.best, bytes),
        rate(proved.median),
        per_byte(plain.median, bytes),
        per_byte(plain.best, bytes),
        rate(plain.median),
        proved.median.as_secs_f64() / plain.median.as_secs_f64(),
    );
}

fn head() {
    println!();
    println!(
        "| text | bytes | records | faults | proved ns/byte | best | MB/s | plain ns/byte | best | MB/s | proved / plain |"
    );
    println!("|---|---|---|---|---|---|---|---|---|---|---|");
}

/// Runs the program on an input, and gives what it wrote.
fn run_listing(program: &str, input: &[u8]) -> io::Result<Vec<u8>> {
    let mut child = Command::new(program)
        .stdin(Stdio::piped())
        .stdout(Stdio::piped())
        .spawn()?;
    let mut stdin = child.stdin.take().expect("its input is a pipe");
    stdin.write_all(input)?;
    drop(stdin);
    Ok(child.wait_with_output()?.stdout)
}

fn input_of(text: &[u8]) -> Vec<u8> {
    [b"20240320\n", text].concat()
}

/// What `listing` should write for a text.
fn expected(text: &[u8]) -> Vec<u8> {
    let mut out = vec![0; 800 * LINE_LENGTH];
    let mut faults = Vec::new();
    let answer = plain::decode(text, TODAY, &mut out, &mut faults);
    let mut page = format!("{}\n", answer.delivered).into_bytes();
    page.extend_from_slice(&out[..answer.delivered * LINE_LENGTH]);
    page.extend_from_slice(format!("{}\n", answer.found).as_bytes());
    for fault in faults {
        page.extend_from_slice(format!("{} {}\n", fault.number, fault.place).as_bytes());
    }
    page
}

/// Runs the program on a text, and stops where it writes anything else than the plain decoder gives.
fn compare_page(program: &str, text: &[u8]) -> io::Result<Vec<u8>> {
    let page = run_listing(program, &input_of(text))?;
    if page != expected(text) {
        eprintln!("listing and the plain decoder differ on:");
        eprintln!("{}", String::from_utf8_lossy(text));
        std::process::exit(1);
    }
    Ok(page)
}

/// The pages show the number and the place of every fault, which the exported function only counts.
fn compare_pages(program: &str, dice: &mut Dice) -> io::Result<()> {
    let texts = 1_000;
    for _ in 0..texts {
        let length = 200 + dice.below(4_000);
        let text = sample::bulletin(dice, length);
        compare_page(program, &sample::scratched(dice, &text))?;
    }
    println!("same pages from `listing` on {texts} short texts, with the place of each fault");
    Ok(())
}

fn time_listing(program: &str, name: &str, text: &[u8]) -> io::Result<()> {
    let input = input_of(text);
    let page = compare_page(program, text)?;
    let (mut times, mut plain_times) = (Vec::new(), Vec::new());
    for _ in 0..101 {
        let start = Instant::now();
        run_listing(program, &input)?;
        times.push(start.elapsed());
        let start = Instant::now();
        std::hint::black_box(expected(text));
        plain_times.push(start.elapsed());
    }
    let middle = median(&mut times).as_secs_f64() * 1e3;
    let best = times[0].as_secs_f64() * 1e3;
    let speed = input.len() as f64 / best / 1e3;
    median(&mut plain_times);
    let plain = plain_times[0].as_secs_f64() * 1e3;
    let first = page.split(|b| *b == b'\n').next().unwrap_or_default();
    let records = String::from_utf8_lossy(first);
    println!(
        "| {name} | {} | {records} | {middle:.2} | {best:.2} | {speed:.1} | {plain:.2} |",
        input.len()
    );
    Ok(())
}

fn main() -> io::Result<()> {
    let program = std::env::args()
        .nth(1)
        .expect("the path of the program listing");
    let dice = &mut Dice::new(2024);
    compare_many(dice);
    compare_pages(&program, dice)?;

    let bulletin = sample::bulletin(dice, BULLETIN_LENGTH);
    head();
    for copies in [1, 2, 4, 8, 10] {
        row(
            &format!("bulletin × {copies}"),
            &bulletin.repeat(copies),
            101,
        );
    }

    head();
    for kilobytes in [8, 16, 32, 64] {
        let text = sample::long_header(kilobytes * 1000);
        row(&format!("long header, {kilobytes} kB"), &text, 5);
    }

    let sparse = sample::bulletin_with(dice, BULLETIN_LENGTH, 24);
    println!();
    println!(
        "| `listing`, the whole program | bytes of input | records | ms | best | MB/s | plain page, ms |"
    );
    println!("|---|---|---|---|---|---|---|");
    time_listing(&program, "no text", b"")?;
    time_listing(&program, "bulletin with much ordinary text", &sparse)?;
    time_listing(&program, "bulletin, read up to the 801st record", &bulletin)
}
