//! The proved library's `isdb_push` and `isdb_push_all` beside the Rust's `Decoder::push`, in one process, on the same packets. Writes a table; ends with 1
//! where the two do not answer the same. Usage: speed [ROUNDS [WORDS]]; with WORDS only the rows that have them in their name.
mod both;
mod cases;
mod crc;
mod feed;
mod library;
mod make;
mod measure;
mod places;
mod reference;

use measure::{Copies, Times};
use std::process::ExitCode;

const HEAD: &str = "\
| what | bytes | Rust, ns | push, ns | push_all, ns | Rust, MB/s | push_all, MB/s | Rust / push | Rust / push_all |
|---|--:|--:|--:|--:|--:|--:|--:|--:|";

const COPIES: &str = "\
| bytes | memcpy from the packets, ns | push, ns | memcpy from windows, ns | push_all, ns | memcpy / push | memcpy / push_all |
|--:|--:|--:|--:|--:|--:|--:|";

const PLACES: &str = "\
| a memcpy, bytes | starts so far behind its source in the page | at once, ns | in blocks of 4,096, ns | in blocks of 2,048, ns |
|--:|--:|--:|--:|--:|";

/// One decimal below 1,000, none from there on, and a comma before every three digits.
fn shown(x: f64) -> String {
    if x < 999.95 {
        return format!("{x:.1}");
    }
    let (digits, mut text) = (format!("{x:.0}"), String::new());
    for (i, c) in digits.chars().enumerate() {
        if i > 0 && (digits.len() - i).is_multiple_of(3) {
            text.push(',');
        }
        text.push(c);
    }
    text
}

fn row(t: &Times) {
    let rate = |ns: f64| shown(t.bytes * 1e3 / ns);
    let or_none = |f: &dyn Fn(f64) -> String| t.many.map_or("-".into(), f);
    let (bytes, rust, library, times) = (format!("{:.0}", t.bytes), shown(t.rust), shown(t.library), t.rust / t.library);
    let (many, many_rate, many_times) = (or_none(&shown), or_none(&rate), or_none(&|ns| format!("{:.2}", t.rust / ns)));
    println!("| {} | {bytes} | {rust} | {library} | {many} | {} | {many_rate} | {times:.2} | {many_times} |", t.name, rate(t.rust));
}

fn copied(Copies { times, packets, windows }: &Copies) {
    let (push, many) = (times.library, times.many.unwrap_or(f64::NAN));
    let ([push_ns, many_ns, packets_ns, windows_ns], bytes) =
        ([push, many, *packets, *windows].map(shown), times.bytes as usize - make::UNIT_AT);
    println!("| {bytes} | {packets_ns} | {push_ns} | {windows_ns} | {many_ns} | {:.2} | {:.2} |", packets / push, windows / many);
}

fn all(rounds: usize, words: &str) -> Result<(), String> {
    println!("{HEAD}");
    for c in cases::all().into_iter().filter(|c| c.name.contains(words)) {
        let name = c.name.clone();
        row(&measure::case(c, rounds).map_err(|e| format!("{name}: {e}"))?);
    }
    let units = [1, 1_000, 10_000, 60_000].map(cases::units).into_iter().filter(|c| c.name.contains(words));
    let copies = units.map(|c| measure::copies(c, rounds)).collect::<Result<Vec<_>, _>>()?;
    copies.iter().for_each(|c| row(&c.times));
    for n in [16, 256, 4096, 65_536].into_iter().filter(|&n| measure::crc_name(n).contains(words)) {
        row(&measure::crc_alone(n, rounds)?);
    }
    if !copies.is_empty() {
        println!("\n{COPIES}");
        copies.iter().for_each(copied);
        println!("\n{PLACES}");
        for r in [10_000, 60_000].iter().flat_map(|&n| places::BEHIND.map(|behind| places::row(n, behind, rounds))) {
            let [once, blocks, small] = r.times.map(shown);
            println!("| {} | {} | {once} | {blocks} | {small} |", r.bytes, r.behind);
        }
    }
    Ok(())
}

fn main() -> ExitCode {
    let mut words = std::env::args().skip(1);
    let rounds = words.next().map_or(Ok(1000), |a| a.parse());
    let Ok(rounds @ 1..) = rounds else {
        eprintln!("usage: speed [ROUNDS [WORDS]]");
        return ExitCode::from(2);
    };
    match all(rounds, &words.next().unwrap_or_default()) {
        Ok(()) => ExitCode::SUCCESS,
        Err(difference) => {
            eprintln!("the two sides differ: {difference}");
            ExitCode::FAILURE
        }
    }
}
