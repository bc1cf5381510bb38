//! Columns, images and admission of this repository beside those of the crate columnar 0.13.3: the same inputs to both, and a
//! report of what agreed and what differs. Ends with status 1 where something differs that docs/DIFFERENCES.md does not list.

mod bench;
mod check;
mod generate;
mod listed;
mod ours;
mod record;
mod theirs;

use std::io::{Read, Write};
use std::process::ExitCode;

use check::{Check, Count, Report, COLUMNS, GROUPS};
use columnar::primitive::offsets::Strides;
use columnar::primitive::{Bools, Empties};
use listed::Shown;
use theirs::Column;

const FUNCTIONS: [(&str, bool); 8] = [
    ("beside_admit", cfg!(feature = "admit")),
    ("beside_element", cfg!(feature = "element")),
    ("beside_bits", cfg!(feature = "bits")),
    ("beside_bounds", cfg!(feature = "bounds")),
    ("beside_slice", cfg!(feature = "slice")),
    ("beside_encode", cfg!(feature = "encode")),
    ("beside_write", cfg!(feature = "write")),
    ("beside_convert", cfg!(feature = "convert")),
];

/// How much each part does.
struct Size {
    strings: &'static [u64],
    longest: usize,
    steps: [u64; 3],
    random: u64,
    boundaries: u64,
    lists: u64,
}

const SHORT: Size = Size { strings: generate::FEW, longest: 3, steps: [1, 2, 8], random: 20_000, boundaries: 10, lists: 10_000 };
const LONG: Size = Size { strings: generate::MANY, longest: 3, steps: [1, 1, 3], random: 600_000, boundaries: 150, lists: 400_000 };

fn main() -> ExitCode {
    assert!(cfg!(target_endian = "little"), "the crate's images are those of a little-endian host");
    let given: Vec<String> = std::env::args().skip(1).collect();
    let arguments: Vec<&str> = given.iter().map(String::as_str).collect();
    let (long, seed) = match arguments[..] {
        ["record"] => return record(1),
        ["record", seed] if seed.parse::<u64>().is_ok() => return record(seed.parse().unwrap_or(1)),
        ["replay"] => return replay(),
        [] | ["short"] => (false, 1),
        ["long"] => (true, 1),
        ["bench", ..] => return bench::run(&given[1..]),
        ["short", seed] if seed.parse::<u64>().is_ok() => (false, seed.parse().unwrap_or(1)),
        ["long", seed] if seed.parse::<u64>().is_ok() => (true, seed.parse().unwrap_or(1)),
        _ => {
            eprintln!("compare: the arguments are short, long or record, and a seed; or replay, or bench");
            return ExitCode::from(2);
        }
    };
    for (name, there) in FUNCTIONS {
        if !there {
            println!("not compared: the library has no {name}");
        }
    }
    // The crate panics on some inputs, which is told below where it is a difference.
    std::panic::set_hook(Box::new(|_| {}));

    let mut report = Report::default();
    let size = if long { LONG } else { SHORT };
    one::<Vec<u64>>(&mut report, &size, seed);
    one::<Vec<u8>>(&mut report, &size, seed);
    one::<Strides>(&mut report, &size, seed);
    one::<Bools>(&mut report, &size, seed);
    one::<Bools<Strides>>(&mut report, &size, seed);
    one::<Empties>(&mut report, &size, seed);
    slices(&mut report, &size, seed);
    counts(&report);

    let mut not_shown = 0;
    for (what, shown) in listed::all(long) {
        match shown {
            Shown::Yes(told) => println!("listed: {what}: shown. The crate: {told}"),
            Shown::Half(told) => println!("listed: {what}: shown of the crate alone. The crate: {told}"),
            Shown::NotRun(why) => println!("listed: {what}: not run, {why}"),
            Shown::No(told) => {
                not_shown += 1;
                println!("listed: {what}: NOT SHOWN. The crate: {told}");
            }
        }
    }
    for (what, difference) in &report.differences {
        println!("DIFFERS: {what}: {} times", difference.times);
        println!("    smallest input: {}", difference.input);
        println!("    the crate, or what is listed: {}", difference.wanted);
        println!("    here: {}", difference.ours);
    }
    println!("compared {} answers: {} differ", report.compared(), report.differ());
    if report.differ() == 0 && not_shown == 0 { ExitCode::SUCCESS } else { ExitCode::FAILURE }
}

fn record(seed: u64) -> ExitCode {
    let mut text = record::record(seed).join("\n");
    text.push('\n');
    if std::io::stdout().write_all(text.as_bytes()).is_ok() { ExitCode::SUCCESS } else { ExitCode::FAILURE }
}

fn replay() -> ExitCode {
    let mut text = String::new();
    let read = std::io::stdin().read_to_string(&mut text).is_ok();
    if read && record::replay(&text) { ExitCode::SUCCESS } else { ExitCode::FAILURE }
}

/// Everything of one column. Each part has its own seed, so that it is the same whatever the others do.
fn one<C: Column>(report: &mut Report, size: &Size, seed: u64) {
    let mut check = Check::new(report, 16 * seed + u64::from(C::NUMBER));
    generate::strings(size.strings, size.longest, &mut |bytes| check.image::<C>(bytes));
    let slots = generate::slots(C::NUMBER);
    for words in slots + 1..slots + 6 {
        generate::indexes(slots, words, size.steps[slots - 1], &mut |bytes| check.image::<C>(bytes));
    }
    let mut random = generate::Random::new(seed ^ 0xc01 << C::NUMBER);
    for _ in 0..size.random {
        check.image::<C>(&generate::loose(&mut random));
        let mut bytes = generate::bytes_of(&generate::image(&mut random, C::NUMBER));
        check.image::<C>(&bytes);
        for _ in 0..2 {
            generate::damage(&mut random, &mut bytes);
            check.image::<C>(&bytes);
        }
    }
    for _ in 0..size.boundaries {
        let words = generate::image(&mut random, C::NUMBER);
        generate::boundaries(&words, &mut |bytes| check.image::<C>(bytes));
        let words = theirs::encoded(&theirs::pushed::<C>(&generate::elements(&mut random, C::NUMBER)));
        generate::boundaries(&words, &mut |bytes| check.image::<C>(bytes));
    }
    for _ in 0..size.lists {
        let list = generate::elements(&mut random, C::NUMBER);
        check.column::<C>(&list);
        check.image::<C>(&generate::bytes_of(&theirs::encoded(&theirs::pushed::<C>(&list))));
    }
}

fn slices(report: &mut Report, size: &Size, seed: u64) {
    let mut check = Check::new(report, 16 * seed);
    generate::strings(generate::FEW, size.longest, &mut |bytes| check.slices(bytes));
    for slots in 1..=3 {
        for words in slots + 1..slots + 6 {
            generate::indexes(slots, words, size.steps[slots - 1], &mut |bytes| check.slices(bytes));
        }
    }
    let mut random = generate::Random::new(seed ^ 0x511ce);
    for _ in 0..size.random {
        check.slices(&generate::loose(&mut random));
        let column = 1 + random.below(6) as u32;
        let mut bytes = generate::bytes_of(&generate::image(&mut random, column));
        check.slices(&bytes);
        generate::damage(&mut random, &mut bytes);
        check.slices(&bytes);
    }
}

fn counts(report: &Report) {
    for (group, name) in GROUPS {
        for (column, count) in report.counts[group as usize].iter().enumerate() {
            if count.compared > 0 {
                let Count { compared, differ, listed } = count;
                println!("{name}, {}: {compared} compared, {differ} differ; {listed} more are as listed", COLUMNS[column]);
            }
        }
    }
}
