//! Time beside the crate's: the same inputs to both in one process, with memory that is lent, or allocated and touched, before.
//! `bench` prints a table of all rows. `bench COLUMN WHAT SIDE ELEMENTS` runs one row of one side once, for a counter of
//! instructions that begins and ends at `compare_bench_measured`.

use std::hint::black_box;
use std::process::ExitCode;
use std::time::Instant;

use columnar::bytes::indexed;
use columnar::bytes::stash::Stash;
use columnar::primitive::offsets::Strides;
use columnar::primitive::{Bools, Empties};

use crate::check::COLUMNS;
use crate::generate::Random;
use crate::ours;
use crate::theirs::{self, Borrowed, Column};

const SIZES: [usize; 3] = [1_000, 1_000_000, 16_000_000];

#[derive(Clone, Copy, PartialEq)]
enum What {
    Admit,
    Convert,
    Encode,
    Write,
}

const ROWS: [(What, &str); 4] =
    [(What::Admit, "admit"), (What::Convert, "convert"), (What::Encode, "encode"), (What::Write, "write")];

#[derive(Clone, Copy, PartialEq)]
enum Side {
    Ours,
    Theirs,
}

const SIDES: [(Side, &str); 2] = [(Side::Ours, "ours"), (Side::Theirs, "crate")];

pub fn run(arguments: &[String]) -> ExitCode {
    keep_memory();
    match arguments.iter().map(String::as_str).collect::<Vec<_>>()[..] {
        [] => {
            println!("| column | elements | what | ours, ns | the crate, ns | ours / the crate |");
            println!("|---|---:|---|---:|---:|---:|");
            for column in 1..=6 {
                for size in SIZES {
                    of_column(column, size, None);
                }
            }
            ExitCode::SUCCESS
        }
        [column, what, side, size] => {
            let row = ROWS.iter().find(|row| row.1 == what);
            let side = SIDES.iter().find(|other| other.1 == side);
            match (column.parse(), row, side, size.parse()) {
                (Ok(column @ 1..=6), Some(row), Some(side), Ok(size)) => {
                    of_column(column, size, Some((row.0, side.0)));
                    ExitCode::SUCCESS
                }
                _ => wrong(),
            }
        }
        _ => wrong(),
    }
}

fn wrong() -> ExitCode {
    eprintln!("compare: after bench come a column's number, a row, ours or crate, and a number of elements");
    ExitCode::from(2)
}

/// Memory that is let go stays with the process, so that what the crate allocates in a conversion is touched before, too.
fn keep_memory() {
    #[cfg(all(target_os = "linux", target_env = "gnu"))]
    unsafe {
        extern "C" {
            fn mallopt(parameter: i32, value: i32) -> i32;
        }
        const TRIM_THRESHOLD: i32 = -1;
        const MMAP_MAX: i32 = -4;
        mallopt(TRIM_THRESHOLD, -1);
        mallopt(MMAP_MAX, 0);
    }
}

fn of_column(column: u32, size: usize, one: Option<(What, Side)>) {
    match column {
        1 => measure::<Vec<u64>>(size, one),
        2 => measure::<Vec<u8>>(size, one),
        3 => measure::<Strides>(size, one),
        4 => measure::<Bools>(size, one),
        5 => measure::<Bools<Strides>>(size, one),
        _ => measure::<Empties>(size, one),
    }
}

/// The elements of a column: random words, bytes and marks. The first half of the strides is multiples of 8 and the first half of the
/// marks over strides is no mark, so that half of both is in a head.
fn elements(column: u32, size: usize) -> Vec<u64> {
    let mut random = Random::new(u64::from(column));
    let mut end = 0;
    (0..size)
        .map(|i| match column {
            1 => random.next(),
            2 => random.below(256),
            3 => {
                end += if i < size / 2 { 8 } else { random.below(16) };
                end
            }
            5 if i < size / 2 => 0,
            6 => 0,
            _ => random.below(2),
        })
        .collect()
}

/// A row's inputs, and the memory of each side.
struct Bench<C> {
    elements: Vec<u64>,
    image: Vec<u64>,
    cells: Vec<u64>,
    bytes: Vec<u8>,
    area: Vec<u64>,
    byte_area: Vec<u8>,
    column: C,
    words: Vec<u64>,
    written: Vec<u8>,
}

fn as_bytes(words: &[u64]) -> &[u8] {
    unsafe { std::slice::from_raw_parts(words.as_ptr().cast(), 8 * words.len()) }
}

impl<C: Column> Bench<C> {
    fn new(size: usize) -> Self {
        let elements = elements(C::NUMBER, size);
        let column = theirs::pushed::<C>(&elements);
        let image = theirs::encoded(&column);
        let (cells, bytes) = column.room();
        // Written, so that the memory is there.
        Bench {
            elements,
            cells: vec![1; cells],
            bytes: vec![1; bytes],
            area: vec![1; image.len()],
            byte_area: vec![1; 8 * image.len()],
            column,
            words: vec![1; image.len()],
            written: vec![1; 8 * image.len()],
            image,
        }
    }

    /// What a call answered, or nothing where the library does not have it.
    fn ours(&mut self, what: What) -> Option<Result<usize, u32>> {
        match what {
            #[cfg(feature = "admit")]
            What::Admit => Some(ours::admit(C::NUMBER, as_bytes(black_box(&self.image))).map(|length| length as usize)),
            #[cfg(feature = "convert")]
            What::Convert => {
                let image = as_bytes(black_box(&self.image));
                Some(ours::convert(C::NUMBER, image, &mut self.cells, &mut self.bytes, &mut self.byte_area))
            }
            #[cfg(feature = "encode")]
            What::Encode => {
                let elements = black_box(&self.elements);
                Some(ours::encode(C::NUMBER, elements, &mut self.cells, &mut self.bytes, &mut self.area))
            }
            #[cfg(feature = "write")]
            What::Write => {
                let elements = black_box(&self.elements);
                Some(ours::write(C::NUMBER, elements, &mut self.cells, &mut self.bytes, &mut self.byte_area))
            }
            #[allow(unreachable_patterns)]
            _ => None,
        }
    }

    fn theirs(&mut self, what: What) -> usize {
        match what {
            What::Admit => usize::from(indexed::validate::<Borrowed<'_, C>>(black_box(&self.image)).is_ok()),
            What::Convert => {
                self.written.clear();
                let mut stash = Stash::<C, &[u8]>::try_from_bytes(as_bytes(black_box(&self.image))).expect("it is an image");
                stash.make_typed();
                let Ok(()) = stash.write_bytes(&mut self.written);
                self.written.len()
            }
            What::Encode => {
                self.push();
                self.words.clear();
                indexed::encode(&mut self.words, &self.column.borrow());
                self.words.len()
            }
            What::Write => {
                self.push();
                self.written.clear();
                let Ok(()) = indexed::write(&mut self.written, &self.column.borrow());
                self.written.len()
            }
        }
    }

    fn push(&mut self) {
        // Out of the struct meanwhile, so that its numbers may be in registers.
        let mut column = std::mem::take(&mut self.column);
        column.clear();
        for element in black_box(&self.elements[..]) {
            column.give(*element);
        }
        self.column = column;
    }

    fn one(&mut self, what: What, side: Side) {
        match side {
            Side::Ours => drop(black_box(self.ours(what))),
            Side::Theirs => drop(black_box(self.theirs(what))),
        }
    }

    /// Whether the library has the call. Both sides have to have written the same image, so that both have done the same.
    fn checked(&mut self, what: What) -> bool {
        let Some(answer) = self.ours(what) else {
            return false;
        };
        let theirs = self.theirs(what);
        match what {
            What::Admit => assert_eq!((answer, theirs), (Ok(self.elements.len()), 1)),
            What::Encode => {
                assert_eq!(answer, Ok(theirs));
                assert!(self.area == self.image && self.words == self.image);
            }
            What::Convert | What::Write => {
                assert_eq!(answer, Ok(theirs));
                assert!(self.byte_area == as_bytes(&self.image) && self.written == self.byte_area);
            }
        }
        self.area.fill(1);
        self.byte_area.fill(1);
        self.words.fill(1);
        self.written.fill(1);
        true
    }
}

/// Where a counter begins and ends.
#[no_mangle]
#[inline(never)]
pub extern "C" fn compare_bench_measured(run: &mut dyn FnMut()) {
    run();
}

fn measure<C: Column>(size: usize, one: Option<(What, Side)>) {
    let mut bench = Bench::<C>::new(size);
    if let Some((what, side)) = one {
        assert!(side == Side::Theirs || bench.ours(what).is_some(), "the library does not have the call");
        bench.one(what, side);
        compare_bench_measured(&mut || bench.one(what, side));
        return;
    }
    for (what, name) in ROWS {
        if !bench.checked(what) {
            println!("not measured: the library has no beside_{name}");
            continue;
        }
        // An image of any length is admitted by its first words: the time is a call's, and else an element's.
        let (unit, parts) = if what == What::Admit { (", a call", 1) } else { ("", size) };
        let [ours, theirs] = best(&mut bench, what, size).map(|nanoseconds| nanoseconds / parts as f64);
        let column = COLUMNS[C::NUMBER as usize];
        println!("| {column} | {size} | {name}{unit} | {} | {} | {} |", short(ours), short(theirs), short(ours / theirs));
    }
}

/// The nanoseconds of a call of each side, in the fastest of several runs, of which each makes as many calls as take a millisecond. The
/// sides take turns, so that what disturbs one disturbs the other.
fn best<C: Column>(bench: &mut Bench<C>, what: What, size: usize) -> [f64; 2] {
    let sides = SIDES.map(|(side, _)| {
        let start = Instant::now();
        bench.one(what, side);
        (side, (1_000_000 / start.elapsed().as_nanos().max(10)).clamp(1, 100_000))
    });
    let runs = if size > 1_000_000 { 12 } else { 40 };
    let mut best = [f64::INFINITY; 2];
    for _ in 0..runs {
        for ((side, calls), best) in sides.into_iter().zip(&mut best) {
            if size <= 1_000_000 {
                bench.one(what, side);
            }
            let start = Instant::now();
            for _ in 0..calls {
                bench.one(what, side);
            }
            *best = best.min(start.elapsed().as_nanos() as f64 / calls as f64);
        }
    }
    best
}

/// A number to three digits.
fn short(number: f64) -> String {
    let digits = (2 - number.log10().floor() as i32).max(0) as usize;
    format!("{number:.digits$}")
}
