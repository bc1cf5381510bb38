//! The differences of docs/DIFFERENCES.md, each shown on an input of its own where it can be run.

use std::ffi::c_void;
use std::panic::catch_unwind;

use columnar::bytes::indexed;
use columnar::bytes::stash::Stash;
use columnar::common::Index;
use columnar::primitive::offsets::Strides;
use columnar::primitive::{Bools, Empties};
use columnar::{Borrow, Clear, Container, Len, Push};

use crate::generate::bytes_of;
use crate::theirs::{self, Column, L, MOST_BYTES};

pub enum Shown {
    /// Both sides were run, and differ as the page says.
    Yes(String),
    /// The crate does as the page says; the C interface has no such call.
    Half(String),
    No(String),
    NotRun(&'static str),
}

#[allow(dead_code)]
const ABSENT: &str = "the library does not have the function";

fn shown(as_listed: bool, what: String) -> Shown {
    if as_listed { Shown::Yes(what) } else { Shown::No(what) }
}

fn half(as_listed: bool, what: String) -> Shown {
    if as_listed { Shown::Half(what) } else { Shown::No(what) }
}

fn panics<T: std::fmt::Debug>(call: impl FnOnce() -> T + std::panic::UnwindSafe) -> Option<T> {
    catch_unwind(call).ok()
}

pub fn all(long: bool) -> Vec<(&'static str, Shown)> {
    vec![
        ("a multiple past 2^64 - 1 in strides: 2^63, 0", wrapped_multiple()),
        ("the same below bools: words 2^63 and 0", wrapped_word()),
        ("a full area: a push to a run of 0 cells", full_area()),
        ("more than L elements: 4294967296 empties", too_many(long)),
        ("a place past the end: get(0) of empty strides", get_past_end()),
        ("a place past the end: get(0) of no empties", empty_past_end()),
        ("a place past the end: bounds(1) of one stride", bounds_past_end()),
        ("push_bits with a bit set at the count: push_bits(2, 1)", stray_bits()),
        ("bits_at past the end: push_bits(5, 3), bits_at(2, 3)", bits_past_end()),
        ("bits_at with a count above 64", too_many_bits()),
        ("an append past the source's end: places 0 to 1 of none", append_past_end()),
        ("an append past the source's end: places 0 to 1 of no empties", empties_past_end()),
        ("an append with a past b: places 1 to 0 of a run", backwards()),
        ("encode: an area of 0 words", no_room()),
        ("the pieces of write: the words 1 and 2 into 24 bytes", pieces()),
        ("an image of more than 536870911 words: 536870910 words", long_image(long)),
        ("tail count 64: bools over words 24, 24, 40, 0, 64", admitted_nine::<Bools>(&[24, 24, 40, 0, 64])),
        ("product 2^64 + ..: strides 24, 40, 40, 2^32 + 2, L", admitted_nine::<Strides>(&[24, 40, 40, (1 << 32) + 2, L])),
        ("a list of more than L: empties 16, 24, L + 1", admitted_nine::<Empties>(&[16, 24, L + 1])),
        ("sides of different length", Shown::NotRun("pairs are not compared")),
        ("more than 4294967288 bytes: a store of 536870912 words", long_store()),
        ("what a refused admission says: no byte", refusal_text()),
        ("decode_index on words that fail: slice 0 of 24, 27, 27, 0", bad_slice(&[24, 27, 27, 0], 0, Some(3), 7)),
        ("decode_index on words that fail: slice 1 of 24, 27, 27, 0", bad_slice(&[24, 27, 27, 0], 1, Some(0), 7)),
        ("decode_index on words that fail: slice 0 of none", bad_slice(&[], 0, None, 2)),
        ("a slice past the count: slice 1 of 16, 24, 7", bad_slice(&[16, 24, 7], 1, Some(0), 10)),
        ("a push and a clear on stored bytes: 16, 24, 7", push_on_bytes()),
        ("bounds(i): the type of its answer", bounds_type()),
    ]
}

#[cfg(feature = "encode")]
fn encoded(column: u32, list: &[u64]) -> Result<Vec<u64>, u32> {
    let mut area = vec![0; list.len() + 8];
    let mut cells = vec![0; list.len()];
    let words = crate::ours::encode(column, list, &mut cells, &mut [], &mut area)?;
    area.truncate(words);
    Ok(area)
}

#[cfg(feature = "encode")]
fn wrapped_multiple() -> Shown {
    let list = [1 << 63, 0];
    let crates = theirs::encoded(&theirs::pushed::<Strides>(&list));
    let ours = encoded(3, &list);
    shown(crates == [24, 40, 40, 1 << 63, 2] && ours == Ok(vec![24, 40, 48, 1 << 63, 1, 0]), format!("{crates:?}; here {ours:?}"))
}

#[cfg(feature = "encode")]
fn wrapped_word() -> Shown {
    let mut list = vec![0; 128];
    list[63] = 1;
    let crates = theirs::encoded(&theirs::pushed::<Bools<Strides>>(&list));
    let ours = encoded(5, &list);
    shown(crates == [32, 48, 48, 64, 1 << 63, 2, 0, 0] && ours == Ok(vec![32, 48, 56, 72, 1 << 63, 1, 0, 0, 0]),
          format!("{crates:?}; here {ours:?}"))
}

#[cfg(feature = "encode")]
fn full_area() -> Shown {
    let crates = theirs::encoded(&theirs::pushed::<Vec<u64>>(&[5]));
    let ours = crate::ours::encode(1, &[5], &mut [], &mut [], &mut [0; 8]);
    shown(crates == [16, 24, 5] && ours == Err(12), format!("{crates:?}; here {ours:?}"))
}

#[cfg(feature = "encode")]
fn no_room() -> Shown {
    let mut store = vec![1];
    indexed::encode(&mut store, &Vec::<u64>::new().borrow());
    let ours = crate::ours::encode(1, &[], &mut [], &mut [], &mut []);
    shown(store == [1, 16, 16] && ours == Err(14), format!("appended, {store:?}; here {ours:?}"))
}

/// Memory that is zero and, until it is written to, takes no place. The allocator may refuse so much, so the system is asked.
struct Zeros(*mut u64, usize);

extern "C" {
    fn mmap(at: *mut c_void, length: usize, protection: i32, flags: i32, file: i32, from: i64) -> *mut c_void;
    fn munmap(at: *mut c_void, length: usize) -> i32;
}

impl Zeros {
    fn new(words: usize) -> Option<Self> {
        const READ_WRITE: i32 = 1 | 2;
        const PRIVATE_ANONYMOUS_NORESERVE: i32 = 0x2 | 0x20 | 0x4000;
        let at = unsafe { mmap(std::ptr::null_mut(), 8 * words, READ_WRITE, PRIVATE_ANONYMOUS_NORESERVE, -1, 0) };
        (at as isize != -1).then_some(Zeros(at as *mut u64, words))
    }
    fn words(&mut self) -> &mut [u64] {
        unsafe { std::slice::from_raw_parts_mut(self.0, self.1) }
    }
}

impl Drop for Zeros {
    fn drop(&mut self) {
        unsafe { munmap(self.0 as *mut c_void, 8 * self.1) };
    }
}

#[cfg(feature = "encode")]
fn too_many(long: bool) -> Shown {
    if !long {
        return Shown::NotRun("only in long: it takes 2^32 pushes");
    }
    let Some(mut list) = Zeros::new(L as usize + 1) else {
        return Shown::NotRun("no room for the list");
    };
    let mut column = Empties::default();
    Push::extend(&mut column, (0..=L).map(|_| ()));
    let ours = crate::ours::encode(6, list.words(), &mut [], &mut [], &mut [0; 8]);
    shown(column.len() as u64 == L + 1 && ours == Err(12), format!("{} elements; here {ours:?}", column.len()))
}

#[cfg(feature = "encode")]
fn long_image(long: bool) -> Shown {
    if !long {
        return Shown::NotRun("only in long: it takes 4 GiB");
    }
    const WORDS: usize = 536_870_910;
    // The column's cells are written to, so they take all of their 4 GiB.
    if free_bytes() < 6 << 30 {
        return Shown::NotRun("less than 6 GiB of memory are free");
    }
    let (Some(mut list), Some(mut cells)) = (Zeros::new(WORDS), Zeros::new(WORDS)) else {
        return Shown::NotRun("no room for the list");
    };
    let mut counted = theirs::Counted::default();
    let whole = indexed::write(&mut counted, &&*list.words()).is_ok();
    let ours = crate::ours::encode(1, list.words(), cells.words(), &mut [], &mut [0; 8]);
    shown(whole && counted.0 > MOST_BYTES && ours == Err(15), format!("{} bytes; here {ours:?}", counted.0))
}

#[cfg(feature = "encode")]
fn free_bytes() -> u64 {
    let text = std::fs::read_to_string("/proc/meminfo").unwrap_or_default();
    let line = text.lines().find_map(|line| line.strip_prefix("MemAvailable:"));
    line.and_then(|rest| rest.trim().trim_end_matches("kB").trim().parse::<u64>().ok()).unwrap_or(0) * 1024
}

#[cfg(not(feature = "encode"))]
mod without_encode {
    use super::{Shown, ABSENT};
    pub fn wrapped_multiple() -> Shown { Shown::NotRun(ABSENT) }
    pub fn wrapped_word() -> Shown { Shown::NotRun(ABSENT) }
    pub fn full_area() -> Shown { Shown::NotRun(ABSENT) }
    pub fn no_room() -> Shown { Shown::NotRun(ABSENT) }
    pub fn too_many(_long: bool) -> Shown { Shown::NotRun(ABSENT) }
    pub fn long_image(_long: bool) -> Shown { Shown::NotRun(ABSENT) }
}
#[cfg(not(feature = "encode"))]
use without_encode::*;

fn get_past_end() -> Shown {
    let crates = panics(|| Index::get(&Strides::default().borrow(), 0));
    #[cfg(feature = "element")]
    {
        let ours = crate::ours::element(3, &bytes_of(&[24, 40, 40, 0, 0]), 0);
        return shown(crates.is_none() && ours == Err(10), format!("a panic; here {ours:?}"));
    }
    #[allow(unreachable_code)]
    half(crates.is_none(), "a panic".to_string())
}

fn empty_past_end() -> Shown {
    let crates = panics(|| Index::get(&Empties::default().borrow(), 0));
    #[cfg(feature = "element")]
    {
        let ours = crate::ours::element(6, &bytes_of(&[16, 24, 0]), 0);
        return shown(crates == Some(()) && ours == Err(10), format!("{crates:?}; here {ours:?}"));
    }
    #[allow(unreachable_code)]
    half(crates == Some(()), format!("{crates:?}"))
}

fn bounds_past_end() -> Shown {
    let words = [24, 40, 40, 3, 1];
    let crates = panics(|| theirs::read::<Strides>(&words).bounds(1));
    #[cfg(feature = "bounds")]
    {
        let ours = crate::ours::bounds(&bytes_of(&words), 1);
        return shown(crates.is_none() && ours == Err(10), format!("a panic; here {ours:?}"));
    }
    #[allow(unreachable_code)]
    half(crates.is_none(), "a panic".to_string())
}

fn stray_bits() -> Shown {
    let mut column: Bools = Bools::default();
    column.push_bits(2, 1);
    half(column.tail == [2, 1], format!("a tail of {:?}", column.tail))
}

fn three_bits() -> (Bools, Vec<u8>) {
    let mut column: Bools = Bools::default();
    column.push_bits(5, 3);
    let image = bytes_of(&theirs::encoded(&column));
    (column, image)
}

fn bits_past_end() -> Shown {
    let (column, _image) = three_bits();
    let crates = column.borrow().bits_at(2, 3);
    #[cfg(feature = "bits")]
    {
        let ours = crate::ours::bits(4, &_image, 2, 3);
        return shown(crates == 1 && ours == Err(10), format!("{crates}; here {ours:?}"));
    }
    #[allow(unreachable_code)]
    half(crates == 1, format!("{crates}"))
}

fn too_many_bits() -> Shown {
    // The crate's release build goes on, and may read a word that is not there.
    let crates = panics(|| theirs::pushed::<Bools>(&[1; 130]).borrow().bits_at(0, 65));
    #[cfg(feature = "bits")]
    {
        let image = bytes_of(&theirs::encoded(&theirs::pushed::<Bools>(&[1; 130])));
        let ours = crate::ours::bits(4, &image, 0, 65);
        return shown(crates.is_some() && ours == Err(11), format!("{crates:?}; here {ours:?}"));
    }
    #[allow(unreachable_code)]
    half(crates.is_some(), format!("{crates:?}"))
}

fn append_past_end() -> Shown {
    let crates = panics(|| {
        let source: Bools = Bools::default();
        let mut column: Bools = Bools::default();
        column.extend_from_self(source.borrow(), 0..1);
        column.len()
    });
    half(crates.is_none(), "a panic".to_string())
}

fn empties_past_end() -> Shown {
    let mut column = Empties::default();
    column.extend_from_self(Empties::default().borrow(), 0..1);
    half(column.len() == 1, format!("{} element", column.len()))
}

fn backwards() -> Shown {
    #[allow(clippy::reversed_empty_ranges)]
    let run = panics(|| Vec::new().extend_from_self(&[5u64][..], 1..0));
    #[allow(clippy::reversed_empty_ranges)]
    let strides = panics(|| Strides::default().extend_from_self(Strides::new(5, 1).borrow(), 1..0));
    half(run.is_none() && strides.is_some(), "a panic, and none of strides".to_string())
}

#[cfg(feature = "write")]
fn pieces() -> Shown {
    let (crates, whole) = theirs::written_within(&vec![1u64, 2], 24);
    let mut area = [0xa5; 24];
    let ours = crate::ours::write(1, &[1, 2], &mut [0; 2], &mut [], &mut area);
    shown(!whole && crates == bytes_of(&[16, 32]) && ours == Err(14) && area[..] == bytes_of(&[16, 32, 1]),
          format!("{} bytes and a refusal; here {ours:?} and the bytes {area:?}", crates.len()))
}

#[cfg(not(feature = "write"))]
fn pieces() -> Shown {
    let (crates, whole) = theirs::written_within(&vec![1u64, 2], 24);
    half(!whole && crates == bytes_of(&[16, 32]), format!("{} bytes and a refusal", crates.len()))
}

fn admitted_nine<C: Column>(words: &[u64]) -> Shown {
    let crates = theirs::validate::<C>(words);
    #[cfg(feature = "admit")]
    {
        let ours = crate::ours::admit(C::NUMBER, &bytes_of(words));
        return shown(crates == 0 && ours == Err(9), format!("admitted; here {ours:?}"));
    }
    #[allow(unreachable_code)]
    half(crates == 0, "admitted".to_string())
}

#[cfg(feature = "admit")]
fn long_store() -> Shown {
    let Some(mut store) = Zeros::new(536_870_912) else {
        return Shown::NotRun("no room for the store");
    };
    store.words()[..3].copy_from_slice(&[16, 24, 7]);
    let crates = theirs::validate::<Empties>(store.words());
    let ours = crate::ours::admit(6, columnar::bytemuck::cast_slice(store.words()));
    // One word less is admitted on both sides.
    let less = &store.words()[..536_870_911];
    let both = (theirs::validate::<Empties>(less), crate::ours::admit(6, columnar::bytemuck::cast_slice(less)));
    shown(crates == 0 && ours == Err(1) && both == (0, Ok(7)), format!("admitted; here {ours:?}"))
}

#[cfg(not(feature = "admit"))]
fn long_store() -> Shown {
    Shown::NotRun(ABSENT)
}

fn refusal_text() -> Shown {
    let crates = indexed::validate::<&[u64]>(&[]);
    #[cfg(feature = "admit")]
    {
        let ours = crate::ours::admit(1, &[]);
        return shown(crates.is_err() && ours == Err(2), format!("{crates:?}; here {ours:?}"));
    }
    #[allow(unreachable_code)]
    half(crates.is_err(), format!("{crates:?}"))
}

/// The crate panics, or answers so many bytes.
#[allow(unused_variables)]
fn bad_slice(words: &[u64], k: usize, bytes: Option<usize>, wanted: u32) -> Shown {
    let crates = panics(|| indexed::decode_index(words, k as u64).to_vec());
    let told = crates.as_ref().map_or("a panic".to_string(), |bytes| format!("{bytes:?}"));
    let as_listed = crates.map(|bytes| bytes.len()) == bytes;
    #[cfg(feature = "slice")]
    {
        let ours = crate::ours::slice(&bytes_of(words), k);
        return shown(as_listed && ours == Err(wanted), format!("{told}; here {ours:?}"));
    }
    #[allow(unreachable_code)]
    half(as_listed, told)
}

fn push_on_bytes() -> Shown {
    let mut stash = Stash::<Empties, Vec<u8>>::try_from_bytes(bytes_of(&[16, 24, 7])).expect("the image was admitted");
    let mut cleared = stash.clone();
    Push::push(&mut stash, ());
    Clear::clear(&mut cleared);
    let typed = |stash: &Stash<Empties, Vec<u8>>, length| matches!(stash, Stash::Typed(column) if column.len() == length);
    half(typed(&stash, 8) && typed(&cleared, 0), "converted, and then 8 elements; cleared, none".to_string())
}

fn bounds_type() -> Shown {
    let (lower, upper): (usize, usize) = theirs::pushed::<Strides>(&[3]).borrow().bounds(0);
    half((lower, upper) == (0, 3), "a tuple of usize; the C interface gives uint64_t".to_string())
}
