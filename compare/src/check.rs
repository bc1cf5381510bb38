//! Puts the same input to both sides, counts what agreed, and keeps the smallest input of each difference.

use std::collections::BTreeMap;
use std::fmt::Debug;
use std::panic::{catch_unwind, AssertUnwindSafe};

use crate::generate::Random;
use crate::ours;
use crate::theirs::{self, Column};

#[derive(Clone, Copy, PartialEq)]
pub enum Group {
    Admission,
    Length,
    Element,
    Bits,
    Bounds,
    Slice,
    Encode,
    Write,
    Convert,
}

pub const GROUPS: [(Group, &str); 9] = [
    (Group::Admission, "admission"),
    (Group::Length, "length"),
    (Group::Element, "element"),
    (Group::Bits, "bits_at"),
    (Group::Bounds, "bounds"),
    (Group::Slice, "decoded slice"),
    (Group::Encode, "encode"),
    (Group::Write, "write"),
    (Group::Convert, "convert"),
];

pub const COLUMNS: [&str; 7] = ["any", "words", "bytes", "strides", "bools over words", "bools over strides", "empties"];

#[derive(Clone, Copy, Default)]
pub struct Count {
    pub compared: u64,
    /// Of the compared, those that no listed difference says.
    pub differ: u64,
    /// Answers besides that are as a listed difference says; for most of them the crate is not run, as it panics or goes on.
    pub listed: u64,
}

pub struct Difference {
    pub times: u64,
    pub input: String,
    /// The crate's answer, or what a listed difference says in its place.
    pub wanted: String,
    pub ours: String,
    size: usize,
}

/// The input of a call, to be told where it shows a difference.
pub struct Input<'a> {
    pub bytes: &'a [u8],
    pub list: Option<&'a [u64]>,
    pub places: String,
}

impl Input<'_> {
    fn of(bytes: &[u8]) -> Input<'_> {
        Input { bytes, list: None, places: String::new() }
    }
    fn size(&self) -> usize {
        self.bytes.len() + 8 * self.list.map_or(0, <[u64]>::len)
    }
    fn told(&self) -> String {
        let what = self.list.map_or_else(|| told(self.bytes), |list| format!("the list {list:?}"));
        if self.places.is_empty() { what } else { format!("{what}; {}", self.places) }
    }
}

pub fn told(bytes: &[u8]) -> String {
    let words: Vec<u64> = bytes.chunks_exact(8).map(|eight| u64::from_le_bytes(eight.try_into().expect("eight bytes"))).collect();
    match &bytes[8 * words.len()..] {
        [] if words.is_empty() => "no byte".to_string(),
        [] => format!("the words {words:?}"),
        rest => format!("the words {words:?} and the bytes {rest:?}"),
    }
}

#[derive(Default)]
pub struct Report {
    pub counts: [[Count; 7]; 9],
    pub differences: BTreeMap<String, Difference>,
}

impl Report {
    pub fn compared(&self) -> u64 {
        self.counts.iter().flatten().map(|count| count.compared).sum()
    }
    pub fn differ(&self) -> u64 {
        self.counts.iter().flatten().map(|count| count.differ).sum()
    }

    fn keep(&mut self, group: Group, column: u32, what: String, input: &Input, wanted: String, ours: String) {
        self.counts[group as usize][column as usize].differ += 1;
        let key = format!("{}, {}: {what}", GROUPS[group as usize].1, COLUMNS[column as usize]);
        let size = input.size();
        let times = self.differences.get(&key).map_or(1, |known| known.times + 1);
        match self.differences.get_mut(&key) {
            Some(known) if known.size <= size => known.times = times,
            _ => {
                self.differences.insert(key, Difference { times, input: input.told(), wanted, ours, size });
            }
        }
    }

    fn same<T: PartialEq + Debug>(&mut self, group: Group, column: u32, what: &str, input: &Input, wanted: T, ours: T) {
        self.counts[group as usize][column as usize].compared += 1;
        if wanted != ours {
            self.keep(group, column, what.to_string(), input, format!("{wanted:?}"), format!("{ours:?}"));
        }
    }

    /// A refusal here. The crate has those of 1 to 8 too; the others are listed differences.
    #[allow(dead_code)]
    fn refusal<T: PartialEq + Debug>(&mut self, group: Group, column: u32, input: &Input, wanted: u32, ours: ours::Answer<T>) {
        if wanted > 8 && ours == Err(wanted) {
            self.listed(group, column);
        } else {
            self.same(group, column, &format!("a refusal with {wanted}"), input, Err(wanted), ours);
        }
    }

    /// A listed difference: here the words after the last multiple are bounds, in an image within its bounds that both read alike.
    #[allow(dead_code)]
    fn wrapped<C: Column>(&mut self, group: Group, input: &Input, list: &[u64], words: Option<&[u64]>) {
        let right = words.is_some_and(|words| {
            theirs::validate::<C>(words) == 0 && {
                let item = theirs::read::<C>(words);
                !C::out_of_bounds(&item) && theirs::elements::<C>(&item) == list
            }
        });
        if right {
            self.listed(group, C::NUMBER);
        } else {
            self.same(group, C::NUMBER, "a wrapped multiple", input, "an image of its own, of the same list".to_string(), format!("{words:?}"));
        }
    }

    fn listed(&mut self, group: Group, column: u32) {
        self.counts[group as usize][column as usize].listed += 1;
    }

    /// A panic of the crate where nothing is asked past a bound is a difference too.
    fn guarded(&mut self, group: Group, column: u32, input: &Input, check: impl FnOnce(&mut Self)) {
        if catch_unwind(AssertUnwindSafe(|| check(self))).is_err() {
            self.keep(group, column, "the crate panics".to_string(), input, "a panic".to_string(), "none".to_string());
        }
    }
}

/// The bytes at any address, and aligned copies of their words.
pub struct Check<'a> {
    pub report: &'a mut Report,
    pub random: Random,
    place: Vec<u8>,
    words: Vec<u64>,
}

/// How many elements a list may have that is converted here: the crate pushes one by one.
const MOST_CONVERTED: u64 = 10_000;

impl<'a> Check<'a> {
    pub fn new(report: &'a mut Report, seed: u64) -> Self {
        Check { report, random: Random::new(seed), place: Vec::new(), words: Vec::new() }
    }

    /// All that can be asked of a stored image for a column: verdict, reads, conversion.
    pub fn image<C: Column>(&mut self, bytes: &[u8]) {
        let at = self.random.size(8);
        self.place.clear();
        self.place.resize(at, 0);
        self.place.extend_from_slice(bytes);
        let place = std::mem::take(&mut self.place);
        let words = std::mem::take(&mut self.words);
        let words = aligned(words, bytes);
        let random = &mut self.random;
        let given = &place[at..];
        self.report.guarded(Group::Admission, C::NUMBER, &Input::of(given), |report| image::<C>(report, random, given, &words));
        self.place = place;
        self.words = words;
    }

    /// Where the slices of an index stand.
    pub fn slices(&mut self, bytes: &[u8]) {
        let words = aligned(std::mem::take(&mut self.words), bytes);
        self.report.guarded(Group::Slice, 0, &Input::of(bytes), |report| slices(report, bytes, &words));
        self.words = words;
    }

    /// Pushes of a list, and the column's image.
    pub fn column<C: Column>(&mut self, list: &[u64]) {
        let random = &mut self.random;
        let input = Input { bytes: &[], list: Some(list), places: String::new() };
        self.report.guarded(Group::Encode, C::NUMBER, &input, |report| column::<C>(report, random, list));
    }
}

fn aligned(mut words: Vec<u64>, bytes: &[u8]) -> Vec<u64> {
    words.clear();
    words.extend(bytes.chunks_exact(8).map(|eight| u64::from_le_bytes(eight.try_into().expect("eight bytes"))));
    words
}

#[cfg(feature = "admit")]
fn image<C: Column>(report: &mut Report, random: &mut Random, bytes: &[u8], words: &[u64]) {
    let ours = ours::admit(C::NUMBER, bytes);
    verdict::<C>(report, bytes, words, theirs::admit::<C>(bytes), ours);
    if bytes.len() % 8 == 0 {
        verdict::<C>(report, bytes, words, theirs::validate::<C>(words), ours);
    }
    let wanted = wanted::<C>(words, theirs::admit::<C>(bytes));
    match ours {
        Ok(length) if wanted == 0 => {
            reads::<C>(report, random, bytes, words, length);
            #[cfg(feature = "convert")]
            if length <= MOST_CONVERTED {
                convert::<C>(report, random, bytes);
            }
        }
        Err(number) if number == wanted && random.one_in(4) => refused::<C>(report, bytes, wanted),
        // Counted as a difference above.
        _ => {}
    }
}

/// The refusal that is wanted where the crate's verdict is known: it does not ask question 9.
#[cfg(feature = "admit")]
fn wanted<C: Column>(words: &[u64], theirs: u32) -> u32 {
    if theirs == 0 && C::out_of_bounds(&theirs::read::<C>(words)) { 9 } else { theirs }
}

/// The other calls refuse an image as admission does.
#[cfg(feature = "admit")]
#[allow(unused_variables)]
fn refused<C: Column>(report: &mut Report, bytes: &[u8], wanted: u32) {
    let input = Input::of(bytes);
    #[cfg(feature = "element")]
    report.refusal(Group::Element, C::NUMBER, &input, wanted, ours::element(C::NUMBER, bytes, 0));
    #[cfg(feature = "bits")]
    if C::BITS {
        report.refusal(Group::Bits, C::NUMBER, &input, wanted, ours::bits(C::NUMBER, bytes, 0, 1));
    }
    #[cfg(feature = "bounds")]
    if C::BOUNDS {
        report.refusal(Group::Bounds, C::NUMBER, &input, wanted, ours::bounds(bytes, 0));
    }
    #[cfg(feature = "convert")]
    report.refusal(Group::Convert, C::NUMBER, &input, wanted, ours::convert(C::NUMBER, bytes, &mut [0; 4], &mut [0; 4], &mut [0; 99]));
}

#[cfg(not(feature = "admit"))]
fn image<C: Column>(_report: &mut Report, _random: &mut Random, _bytes: &[u8], _words: &[u64]) {}

#[cfg(feature = "admit")]
fn verdict<C: Column>(report: &mut Report, bytes: &[u8], words: &[u64], theirs: u32, ours: ours::Answer<u64>) {
    let number = ours.err().unwrap_or(0);
    let wanted = wanted::<C>(words, theirs);
    if wanted == 9 && number == 9 {
        report.listed(Group::Admission, C::NUMBER);
        return;
    }
    let what = format!("{theirs} in the crate, {wanted} wanted, {number} here");
    report.same(Group::Admission, C::NUMBER, &what, &Input::of(bytes), wanted, number);
}

#[cfg(feature = "admit")]
fn reads<C: Column>(report: &mut Report, random: &mut Random, bytes: &[u8], words: &[u64], ours: u64) {
    let item = theirs::read::<C>(words);
    let length = theirs::length::<C>(&item);
    report.same(Group::Length, C::NUMBER, "length", &Input::of(bytes), length, ours);
    if random.one_in(4) {
        past::<C>(report, random, bytes, length);
    }
    if length == 0 {
        return;
    }
    let places: Vec<usize> = if length <= 4 {
        (0..length as usize).collect()
    } else {
        let front = words.iter().skip(3).take(6).copied().find(|word| *word < length).unwrap_or(1);
        vec![0, length as usize - 1, random.below(length) as usize, front as usize, front.saturating_sub(1) as usize]
    };
    for place in places {
        at::<C>(report, random, bytes, &item, length, place);
    }
}

/// Past the end all is refused here.
#[cfg(feature = "admit")]
#[allow(unused_variables)]
fn past<C: Column>(report: &mut Report, random: &mut Random, bytes: &[u8], length: u64) {
    let place = length as usize + if random.one_in(4) { random.next() as usize >> 1 } else { 0 };
    let input = Input { places: format!("place {place}"), ..Input::of(bytes) };
    #[cfg(feature = "element")]
    report.refusal(Group::Element, C::NUMBER, &input, 10, ours::element(C::NUMBER, bytes, place));
    #[cfg(feature = "bits")]
    if C::BITS {
        report.refusal(Group::Bits, C::NUMBER, &input, 10, ours::bits(C::NUMBER, bytes, place, 1));
        report.refusal(Group::Bits, C::NUMBER, &input, 11, ours::bits(C::NUMBER, bytes, place, 65));
    }
    #[cfg(feature = "bounds")]
    if C::BOUNDS {
        report.refusal(Group::Bounds, C::NUMBER, &input, 10, ours::bounds(bytes, place));
    }
}

#[cfg(feature = "admit")]
#[allow(unused_variables)]
fn at<C: Column>(report: &mut Report, random: &mut Random, bytes: &[u8], item: &theirs::Borrowed<'_, C>, length: u64, place: usize) {
    #[cfg(feature = "element")]
    {
        let input = Input { places: format!("place {place}"), ..Input::of(bytes) };
        report.same(Group::Element, C::NUMBER, "element", &input, Ok(theirs::element::<C>(item, place)), ours::element(C::NUMBER, bytes, place));
    }
    #[cfg(feature = "bits")]
    {
        let rest = (length - place as u64).min(64);
        let count = if random.one_in(4) { rest } else { random.below(rest + 1) } as usize;
        if let Some(bits) = C::bits(item, place, count) {
            let input = Input { places: format!("place {place}, count {count}"), ..Input::of(bytes) };
            report.same(Group::Bits, C::NUMBER, "bits_at", &input, Ok(bits), ours::bits(C::NUMBER, bytes, place, count));
        }
    }
    #[cfg(feature = "bounds")]
    if let Some(bounds) = C::bounds(item, place) {
        let input = Input { places: format!("block {place}"), ..Input::of(bytes) };
        report.same(Group::Bounds, C::NUMBER, "bounds", &input, Ok(bounds), ours::bounds(bytes, place));
    }
}

#[cfg(feature = "slice")]
fn slices(report: &mut Report, bytes: &[u8], words: &[u64]) {
    use columnar::bytes::indexed::{decode, decode_index, DecodedStore};

    let first = ours::slice(bytes, 0);
    let number = first.err().unwrap_or(0);
    if bytes.len() % 8 != 0 {
        report.same(Group::Slice, 0, "verdict", &Input::of(bytes), 1, number);
        return;
    }
    let theirs = theirs::structure(words);
    if theirs != 0 {
        let what = format!("{theirs} in the crate, {number} here");
        report.same(Group::Slice, 0, &what, &Input::of(bytes), theirs, number);
        return;
    }
    let base = words.as_ptr() as usize;
    let store = DecodedStore::new(words);
    let mut all = decode(words);
    for k in 0..store.len() {
        let input = Input { places: format!("slice {k}"), ..Input::of(bytes) };
        let ours = ours::slice(bytes, k);
        let mut part = |what: &str, theirs: &[u8]| {
            report.same(Group::Slice, 0, what, &input, Ok((theirs.as_ptr() as usize - base, theirs.len())), ours);
        };
        part("decode_index", decode_index(words, k as u64));
        part("decode", all.next().expect("a slice"));
        let (held, tail) = store.get(k);
        let count = 8 * held.len() - (8 - usize::from(tail)) % 8;
        part("DecodedStore", &columnar::bytemuck::cast_slice(held)[..count]);
    }
    let input = Input { places: "the slice past the last".to_string(), ..Input::of(bytes) };
    report.refusal(Group::Slice, 0, &input, 10, ours::slice(bytes, store.len()));
}

#[cfg(not(feature = "slice"))]
fn slices(_report: &mut Report, _bytes: &[u8], _words: &[u64]) {}

/// What lent areas hold before a call, so that a write outside the image is seen.
#[cfg(any(feature = "encode", feature = "write", feature = "convert"))]
const FILL: u8 = 0xa5;

#[cfg(any(feature = "encode", feature = "write", feature = "convert"))]
fn filled(mut image: Vec<u8>, slack: usize) -> Vec<u8> {
    image.resize(image.len() + slack, FILL);
    image
}

#[allow(unused_variables)]
fn column<C: Column>(report: &mut Report, random: &mut Random, list: &[u64]) {
    let column = theirs::pushed::<C>(list);
    let slack = random.size(3);
    let (cells, bytes) = if column.wrapped() { (list.len(), 0) } else { column.room() };
    #[cfg(any(feature = "encode", feature = "write"))]
    let (mut cells, mut bytes) = (vec![0; cells + slack], vec![0; bytes + slack]);
    let input = Input { bytes: &[], list: Some(list), places: String::new() };
    #[cfg(feature = "encode")]
    {
        let theirs = theirs::encoded(&column);
        let mut area = vec![u64::from_le_bytes([FILL; 8]); theirs.len() + slack + if column.wrapped() { list.len() } else { 0 }];
        let words = ours::encode(C::NUMBER, list, &mut cells, &mut bytes, &mut area);
        if column.wrapped() {
            report.wrapped::<C>(Group::Encode, &input, list, words.ok().map(|words| &area[..words]));
        } else {
            report.same(Group::Encode, C::NUMBER, "length_in_words", &input, Ok(theirs::length_in_words(&column)), words);
            let mut wanted = theirs;
            wanted.resize(area.len(), u64::from_le_bytes([FILL; 8]));
            report.same(Group::Encode, C::NUMBER, "image", &input, wanted, area);
            // A word too few, and then a cell or a byte too few.
            let mut area = vec![u64::from_le_bytes([FILL; 8]); theirs::length_in_words(&column) - 1];
            let words = ours::encode(C::NUMBER, list, &mut cells, &mut bytes, &mut area);
            let untouched = area.iter().all(|word| *word == u64::from_le_bytes([FILL; 8]));
            report.refusal(Group::Encode, C::NUMBER, &input, 14, if untouched { words } else { Err(ours::TOUCHED) });
            let (few_cells, few_bytes) = column.room();
            if few_cells + few_bytes > 0 {
                let few = (&mut cells[..few_cells.saturating_sub(1)], &mut bytes[..few_bytes.saturating_sub(1)]);
                let words = ours::encode(C::NUMBER, list, few.0, few.1, &mut vec![0; list.len() + 9]);
                report.refusal(Group::Encode, C::NUMBER, &input, 12, words);
            }
        }
    }
    #[cfg(feature = "write")]
    if !column.wrapped() {
        let theirs = theirs::written(&column);
        let mut area = vec![FILL; theirs.len() + slack];
        let taken = ours::write(C::NUMBER, list, &mut cells, &mut bytes, &mut area);
        report.same(Group::Write, C::NUMBER, "bytes taken", &input, Ok(theirs.len()), taken);
        let length = theirs.len();
        report.same(Group::Write, C::NUMBER, "bytes", &input, filled(theirs.clone(), slack), area);
        // Too little room: refused on both sides. The pieces here are words, so that at least as many bytes are taken.
        let room = random.size(length);
        let (some, whole) = theirs::written_within(&column, room);
        let mut area = vec![FILL; room];
        let taken = ours::write(C::NUMBER, list, &mut cells, &mut bytes, &mut area);
        let input = Input { places: format!("room for {room} bytes"), ..input };
        report.same(Group::Write, C::NUMBER, "refusal", &input, Err(14), taken);
        let reached = (some.len()..=room).find(|n| area[*n..].iter().all(|byte| *byte == FILL)).unwrap_or(room);
        report.same(Group::Write, C::NUMBER, "bytes before a refusal", &input, (false, &theirs[..reached]), (whole, &area[..reached]));
    }
}

#[cfg(feature = "convert")]
fn convert<C: Column>(report: &mut Report, random: &mut Random, image: &[u8]) {
    let (column, theirs) = theirs::converted::<C>(image);
    let slack = random.size(3);
    let more = if column.wrapped() { theirs::length::<C>(&columnar::Borrow::borrow(&column)) as usize } else { 0 };
    let (cells, bytes) = column.room();
    let (mut cells, mut bytes) = (vec![0; cells + slack + more], vec![0; bytes + slack]);
    let mut area = vec![FILL; theirs.len() + slack + 8 * more];
    let taken = ours::convert(C::NUMBER, image, &mut cells, &mut bytes, &mut area);
    let input = Input::of(image);
    if column.wrapped() {
        let list = theirs::elements::<C>(&theirs::read::<C>(&aligned(Vec::new(), image)));
        let words = taken.ok().map(|taken| aligned(Vec::new(), &area[..taken]));
        report.wrapped::<C>(Group::Convert, &input, &list, words.as_deref());
        return;
    }
    report.same(Group::Convert, C::NUMBER, "bytes taken", &input, Ok(theirs.len()), taken);
    report.same(Group::Convert, C::NUMBER, "bytes", &input, filled(theirs, slack), area);
    let (few_cells, few_bytes) = column.room();
    if few_cells + few_bytes > 0 && random.one_in(4) {
        let few = (&mut cells[..few_cells.saturating_sub(1)], &mut bytes[..few_bytes.saturating_sub(1)]);
        let taken = ours::convert(C::NUMBER, image, few.0, few.1, &mut vec![0; image.len() + 24]);
        report.refusal(Group::Convert, C::NUMBER, &input, 12, taken);
    }
}
