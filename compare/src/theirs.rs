//! The crate's columns, and its answers in the terms of this repository: verdicts by number, elements as numbers of 64 bits.

use columnar::bytes::indexed::{self, DecodedStore};
use columnar::bytes::stash::Stash;
use columnar::bytes::WriteBytes;
use columnar::primitive::offsets::Strides;
use columnar::primitive::{Bools, Empties};
use columnar::{Borrow, ContainerBytes, FromBytes, Len, Push};

/// The elements of a list at most.
pub const L: u64 = u32::MAX as u64;
/// The bytes of an image at most.
pub const MOST_BYTES: u64 = 4_294_967_288;

pub type Borrowed<'a, C> = <C as Borrow>::Borrowed<'a>;

/// A column of the crate that has a counterpart here.
pub trait Column: ContainerBytes {
    /// Its number in the C interface.
    const NUMBER: u32;
    /// Whether it has `bits_at`, and `bounds`.
    const BITS: bool = false;
    const BOUNDS: bool = false;
    /// Pushes an element that is told as a number.
    fn give(&mut self, element: u64);
    fn tell(element: Self::Ref<'_>) -> u64;
    /// Whether question 9 is answered with no, which the crate does not ask.
    fn out_of_bounds(item: &Self::Borrowed<'_>) -> bool;
    /// The words and the bytes that the column needs besides its head or tail.
    fn room(&self) -> (usize, usize);
    /// Whether a push continued the front with a multiple that wrapped, which is on the list of differences.
    fn wrapped(&self) -> bool {
        false
    }
    fn bits(_item: &Self::Borrowed<'_>, _place: usize, _count: usize) -> Option<u64> {
        None
    }
    fn bounds(_item: &Self::Borrowed<'_>, _block: usize) -> Option<(u64, u64)> {
        None
    }
}

fn front_wraps(head: &[u64]) -> bool {
    u128::from(head[0]) * u128::from(head[1]) > u128::from(u64::MAX)
}

fn strides_out_of_bounds(head: &[u64], bounds: usize) -> bool {
    front_wraps(head) || u128::from(head[1]) + bounds as u128 > u128::from(L)
}

fn tail_out_of_bounds(words: u128, count: u64) -> bool {
    count > 63 || 64 * words + u128::from(count) > u128::from(L)
}

impl Column for Vec<u64> {
    const NUMBER: u32 = 1;
    fn give(&mut self, element: u64) {
        Push::push(self, &element);
    }
    fn tell(element: &u64) -> u64 {
        *element
    }
    fn out_of_bounds(item: &&[u64]) -> bool {
        item.len() as u64 > L
    }
    fn room(&self) -> (usize, usize) {
        (self.len(), 0)
    }
}

impl Column for Vec<u8> {
    const NUMBER: u32 = 2;
    fn give(&mut self, element: u64) {
        Push::push(self, &(element as u8));
    }
    fn tell(element: &u8) -> u64 {
        u64::from(*element)
    }
    fn out_of_bounds(item: &&[u8]) -> bool {
        item.len() as u64 > L
    }
    fn room(&self) -> (usize, usize) {
        (0, self.len())
    }
}

impl Column for Strides {
    const NUMBER: u32 = 3;
    const BOUNDS: bool = true;
    fn give(&mut self, element: u64) {
        Push::push(self, &element);
    }
    fn tell(element: u64) -> u64 {
        element
    }
    fn out_of_bounds(item: &Strides<&[u64], &[u64]>) -> bool {
        strides_out_of_bounds(item.head, item.bounds.len())
    }
    fn room(&self) -> (usize, usize) {
        (self.bounds.len(), 0)
    }
    fn wrapped(&self) -> bool {
        front_wraps(&self.head)
    }
    fn bounds(item: &Strides<&[u64], &[u64]>, block: usize) -> Option<(u64, u64)> {
        let (lower, upper): (usize, usize) = item.bounds(block);
        Some((lower as u64, upper as u64))
    }
}

impl Column for Bools {
    const NUMBER: u32 = 4;
    const BITS: bool = true;
    fn give(&mut self, element: u64) {
        Push::push(self, &(element != 0));
    }
    fn tell(element: bool) -> u64 {
        u64::from(element)
    }
    fn out_of_bounds(item: &Bools<&[u64], &[u64]>) -> bool {
        tail_out_of_bounds(item.values.len() as u128, item.tail[1])
    }
    fn room(&self) -> (usize, usize) {
        (self.values.len(), 0)
    }
    fn bits(item: &Bools<&[u64], &[u64]>, place: usize, count: usize) -> Option<u64> {
        Some(item.bits_at(place, count))
    }
}

impl Column for Bools<Strides> {
    const NUMBER: u32 = 5;
    const BITS: bool = true;
    fn give(&mut self, element: u64) {
        Push::push(self, &(element != 0));
    }
    fn tell(element: bool) -> u64 {
        u64::from(element)
    }
    fn out_of_bounds(item: &Bools<Strides<&[u64], &[u64]>, &[u64]>) -> bool {
        let words = u128::from(item.values.head[1]) + item.values.bounds.len() as u128;
        Strides::out_of_bounds(&item.values) || tail_out_of_bounds(words, item.tail[1])
    }
    fn room(&self) -> (usize, usize) {
        self.values.room()
    }
    fn wrapped(&self) -> bool {
        self.values.wrapped()
    }
    fn bits(item: &Bools<Strides<&[u64], &[u64]>, &[u64]>, place: usize, count: usize) -> Option<u64> {
        Some(item.bits_at(place, count))
    }
}

impl Column for Empties {
    const NUMBER: u32 = 6;
    fn give(&mut self, _element: u64) {
        Push::push(self, ());
    }
    fn tell(_element: ()) -> u64 {
        0
    }
    fn out_of_bounds(item: &Empties<&u64>) -> bool {
        *item.count > L
    }
    fn room(&self) -> (usize, usize) {
        (0, 0)
    }
}

/// The question that a text of the crate says was answered with no. The texts of 8 are those of the columns, the rest.
pub fn question(text: &str) -> u32 {
    if text.starts_with("bytes.len()") {
        1
    } else if text.starts_with("store is empty") {
        2
    } else if text.starts_with("first offset") {
        3
    } else if text.starts_with("index requires") {
        4
    } else if text.starts_with("expected") && text.contains("slices but found") {
        5
    } else if text.contains("exceeds store size") {
        6
    } else if text.contains("precedes previous end") {
        7
    } else {
        8
    }
}

/// `indexed::validate`: 0, or the question that failed.
pub fn validate<C: Column>(words: &[u64]) -> u32 {
    indexed::validate::<Borrowed<'_, C>>(words).map_or_else(|text| question(&text), |()| 0)
}

/// `Stash::try_from_bytes`, which may find the bytes at any address.
pub fn admit<C: Column>(bytes: &[u8]) -> u32 {
    Stash::<C, &[u8]>::try_from_bytes(bytes).map_or_else(|text| question(&text), |_| 0)
}

/// Questions 1 to 4, 6 and 7: of as many slices as the words say.
pub fn structure(words: &[u64]) -> u32 {
    let slices = (words.first().copied().unwrap_or(0) as usize / 8).wrapping_sub(1);
    indexed::validate_structure(words, slices).map_or_else(|text| question(&text), |()| 0)
}

/// What `validate` took, where it stands.
pub fn read<C: Column>(words: &[u64]) -> Borrowed<'_, C> {
    FromBytes::from_store(&DecodedStore::new(words), &mut 0)
}

pub fn length<C: Column>(item: &Borrowed<'_, C>) -> u64 {
    item.len() as u64
}

pub fn element<C: Column>(item: &Borrowed<'_, C>, place: usize) -> u64 {
    C::tell(columnar::Index::get(item, place))
}

pub fn elements<C: Column>(item: &Borrowed<'_, C>) -> Vec<u64> {
    (0..item.len()).map(|place| element::<C>(item, place)).collect()
}

pub fn pushed<C: Column>(elements: &[u64]) -> C {
    let mut column = C::default();
    for element in elements {
        column.give(*element);
    }
    column
}

pub fn encoded<C: Column>(column: &C) -> Vec<u64> {
    let mut words = Vec::new();
    indexed::encode(&mut words, &column.borrow());
    words
}

pub fn length_in_words<C: Column>(column: &C) -> usize {
    indexed::length_in_words(&column.borrow())
}

pub fn written<C: Column>(column: &C) -> Vec<u8> {
    let mut sink = Sink { bytes: Vec::new(), room: usize::MAX };
    indexed::write(&mut sink, &column.borrow()).expect("there is room");
    sink.bytes
}

/// The bytes that `write` gives a sink of so much room, and whether all fit.
pub fn written_within<C: Column>(column: &C, room: usize) -> (Vec<u8>, bool) {
    let mut sink = Sink { bytes: Vec::new(), room };
    let whole = indexed::write(&mut sink, &column.borrow()).is_ok();
    (sink.bytes, whole)
}

/// `try_from_bytes`, `make_typed` and `write_bytes`, and the column between them.
pub fn converted<C: Column>(bytes: &[u8]) -> (C, Vec<u8>) {
    let mut stash = Stash::<C, &[u8]>::try_from_bytes(bytes).expect("the image was admitted");
    let column = stash.make_typed().clone();
    let mut sink = Sink { bytes: Vec::new(), room: usize::MAX };
    stash.write_bytes(&mut sink).expect("there is room");
    (column, sink.bytes)
}

/// Takes a piece whole or not at all.
struct Sink {
    bytes: Vec<u8>,
    room: usize,
}

impl WriteBytes for Sink {
    type Error = ();
    fn write_all(&mut self, bytes: &[u8]) -> Result<(), ()> {
        if bytes.len() > self.room {
            return Err(());
        }
        self.room -= bytes.len();
        self.bytes.extend_from_slice(bytes);
        Ok(())
    }
}

/// Counts what is written, for images that are too long to keep.
#[derive(Default)]
pub struct Counted(pub u64);

impl WriteBytes for Counted {
    type Error = ();
    fn write_all(&mut self, bytes: &[u8]) -> Result<(), ()> {
        self.0 += bytes.len() as u64;
        Ok(())
    }
}
