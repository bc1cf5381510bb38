//! Inputs: words and lists near the bounds, stored images of each column, and damage to them.

use crate::theirs::L;

/// xorshift64*: the same inputs for the same seed.
pub struct Random(u64);

impl Random {
    pub fn new(seed: u64) -> Self {
        let mut random = Random(seed ^ 0x9e37_79b9_7f4a_7c15);
        if random.0 == 0 {
            random.0 = 1;
        }
        random.next();
        random
    }
    pub fn next(&mut self) -> u64 {
        self.0 ^= self.0 >> 12;
        self.0 ^= self.0 << 25;
        self.0 ^= self.0 >> 27;
        self.0.wrapping_mul(0x2545_f491_4f6c_dd1d)
    }
    pub fn below(&mut self, n: u64) -> u64 {
        (u128::from(self.next()) * u128::from(n) >> 64) as u64
    }
    pub fn size(&mut self, n: usize) -> usize {
        self.below(n as u64) as usize
    }
    pub fn one_in(&mut self, n: u64) -> bool {
        self.below(n) == 0
    }
    pub fn pick<T: Copy>(&mut self, from: &[T]) -> T {
        from[self.size(from.len())]
    }
}

/// For strings of all of these: the words at which an answer about a short image can change.
pub const FEW: &[u64] = &[
    0, 1, 2, 7, 8, 9, 15, 16, 17, 23, 24, 25, 31, 32, 33, 39, 40, 41, 48, 63, 64, L - 7, L, L + 1, 1 << 61, 1 << 63, u64::MAX - 7,
    u64::MAX - 6, u64::MAX,
];

/// And more of them, with the bounds of products and of marks.
pub const MANY: &[u64] = &[
    0, 1, 2, 3, 4, 5, 6, 7, 8, 9, 10, 11, 12, 13, 14, 15, 16, 17, 18, 19, 20, 21, 22, 23, 24, 25, 26, 27, 28, 29, 30, 31, 32, 33, 34,
    35, 36, 37, 38, 39, 40, 41, 47, 48, 49, 50, 55, 56, 57, 62, 63, 64, 65, 72, 80, 127, 128, 255, 256, (L + 1) / 64 - 1, (L + 1) / 64, L - 64, L - 63,
    L - 8, L - 7, L - 1, L, L + 1, L + 2, L + 3, L + 9, 1 << 61, (1 << 61) - 1, (1 << 63) - 1, 1 << 63, (1 << 63) + 1, u64::MAX - 8,
    u64::MAX - 7, u64::MAX - 6, u64::MAX - 1, u64::MAX,
];

pub fn word(random: &mut Random) -> u64 {
    match random.below(8) {
        0..=2 => random.pick(MANY),
        3..=4 => random.below(100),
        5 => (u64::MAX / (1 + random.below(9))).wrapping_add(random.below(3)).wrapping_sub(1),
        6 => 1 << random.below(64),
        _ => random.next(),
    }
}

/// A list for a column. Few have multiples that wrap; those show a listed difference.
pub fn elements(random: &mut Random, column: u32) -> Vec<u64> {
    let times = if random.one_in(500) { 40 } else { 1 };
    match column {
        1 => (0..random.size(40 * times)).map(|_| word(random)).collect(),
        2 => (0..random.size(70 * times)).map(|_| random.below(256)).collect(),
        3 => offsets(random, times as u64),
        6 => vec![0; random.size(300 * times)],
        _ => marks(random, times as u64),
    }
}

fn offsets(random: &mut Random, times: u64) -> Vec<u64> {
    let stride = word(random);
    let front = random.below(30 * times);
    let wrapping = random.one_in(16);
    let mut list = Vec::new();
    for i in 1..=front {
        match stride.checked_mul(i) {
            None if !wrapping => break,
            _ => list.push(stride.wrapping_mul(i)),
        }
    }
    for _ in 0..random.below(20 * times) {
        let next = stride.wrapping_mul(list.len() as u64 + 1);
        list.push(match random.below(8) {
            0..=2 => next,
            3 => next.wrapping_add(1),
            4 => next.wrapping_sub(1),
            5 => list.last().copied().unwrap_or(0),
            _ => word(random),
        });
    }
    list
}

fn marks(random: &mut Random, times: u64) -> Vec<u64> {
    let mut list = Vec::new();
    for _ in 0..random.below(6 * times) {
        let count = random.below(140);
        match random.below(6) {
            0 => (0..count).for_each(|_| list.push(0)),
            1 => (0..count).for_each(|_| list.push(1)),
            2 => (0..count).for_each(|i| list.push(i % 2)),
            3 => (0..count).for_each(|_| list.push(random.below(2))),
            // Words that are multiples of one another, so that strides below have a front.
            _ => {
                let stride = word(random);
                for i in 1..=1 + random.below(5) {
                    let group = stride.wrapping_mul(i);
                    (0..64).for_each(|bit| list.push(group >> bit & 1));
                }
            }
        }
    }
    list
}

#[derive(Clone, Copy)]
enum Slot {
    Words,
    Bytes,
    Head,
    Tail,
    Count,
}

pub fn slots(column: u32) -> usize {
    layout(column).len()
}

fn layout(column: u32) -> &'static [Slot] {
    match column {
        1 => &[Slot::Words],
        2 => &[Slot::Bytes],
        3 => &[Slot::Head, Slot::Words],
        4 => &[Slot::Words, Slot::Tail],
        5 => &[Slot::Head, Slot::Words, Slot::Tail],
        _ => &[Slot::Count],
    }
}

/// A stored image as someone else may have written it: slices longer than they need be, padding and unused bits that are set,
/// words after the last slice, numbers at their bounds. Most are admitted.
pub fn image(random: &mut Random, column: u32) -> Vec<u64> {
    let layout = layout(column);
    let mut index = vec![8 * (1 + layout.len() as u64)];
    let mut contents: Vec<u64> = Vec::new();
    for slot in layout {
        let start = index[0] + 8 * contents.len() as u64;
        let mut cut = 0;
        match slot {
            Slot::Words => {
                let few = if random.one_in(4) { 0 } else { random.below(7) };
                (0..few).for_each(|_| contents.push(word(random)));
            }
            Slot::Bytes => {
                let few = random.below(5);
                (0..few).for_each(|_| contents.push(random.next()));
                cut = if few == 0 { 0 } else { random.below(8) };
            }
            Slot::Head => {
                let stride = word(random);
                let length = match random.below(8) {
                    0..=2 => random.below(9),
                    3 => (u64::MAX / stride.max(1)).wrapping_add(random.below(2)),
                    4 => L - random.below(8),
                    5 => (L + 1) / 64 - random.below(8),
                    _ => word(random),
                };
                // Most products are within 2^64 - 1.
                let within = !random.one_in(8) && stride.checked_mul(length).is_none();
                contents.extend([if within { 1 + random.below(9) } else { stride }, length]);
                cut = more(random, &mut contents);
            }
            Slot::Tail => {
                let count = if random.one_in(8) { word(random) } else { random.below(64) };
                contents.extend([word(random), count]);
                cut = more(random, &mut contents);
            }
            Slot::Count => {
                contents.push(word(random));
                cut = more(random, &mut contents);
            }
        }
        let end = index[0] + 8 * contents.len() as u64 - cut;
        debug_assert!(end >= start);
        index.push(end);
    }
    if random.one_in(4) {
        (0..1 + random.below(3)).for_each(|_| contents.push(random.next()));
    }
    index.extend(contents);
    index
}

/// Sometimes a word more than a head, a tail or a count needs; answers how many bytes of the last word do not count.
fn more(random: &mut Random, contents: &mut Vec<u64>) -> u64 {
    if random.one_in(8) {
        contents.push(word(random));
    }
    if random.one_in(4) {
        random.below(8)
    } else {
        0
    }
}

pub fn bytes_of(words: &[u64]) -> Vec<u8> {
    words.iter().flat_map(|word| word.to_le_bytes()).collect()
}

/// One random change to a stored image.
pub fn damage(random: &mut Random, bytes: &mut Vec<u8>) {
    let words = bytes.len() / 8;
    let place = |random: &mut Random| {
        let within = if random.one_in(2) { words.min(4) } else { words };
        8 * random.size(within)
    };
    match random.below(8) {
        0 => {
            let length = bytes.len() - random.size(1 + bytes.len().min(17));
            bytes.truncate(length);
        }
        1 => (0..1 + random.below(16)).for_each(|_| bytes.push(random.next() as u8)),
        _ if words == 0 => bytes.push(0),
        2..=4 => {
            let at = place(random);
            let old = u64::from_le_bytes(bytes[at..at + 8].try_into().expect("eight bytes"));
            let new = old.wrapping_add(random.below(19)).wrapping_sub(9);
            bytes[at..at + 8].copy_from_slice(&new.to_le_bytes());
        }
        5 => {
            let at = place(random);
            let new = word(random);
            bytes[at..at + 8].copy_from_slice(&new.to_le_bytes());
        }
        6 => {
            let at = place(random);
            bytes.drain(at..at + 8);
        }
        _ => {
            let bit = random.size(8 * bytes.len());
            bytes[bit / 8] ^= 1 << (bit % 8);
        }
    }
}

/// Every change of one word of an image by at most nine or to one of MANY, and every length near its own.
pub fn boundaries(words: &[u64], each: &mut impl FnMut(&[u8])) {
    let mut bytes = bytes_of(words);
    for length in 0..=bytes.len() {
        each(&bytes[..length]);
    }
    for more in 1..=17 {
        bytes.push(0);
        each(&bytes);
        debug_assert_eq!(bytes.len(), 8 * words.len() + more);
    }
    bytes.truncate(8 * words.len());
    for (i, word) in words.iter().enumerate().take(12) {
        let mut with = |new: u64| {
            bytes[8 * i..8 * i + 8].copy_from_slice(&new.to_le_bytes());
            each(&bytes);
        };
        (0..19).for_each(|step| with(word.wrapping_add(step).wrapping_sub(9)));
        MANY.iter().for_each(|new| with(*new));
        with(*word);
    }
}

/// A string of words that are near to an index, and then any.
pub fn loose(random: &mut Random) -> Vec<u8> {
    let words = random.size(10);
    let slices = random.below(4);
    let mut list = Vec::new();
    for i in 0..words as u64 {
        list.push(match i {
            0 if !random.one_in(8) => 8 * (1 + slices),
            _ if i <= slices && !random.one_in(8) => {
                let before: u64 = list.last().copied().unwrap_or(0);
                before.wrapping_add(8 * random.below(4)).wrapping_add(if random.one_in(2) { 0 } else { random.below(9) })
            }
            _ => word(random),
        });
    }
    let mut bytes = bytes_of(&list);
    if random.one_in(8) {
        let length = bytes.len() - random.size(1 + bytes.len().min(8));
        bytes.truncate(length);
    }
    bytes
}

/// Every string of at most `most` of these words.
pub fn strings(of: &[u64], most: usize, each: &mut impl FnMut(&[u8])) {
    each(&[]);
    let mut bytes = Vec::new();
    extend(of, most, &mut bytes, each);
}

fn extend(of: &[u64], most: usize, bytes: &mut Vec<u8>, each: &mut impl FnMut(&[u8])) {
    if most == 0 {
        return;
    }
    for word in of {
        let length = bytes.len();
        bytes.extend(word.to_le_bytes());
        each(bytes);
        extend(of, most - 1, bytes, each);
        bytes.truncate(length);
    }
}

/// Every index of so many slices whose ends are in reach of the words, over contents that pass what is asked of them later.
pub fn indexes(slices: usize, words: usize, step: u64, each: &mut impl FnMut(&[u8])) {
    let mut list = vec![1; words];
    list[0] = 8 * (1 + slices as u64);
    ends(&mut list, 1, slices, step, each);
}

fn ends(list: &mut Vec<u64>, i: usize, slices: usize, step: u64, each: &mut impl FnMut(&[u8])) {
    if i > slices {
        each(&bytes_of(list));
        return;
    }
    let from = list[0].saturating_sub(9);
    let last = 8 * list.len() as u64 + 9;
    let mut end = from;
    while end <= last {
        list[i] = end;
        ends(list, i + 1, slices, step, each);
        end += step;
    }
}
