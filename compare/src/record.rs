//! A list of the crate's answers, one a line, for a reader that has no crate: `record` writes it and `replay` puts each of its
//! lines to the code of this repository. The fields of a line stand with one space between them, numbers are decimal, bytes are
//! two hexadecimal digits each, a list of numbers has commas, and `-` stands for no byte and for no number:
//!
//! - `admit COLUMN BYTES R LENGTH`: R is 0 where the crate admits the bytes, then of LENGTH elements, or else 1 and LENGTH is 0
//! - `element COLUMN BYTES PLACE VALUE`
//! - `bits COLUMN BYTES PLACE COUNT VALUE`
//! - `bounds BYTES BLOCK LOWER UPPER`, of strides
//! - `slice BYTES K FROM COUNT`: where decoded slice K stands in the bytes, and of how many bytes it is
//! - `encode COLUMN NUMBERS BYTES`: the image of a column that was pushed these numbers
//! - `convert COLUMN BYTES BYTES`: an image that was admitted, converted and written
//!
//! No line is of a case that is a listed difference. Those near a boundary come first, and then those by chance.

use std::collections::{BTreeMap, HashSet};

use columnar::bytes::indexed::{decode, decode_index, DecodedStore};
use columnar::primitive::offsets::Strides;
use columnar::primitive::{Bools, Empties};

use crate::generate::{self, bytes_of, Random, FEW, MANY};
use crate::theirs::{self, Column};

/// Bytes of a line's strings of bytes, and numbers of its list, at most.
const MOST_BYTES: usize = 256;
const MOST_NUMBERS: usize = 400;
/// How many elements a list may have that is converted here: the crate pushes one by one.
const MOST_CONVERTED: u64 = 10_000;

#[derive(Default)]
struct List {
    lines: Vec<String>,
    known: HashSet<String>,
}

impl List {
    fn add(&mut self, line: String) {
        if self.known.insert(line.clone()) {
            self.lines.push(line);
        }
    }
}

fn hexadecimal(bytes: &[u8]) -> String {
    if bytes.is_empty() { "-".to_string() } else { bytes.iter().map(|byte| format!("{byte:02x}")).collect() }
}

fn numbers(list: &[u64]) -> String {
    if list.is_empty() { "-".to_string() } else { list.iter().map(u64::to_string).collect::<Vec<_>>().join(",") }
}

fn words_of(bytes: &[u8]) -> Vec<u64> {
    bytes.chunks_exact(8).map(|eight| u64::from_le_bytes(eight.try_into().expect("eight bytes"))).collect()
}

/// The crate's verdict, or 9 where it admits what is a listed difference.
fn verdict<C: Column>(bytes: &[u8]) -> u32 {
    let number = theirs::admit::<C>(bytes);
    if number == 0 && C::out_of_bounds(&theirs::read::<C>(&words_of(bytes))) { 9 } else { number }
}

/// At most so many of each key, each as likely as another, in the order they were offered.
struct Sample<'a> {
    random: &'a mut Random,
    most: usize,
    offered: u64,
    kept: BTreeMap<u32, (u64, Vec<(u64, Vec<u8>)>)>,
}

impl<'a> Sample<'a> {
    fn new(random: &'a mut Random, most: usize) -> Self {
        Sample { random, most, offered: 0, kept: BTreeMap::new() }
    }
    fn offer(&mut self, key: u32, bytes: &[u8]) {
        let at = self.offered;
        self.offered += 1;
        let (seen, kept) = self.kept.entry(key).or_default();
        *seen += 1;
        if kept.len() < self.most {
            kept.push((at, bytes.to_vec()));
        } else {
            let place = self.random.below(*seen) as usize;
            if place < self.most {
                kept[place] = (at, bytes.to_vec());
            }
        }
    }
    fn all(self) -> Vec<Vec<u8>> {
        let mut all: Vec<_> = self.kept.into_values().flat_map(|(_, kept)| kept).collect();
        all.sort();
        all.into_iter().map(|(_, bytes)| bytes).collect()
    }
}

/// The verdict on a stored image, and with `more` some of its elements, ranges, bounds, and what it is converted to.
fn image<C: Column>(list: &mut List, random: &mut Random, bytes: &[u8], more: bool) {
    let number = verdict::<C>(bytes);
    if bytes.len() > MOST_BYTES || number == 9 {
        return;
    }
    let (column, given) = (C::NUMBER, hexadecimal(bytes));
    let words = words_of(bytes);
    if bytes.len() % 8 == 0 {
        assert_eq!(theirs::validate::<C>(&words), number, "two verdicts of the crate");
    }
    if number != 0 {
        list.add(format!("admit {column} {given} 1 0"));
        return;
    }
    let item = theirs::read::<C>(&words);
    let length = theirs::length::<C>(&item);
    list.add(format!("admit {column} {given} 0 {length}"));
    if more {
        reads::<C>(list, random, &given, &words);
        if length <= MOST_CONVERTED {
            let (converted, written) = theirs::converted::<C>(bytes);
            if !converted.wrapped() && written.len() <= MOST_BYTES {
                list.add(format!("convert {column} {given} {}", hexadecimal(&written)));
            }
        }
    }
}

fn reads<C: Column>(list: &mut List, random: &mut Random, given: &str, words: &[u64]) {
    let column = C::NUMBER;
    let item = theirs::read::<C>(words);
    let length = theirs::length::<C>(&item);
    if length == 0 {
        return;
    }
    // From one to three of these: the first, the last, those at the end of a front or of a word, and one by chance.
    let front = words.iter().skip(3).take(3).copied().find(|word| (1..length).contains(word)).unwrap_or(1).min(length - 1);
    let mut places = vec![0, length - 1, front, front - u64::from(front > 0), random.below(length)];
    if C::BITS {
        places.extend([63, 64, (length - 1) / 64 * 64].map(|place: u64| place.min(length - 1)));
    }
    let few = match column { 6 => 1, 1 | 2 => 2, _ => 3 };
    for _ in 0..few {
        let place = random.pick(&places);
        list.add(format!("element {column} {given} {place} {}", theirs::element::<C>(&item, place as usize)));
        let place = random.pick(&places);
        if let Some((lower, upper)) = C::bounds(&item, place as usize) {
            list.add(format!("bounds {given} {place} {lower} {upper}"));
        }
        let rest = (length - place).min(64);
        let count = if random.one_in(2) { rest } else { random.below(rest + 1) };
        if let Some(bits) = C::bits(&item, place as usize, count as usize) {
            list.add(format!("bits {column} {given} {place} {count} {bits}"));
        }
    }
}

fn column<C: Column>(list: &mut List, elements: &[u64]) {
    let column = theirs::pushed::<C>(elements);
    let image = bytes_of(&theirs::encoded(&column));
    assert_eq!(image, theirs::written(&column), "encode and write of the crate");
    if !column.wrapped() && elements.len() <= MOST_NUMBERS && image.len() <= MOST_BYTES {
        list.add(format!("encode {} {} {}", C::NUMBER, numbers(elements), hexadecimal(&image)));
    }
}

fn slices(list: &mut List, random: &mut Random, bytes: &[u8], most: usize) {
    let words = words_of(bytes);
    if bytes.len() > MOST_BYTES || bytes.len() % 8 != 0 || theirs::structure(&words) != 0 {
        return;
    }
    let base = words.as_ptr() as usize;
    let (all, count): (Vec<_>, _) = (decode(&words).collect(), DecodedStore::new(&words).len());
    assert_eq!(all.len(), count, "two counts of the crate");
    for _ in 0..most.min(count) {
        let k = random.size(count);
        let slice = decode_index(&words, k as u64);
        assert_eq!(slice, all[k], "two slices of the crate");
        list.add(format!("slice {} {k} {} {}", hexadecimal(bytes), slice.as_ptr() as usize - base, slice.len()));
    }
}

/// The changes of one word, and the lengths, at which the verdict is another than beside it.
fn edges<C: Column>(words: &[u64], each: &mut impl FnMut(&[u8])) {
    let whole = bytes_of(words);
    let long = [&whole[..], &[0; 25]].concat();
    let lengths: Vec<u32> = (0..long.len()).map(|length| verdict::<C>(&long[..length])).collect();
    for length in 0..long.len() - 8 {
        let beside = [length.saturating_sub(1), length + 1];
        if beside.iter().any(|other| lengths[*other] != lengths[length]) {
            each(&long[..length]);
        }
    }
    for i in 0..words.len() {
        let with = |new: u64| {
            let mut bytes = whole.clone();
            bytes[8 * i..8 * i + 8].copy_from_slice(&new.to_le_bytes());
            bytes
        };
        let near = (0..19).map(|step| words[i].wrapping_add(step).wrapping_sub(9));
        let mut values: Vec<u64> = near.chain(MANY.iter().copied()).collect();
        values.sort_unstable();
        values.dedup();
        for value in values {
            let here = verdict::<C>(&with(value));
            if [value.wrapping_sub(1), value.wrapping_add(1)].iter().any(|other| verdict::<C>(&with(*other)) != here) {
                each(&with(value));
            }
        }
    }
}

/// Lists at which a column's image changes its form.
fn lists(column: u32) -> Vec<Vec<u64>> {
    let top = u64::MAX;
    let lengths = |most: u64, of: fn(u64) -> u64| (0..=most).map(move |n| (0..n).map(of).collect());
    let strings = |of: &[u64], most| {
        let mut all = Vec::new();
        generate::strings(of, most, &mut |bytes| all.push(words_of(bytes)));
        all
    };
    match column {
        1 => strings(&[0, 1, 1 << 63, top], 2),
        2 => [lengths(17, |i| i).collect(), strings(&[0, 127, 128, 255], 1)].concat(),
        3 => {
            let mut all = strings(&[0, 1, 2, 3], 3);
            all.extend(strings(&[1 << 63, 5, (1 << 63) - 1, top - 1, top], 2));
            for n in 2..=5 {
                // As many multiples as fit, and after them one that is next to the next.
                let stride = top / n;
                let front: Vec<u64> = (1..=n).map(|i| stride * i).collect();
                for next in [top, stride.wrapping_mul(n + 1).wrapping_add(1), stride] {
                    all.push([&front[..], &[next]].concat());
                }
                all.push(front);
            }
            all
        }
        6 => [0, 1, 2, 3, 7, 8, 9, 63, 64, 65, 255, 256, 257].map(|n| vec![0; n]).to_vec(),
        _ => {
            let forms: [fn(u64) -> u64; 4] = [|_| 0, |_| 1, |i| i % 2, |i| u64::from(i % 64 == 0)];
            let mut all: Vec<Vec<u64>> = strings(&[0, 1], 3);
            for n in [31, 63, 64, 65, 127, 128, 129, 192, 193, 256] {
                all.extend(forms.map(|form| (0..n).map(form).collect()));
            }
            // Words 1, 2, 3 and 1, 2, 4, of which the strides below have a front of three and of two.
            for last in [3u64, 4] {
                all.push([1, 2, last].iter().flat_map(|word| (0..64).map(move |bit| word >> bit & 1)).collect());
            }
            all
        }
    }
}

/// Images of a column that boundaries are looked for around.
fn bases<C: Column>(random: &mut Random) -> Vec<Vec<u64>> {
    let few: &[&[u64]] = match C::NUMBER {
        1 => &[&[], &[7, 1 << 63]],
        2 => &[&[], &[1, 2, 3], &[1, 2, 3, 4, 5, 6, 7, 8]],
        3 => &[&[], &[3, 6, 9, 10]],
        6 => &[&[], &[0, 0, 0]],
        _ => &[&[], &[1; 65]],
    };
    let mut all: Vec<Vec<u64>> = few.iter().map(|list| theirs::encoded(&theirs::pushed::<C>(list))).collect();
    while all.len() < few.len() + 1 {
        let words = generate::image(random, C::NUMBER);
        if words.len() <= 9 && verdict::<C>(&bytes_of(&words)) == 0 {
            all.push(words);
        }
    }
    all
}

fn near<C: Column>(list: &mut List, seed: u64) {
    let mut random = Random::new(seed ^ 0x4ea4 << C::NUMBER);
    let slots = generate::slots(C::NUMBER);
    let first = 8 * (1 + slots as u64);
    let mut all = Vec::new();
    generate::strings(&[0, first - 8, first - 1, first, first + 1, u64::MAX], 2, &mut |bytes| all.push(bytes.to_vec()));
    let mut sample = Sample::new(&mut random, 7);
    generate::strings(FEW, 3, &mut |bytes| sample.offer(verdict::<C>(bytes), bytes));
    all.extend(sample.all());
    let mut sample = Sample::new(&mut random, 6);
    for words in slots + 1..slots + 6 {
        generate::indexes(slots, words, [1, 2, 8][slots - 1], &mut |bytes| sample.offer(verdict::<C>(bytes), bytes));
    }
    all.extend(sample.all());
    for words in bases::<C>(&mut random) {
        edges::<C>(&words, &mut |bytes| all.push(bytes.to_vec()));
    }
    for bytes in all {
        let more = random.one_in(3);
        image::<C>(list, &mut random, &bytes, more);
    }
    for elements in lists(C::NUMBER) {
        column::<C>(list, &elements);
        let bytes = bytes_of(&theirs::encoded(&theirs::pushed::<C>(&elements)));
        let more = random.one_in(3);
        image::<C>(list, &mut random, &bytes, more);
    }
}

fn by_chance<C: Column>(list: &mut List, seed: u64) {
    let mut random = Random::new(seed ^ 0xc4a9ce << C::NUMBER);
    for _ in 0..25 {
        let bytes = generate::loose(&mut random);
        image::<C>(list, &mut random, &bytes, true);
        let mut bytes = bytes_of(&generate::image(&mut random, C::NUMBER));
        image::<C>(list, &mut random, &bytes, true);
        generate::damage(&mut random, &mut bytes);
        image::<C>(list, &mut random, &bytes, true);
        let elements = generate::elements(&mut random, C::NUMBER);
        column::<C>(list, &elements);
        let bytes = bytes_of(&theirs::encoded(&theirs::pushed::<C>(&elements)));
        image::<C>(list, &mut random, &bytes, true);
    }
}

fn near_slices(list: &mut List, seed: u64) {
    let mut random = Random::new(seed ^ 0x511c);
    let mut all = Vec::new();
    let passed = |bytes: &[u8]| theirs::structure(&words_of(bytes)) == 0;
    let mut sample = Sample::new(&mut random, 80);
    generate::strings(FEW, 3, &mut |bytes| if passed(bytes) { sample.offer(0, bytes) });
    all.extend(sample.all());
    let mut sample = Sample::new(&mut random, 60);
    for slots in 1..=3 {
        for words in slots + 1..slots + 6 {
            generate::indexes(slots, words, [1, 2, 8][slots - 1], &mut |bytes| if passed(bytes) {
                sample.offer(slots as u32, bytes);
            });
        }
    }
    all.extend(sample.all());
    all.iter().for_each(|bytes| slices(list, &mut random, bytes, 2));
}

fn slices_by_chance(list: &mut List, seed: u64) {
    let mut random = Random::new(seed ^ 0x511ce);
    for _ in 0..60 {
        let column = 1 + random.below(6) as u32;
        let mut bytes = bytes_of(&generate::image(&mut random, column));
        slices(list, &mut random, &bytes, 2);
        generate::damage(&mut random, &mut bytes);
        slices(list, &mut random, &bytes, 2);
        let bytes = generate::loose(&mut random);
        slices(list, &mut random, &bytes, 3);
    }
}

/// The lines of a seed.
pub fn record(seed: u64) -> Vec<String> {
    let mut list = List::default();
    near::<Vec<u64>>(&mut list, seed);
    near::<Vec<u8>>(&mut list, seed);
    near::<Strides>(&mut list, seed);
    near::<Bools>(&mut list, seed);
    near::<Bools<Strides>>(&mut list, seed);
    near::<Empties>(&mut list, seed);
    near_slices(&mut list, seed);
    by_chance::<Vec<u64>>(&mut list, seed);
    by_chance::<Vec<u8>>(&mut list, seed);
    by_chance::<Strides>(&mut list, seed);
    by_chance::<Bools>(&mut list, seed);
    by_chance::<Bools<Strides>>(&mut list, seed);
    by_chance::<Empties>(&mut list, seed);
    slices_by_chance(&mut list, seed);
    list.lines
}

/// The answer here to what a line asks, as the rest of the line has it; a refusal is told where the line has none.
#[cfg(all(feature = "admit", feature = "element", feature = "bits", feature = "bounds", feature = "slice", feature = "encode",
          feature = "convert"))]
fn answered(fields: &[&str]) -> Option<(usize, String)> {
    use crate::ours::{self, Answer};

    fn bytes(field: &str) -> Option<Vec<u8>> {
        if field == "-" {
            return Some(Vec::new());
        }
        (0..field.len()).step_by(2).map(|i| u8::from_str_radix(field.get(i..i + 2)?, 16).ok()).collect()
    }
    fn told(answer: Answer<String>) -> String {
        answer.unwrap_or_else(|number| format!("refused with {number}"))
    }
    let number = |field: &str| field.parse::<u64>().ok();
    // So much room that none is refused for want of it.
    let (mut cells, mut room) = (vec![0; MOST_CONVERTED as usize], vec![0; MOST_CONVERTED as usize]);
    Some(match fields {
        ["admit", column, image, ..] => (3, match ours::admit(number(column)? as u32, &bytes(image)?) {
            Ok(length) => format!("0 {length}"),
            Err(1..=8) => "1 0".to_string(),
            Err(other) => format!("refused with {other}"),
        }),
        ["element", column, image, place, _] => {
            let answer = ours::element(number(column)? as u32, &bytes(image)?, number(place)? as usize);
            (4, told(answer.map(|value| value.to_string())))
        }
        ["bits", column, image, place, count, _] => {
            let answer = ours::bits(number(column)? as u32, &bytes(image)?, number(place)? as usize, number(count)? as usize);
            (5, told(answer.map(|value| value.to_string())))
        }
        ["bounds", image, block, ..] => {
            let answer = ours::bounds(&bytes(image)?, number(block)? as usize);
            (3, told(answer.map(|(lower, upper)| format!("{lower} {upper}"))))
        }
        ["slice", image, k, ..] => {
            let answer = ours::slice(&bytes(image)?, number(k)? as usize);
            (3, told(answer.map(|(from, count)| format!("{from} {count}"))))
        }
        ["encode", column, list, _] => {
            let list: Vec<u64> = if *list == "-" { Vec::new() } else { list.split(',').map(number).collect::<Option<_>>()? };
            let mut area = vec![0; MOST_BYTES];
            let answer = ours::encode(number(column)? as u32, &list, &mut cells, &mut room, &mut area);
            (3, told(answer.map(|words| hexadecimal(&bytes_of(&area[..words])))))
        }
        ["convert", column, image, _] => {
            let mut area = vec![0; 2 * MOST_BYTES];
            let answer = ours::convert(number(column)? as u32, &bytes(image)?, &mut cells, &mut room, &mut area);
            (3, told(answer.map(|taken| hexadecimal(&area[..taken]))))
        }
        _ => return None,
    })
}

#[cfg(not(all(feature = "admit", feature = "element", feature = "bits", feature = "bounds", feature = "slice", feature = "encode",
              feature = "convert")))]
fn answered(_fields: &[&str]) -> Option<(usize, String)> {
    None
}

/// Whether the code here answers every line of a list as the crate did.
pub fn replay(text: &str) -> bool {
    let mut kinds: BTreeMap<&str, (u64, u64)> = BTreeMap::new();
    let mut known = HashSet::new();
    let mut same = !text.is_empty();
    for line in text.lines() {
        let fields: Vec<&str> = line.split(' ').collect();
        let answer = answered(&fields);
        let right = answer.as_ref().is_some_and(|(from, told)| fields[*from..].join(" ") == *told) && known.insert(line);
        let (agree, differ) = kinds.entry(fields[0]).or_default();
        *(if right { agree } else { differ }) += 1;
        if !right {
            same = false;
            println!("DIFFERS: {line}");
            println!("    here: {}", answer.map_or("no answer".to_string(), |(_, told)| told));
        }
    }
    for (kind, (agree, differ)) in kinds {
        println!("{kind}: {agree} agree, {differ} differ");
    }
    same
}
