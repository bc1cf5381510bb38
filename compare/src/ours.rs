//! The code of this repository, through the C interface of crates/beside_c.

/// A refusal's number, or what was answered.
pub type Answer<T> = Result<T, u32>;

/// A number that no call answers by chance: a refusal has to leave it where it was.
#[cfg(any(feature = "admit", feature = "element", feature = "bits", feature = "bounds", feature = "slice", feature = "encode",
          feature = "write", feature = "convert"))]
const UNTOUCHED: u64 = 0x5eed_0f_5eed_0f_5e;

/// Told in place of a refusal that changed an answer all the same.
pub const TOUCHED: u32 = 1_000_000;

#[allow(dead_code)]
mod c {
    #[link(name = "beside_c", kind = "static")]
    extern "C" {
        pub fn beside_admit(column: u32, image: *const u8, length: usize, elements: *mut usize) -> u32;
        pub fn beside_element(column: u32, image: *const u8, length: usize, place: usize, element: *mut u64) -> u32;
        pub fn beside_bits(column: u32, image: *const u8, length: usize, place: usize, count: usize, bits: *mut u64) -> u32;
        pub fn beside_bounds(image: *const u8, length: usize, block: usize, lower: *mut u64, upper: *mut u64) -> u32;
        pub fn beside_slice(image: *const u8, length: usize, k: usize, from: *mut usize, bytes: *mut usize) -> u32;
        pub fn beside_encode(column: u32, elements: *const u64, count: usize, cells: *mut u64, cells_length: usize,
                             bytes: *mut u8, bytes_length: usize, area: *mut u64, area_length: usize, words: *mut usize) -> u32;
        pub fn beside_write(column: u32, elements: *const u64, count: usize, cells: *mut u64, cells_length: usize,
                            bytes: *mut u8, bytes_length: usize, area: *mut u8, area_length: usize, taken: *mut usize) -> u32;
        pub fn beside_convert(column: u32, image: *const u8, length: usize, cells: *mut u64, cells_length: usize,
                              bytes: *mut u8, bytes_length: usize, area: *mut u8, area_length: usize, taken: *mut usize) -> u32;
    }
}

#[allow(dead_code)]
fn answer<T: PartialEq>(number: u32, value: T, untouched: T) -> Answer<T> {
    match number {
        0 => Ok(value),
        _ if value != untouched => Err(TOUCHED + number),
        _ => Err(number),
    }
}

#[cfg(feature = "admit")]
pub fn admit(column: u32, image: &[u8]) -> Answer<u64> {
    let mut elements = UNTOUCHED as usize;
    let number = unsafe { c::beside_admit(column, image.as_ptr(), image.len(), &mut elements) };
    answer(number, elements as u64, UNTOUCHED)
}

#[cfg(feature = "element")]
pub fn element(column: u32, image: &[u8], place: usize) -> Answer<u64> {
    let mut element = UNTOUCHED;
    let number = unsafe { c::beside_element(column, image.as_ptr(), image.len(), place, &mut element) };
    answer(number, element, UNTOUCHED)
}

#[cfg(feature = "bits")]
pub fn bits(column: u32, image: &[u8], place: usize, count: usize) -> Answer<u64> {
    let mut bits = UNTOUCHED;
    let number = unsafe { c::beside_bits(column, image.as_ptr(), image.len(), place, count, &mut bits) };
    answer(number, bits, UNTOUCHED)
}

#[cfg(feature = "bounds")]
pub fn bounds(image: &[u8], block: usize) -> Answer<(u64, u64)> {
    let (mut lower, mut upper) = (UNTOUCHED, UNTOUCHED);
    let number = unsafe { c::beside_bounds(image.as_ptr(), image.len(), block, &mut lower, &mut upper) };
    answer(number, (lower, upper), (UNTOUCHED, UNTOUCHED))
}

#[cfg(feature = "slice")]
pub fn slice(image: &[u8], k: usize) -> Answer<(usize, usize)> {
    let (mut from, mut bytes) = (UNTOUCHED as usize, UNTOUCHED as usize);
    let number = unsafe { c::beside_slice(image.as_ptr(), image.len(), k, &mut from, &mut bytes) };
    answer(number, (from, bytes), (UNTOUCHED as usize, UNTOUCHED as usize))
}

#[cfg(feature = "encode")]
pub fn encode(column: u32, elements: &[u64], cells: &mut [u64], bytes: &mut [u8], area: &mut [u64]) -> Answer<usize> {
    let mut words = UNTOUCHED as usize;
    let number = unsafe {
        c::beside_encode(column, elements.as_ptr(), elements.len(), cells.as_mut_ptr(), cells.len(), bytes.as_mut_ptr(), bytes.len(),
                         area.as_mut_ptr(), area.len(), &mut words)
    };
    answer(number, words, UNTOUCHED as usize)
}

#[cfg(feature = "write")]
pub fn write(column: u32, elements: &[u64], cells: &mut [u64], bytes: &mut [u8], area: &mut [u8]) -> Answer<usize> {
    let mut taken = UNTOUCHED as usize;
    let number = unsafe {
        c::beside_write(column, elements.as_ptr(), elements.len(), cells.as_mut_ptr(), cells.len(), bytes.as_mut_ptr(), bytes.len(),
                        area.as_mut_ptr(), area.len(), &mut taken)
    };
    answer(number, taken, UNTOUCHED as usize)
}

#[cfg(feature = "convert")]
pub fn convert(column: u32, image: &[u8], cells: &mut [u64], bytes: &mut [u8], area: &mut [u8]) -> Answer<usize> {
    let mut taken = UNTOUCHED as usize;
    let number = unsafe {
        c::beside_convert(column, image.as_ptr(), image.len(), cells.as_mut_ptr(), cells.len(), bytes.as_mut_ptr(), bytes.len(),
                          area.as_mut_ptr(), area.len(), &mut taken)
    };
    answer(number, taken, UNTOUCHED as usize)
}
