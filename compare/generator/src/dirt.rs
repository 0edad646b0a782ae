//! What lent words hold before a call, where it is to make no difference.

/// Words to begin with, as the number decides, the next number otherwise: all alike, small ones that
/// could pass for numbers of cells, or any.
pub fn words(number: u32, length: usize) -> Vec<u32> {
    let word = |place: u32| any(number.wrapping_add(place));
    let words = 0..length as u32;
    match number % 5 {
        0 => vec![0; length],
        1 => vec![u32::MAX; length],
        2 => words.map(|place| word(place) >> 29).collect(),
        3 => words.map(|place| word(place) >> 22).collect(),
        _ => words.map(word).collect(),
    }
}

/// The same for an index. Behind small words, which could pass for entries, the first is any: the mix is
/// made of it.
pub fn slots(number: u32, length: usize) -> Vec<u32> {
    let mut slots = words(number, length);
    if let (2 | 3, Some(first)) = (number % 5, slots.first_mut()) {
        *first = any(number);
    }
    slots
}

fn any(number: u32) -> u32 {
    number.wrapping_mul(0x9e37_79b1)
}
