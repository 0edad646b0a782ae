//! Names are numbers in a job and strings in the text.

const RESERVED: [&str; 4] = ["old", "new", "global_actions", "merge_function"];

pub fn text(number: u32) -> String {
    match RESERVED.get(number as usize) {
        Some(reserved) => reserved.to_string(),
        None => number.to_string(),
    }
}

pub fn number(text: &str) -> u32 {
    match RESERVED.iter().position(|&reserved| reserved == text) {
        Some(place) => place as u32,
        None => text.parse().expect("a name that is a number"),
    }
}
