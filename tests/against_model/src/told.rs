//! Calls as lines of text, the same in cases.txt and in what is printed of a difference. All numbers are hexadecimal.
//!
//!     request 1 77 0 -> Done 77
//!     block 0 08 00 -> Done 02 : 11 12
//!     image 000102..        the image after the last call

use crate::call::Call;
use crate::pair::{Difference, Outcome};
use model::{Image, IMAGE_LENGTH};
use std::fmt::Write;

const ANSWERS: [&str; 9] =
    ["Done", "Held", "OutOfPlace", "BadNumber", "Blind", "CommandIgnored", "ReselectionIgnored", "NoDataNow", "Reported"];

pub fn hex(bytes: &[u8]) -> String {
    bytes.iter().fold(String::new(), |mut text, byte| {
        let _ = write!(text, "{byte:02x}");
        text
    })
}

pub fn image_of(text: &str) -> Option<Image> {
    let mut image = [0; IMAGE_LENGTH];
    if text.len() != 2 * IMAGE_LENGTH {
        return None;
    }
    for (n, byte) in image.iter_mut().enumerate() {
        *byte = u8::from_str_radix(text.get(2 * n..2 * n + 2)?, 16).ok()?;
    }
    Some(image)
}

pub fn text_of(call: &Call) -> String {
    match *call {
        Call::Fresh => "fresh".into(),
        Call::Lend(image) => format!("lend {}", hex(&image)),
        Call::Pointer { mark, byte } => format!("pointer {mark:x} {byte:02x}"),
        Call::Auxiliary => "auxiliary".into(),
        Call::Register { mark, byte } => format!("register {mark:x} {byte:02x}"),
        Call::Block { mark, length, first } => format!("block {mark:x} {length:02x} {first:02x}"),
        Call::Time { units } => format!("time {units:02x}"),
        Call::Answer => "answer".into(),
        Call::Reselection { lines } => format!("reselection {lines:02x}"),
        Call::Request { phase, byte, parity } => format!("request {phase:x} {byte:02x} {parity:x}"),
        Call::Free => "free".into(),
        Call::Lines => "lines".into(),
    }
}

pub fn call_of(text: &str) -> Option<Call> {
    let words: Vec<&str> = text.split_whitespace().collect();
    if let ["lend", image] = words[..] {
        return Some(Call::Lend(image_of(image)?));
    }
    let (name, operands) = words.split_first()?;
    let operands: Vec<u32> = operands.iter().map(|word| u32::from_str_radix(word, 16).ok()).collect::<Option<_>>()?;
    match (*name, &operands[..]) {
        ("fresh", []) => Some(Call::Fresh),
        ("pointer", &[mark, byte]) => Some(Call::Pointer { mark, byte }),
        ("auxiliary", []) => Some(Call::Auxiliary),
        ("register", &[mark, byte]) => Some(Call::Register { mark, byte }),
        ("block", &[mark, length, first]) => {
            Some(Call::Block { mark, length: length.try_into().ok().filter(|n| *n <= 64)?, first: first.try_into().ok()? })
        }
        ("time", &[units]) => Some(Call::Time { units }),
        ("answer", []) => Some(Call::Answer),
        ("reselection", &[lines]) => Some(Call::Reselection { lines }),
        ("request", &[phase, byte, parity]) => Some(Call::Request { phase, byte, parity }),
        ("free", []) => Some(Call::Free),
        ("lines", []) => Some(Call::Lines),
        _ => None,
    }
}

pub fn text_of_returned(returned: u32) -> String {
    let name = ANSWERS.get((returned & 0xff) as usize).unwrap_or(&"no answer");
    format!("{name} {:02x}", returned >> 8)
}

/// What a call came to: the answer, its value, and the bytes that a block read.
pub fn text_of_outcome(call: &Call, outcome: &Outcome) -> String {
    let mut text = text_of_returned(outcome.returned);
    if let Call::Block { mark: 0, length, .. } = *call {
        let moved = (outcome.returned >> 8).min(length.into()) as usize;
        text += if moved > 0 { " :" } else { "" };
        for byte in &outcome.slice[..moved] {
            let _ = write!(text, " {byte:02x}");
        }
    }
    text
}

pub fn text_of_difference(difference: &Difference) -> String {
    match *difference {
        Difference::Returned { library, model } => {
            format!("returned: library {}, model {}", text_of_returned(library), text_of_returned(model))
        }
        Difference::LentByte { at, library, model } => format!("lent byte {at}: library {library:02x}, model {model:02x}"),
        Difference::ImageByte { at, library, model } => format!("image byte {at}: library {library:02x}, model {model:02x}"),
    }
}
