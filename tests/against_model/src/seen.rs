//! What a run has seen: answers for each kind of call, and codes raised. A run that sees too little compares too little.

use crate::call::Call;
use crate::told;
use model::Controller;
use std::collections::BTreeMap;

pub struct Seen {
    answers: BTreeMap<(&'static str, u32), u64>,
    codes: [u64; 256],
}

/// The codes of the papers.
fn is_code(code: u8) -> bool {
    let alone = [0x00, 0x11, 0x15, 0x16, 0x20, 0x21, 0x22, 0x40, 0x41, 0x42, 0x43, 0x45, 0x80, 0x85];
    alone.contains(&code) || matches!(code & 0xf8, 0x18 | 0x28 | 0x48 | 0x88)
}

fn kind(call: &Call) -> &'static str {
    match call {
        Call::Fresh => "fresh",
        Call::Lend(_) => "lend",
        Call::Pointer { .. } => "pointer",
        Call::Auxiliary => "auxiliary",
        Call::Register { .. } => "register",
        Call::Block { .. } => "block",
        Call::Time { .. } => "time",
        Call::Answer => "answer",
        Call::Reselection { .. } => "reselection",
        Call::Request { .. } => "request",
        Call::Free => "free",
        Call::Lines => "lines",
    }
}

impl Seen {
    pub fn new() -> Seen {
        Seen { answers: BTreeMap::new(), codes: [0; 256] }
    }

    pub fn note(&mut self, call: &Call, returned: u32, had_interrupt: bool, after: Option<&Controller>) {
        *self.answers.entry((kind(call), returned & 0xff)).or_default() += 1;
        if let Some(state) = after.filter(|state| state.has_interrupt() && !had_interrupt && !matches!(call, Call::Lend(_))) {
            self.codes[usize::from(state.code)] += 1;
        }
    }

    /// Codes of the papers that were never raised.
    pub fn missing_codes(&self) -> Vec<u8> {
        (0..=255).filter(|code| is_code(*code) && self.codes[usize::from(*code)] == 0).collect()
    }

    pub fn print(&self) {
        for ((kind, answer), number) in &self.answers {
            let text = told::text_of_returned(*answer);
            println!("  {kind:12} {:20} {number}", text.trim_end_matches(" 00"));
        }
        let codes: Vec<String> =
            (0..256).filter(|code| self.codes[*code] > 0).map(|code| format!("{code:02x} {}", self.codes[code])).collect();
        println!("  codes raised: {}", codes.join(", "));
    }
}
