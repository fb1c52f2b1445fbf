//! A short list of calls that still differs.

use crate::call::Call;
use crate::mistakes::Mistake;
use crate::pair::{Difference, Pair};

/// Tells the calls from fresh: how many until the sides differ, and how. None if they do not.
pub fn retell(calls: &[Call], mistake: Option<Mistake>) -> Option<(usize, Difference)> {
    let mut pair = Pair::fresh(mistake);
    calls.iter().enumerate().find_map(|(n, call)| pair.call(*call).err().map(|difference| (n + 1, difference)))
}

/// Leaves out each run of this many calls whose absence keeps a difference.
fn leave_out(calls: &mut Vec<Call>, run: usize, mistake: Option<Mistake>) {
    let mut at = 0;
    while at + run <= calls.len() {
        let mut fewer = calls.clone();
        fewer.drain(at..at + run);
        match retell(&fewer, mistake) {
            Some((length, _)) => {
                fewer.truncate(length);
                *calls = fewer;
            }
            None => at += if run > 8 { run / 2 } else { 1 },
        }
    }
}

/// The same call with one thing in it made less; each is less than the call itself, so that simplifying comes to an end.
fn simpler(call: Call) -> Vec<Call> {
    match call {
        Call::Lend(image) => (0..image.len())
            .filter(|at| image[*at] != 0)
            .map(|at| {
                let mut fewer = image;
                fewer[at] = 0;
                Call::Lend(fewer)
            })
            .collect(),
        Call::Pointer { mark, .. } => vec![Call::Pointer { mark, byte: 0 }],
        Call::Register { mark, byte } => vec![Call::Register { mark, byte: 0 }, Call::Register { mark: 0, byte }],
        Call::Block { mark, length, first } => {
            vec![Call::Block { mark, length: length.saturating_sub(1), first }, Call::Block { mark, length, first: 0 }]
        }
        Call::Time { units } => vec![Call::Time { units: units.saturating_sub(1) }],
        Call::Request { phase, byte, parity } => {
            vec![Call::Request { phase, byte: 0, parity }, Call::Request { phase, byte, parity: 0 }]
        }
        _ => Vec::new(),
    }
}

/// True if something was made simpler.
fn simplify(calls: &mut [Call], mistake: Option<Mistake>) -> bool {
    let mut changed = false;
    for n in 0..calls.len() {
        while let Some(call) =
            simpler(calls[n]).into_iter().find(|call| *call != calls[n] && still_differs(calls, n, *call, mistake))
        {
            calls[n] = call;
            changed = true;
        }
    }
    changed
}

/// With this call in the place of the nth, the last one still differs.
fn still_differs(calls: &[Call], n: usize, call: Call, mistake: Option<Mistake>) -> bool {
    let mut tried = calls.to_vec();
    tried[n] = call;
    retell(&tried, mistake).is_some_and(|(length, _)| length == calls.len())
}

/// Long runs first, until nothing can be left out or made simpler any more.
pub fn shrink(mut calls: Vec<Call>, mistake: Option<Mistake>) -> Vec<Call> {
    if let Some((length, _)) = retell(&calls, mistake) {
        calls.truncate(length);
    }
    loop {
        let before = calls.len();
        let mut run = calls.len() / 2;
        while run > 0 {
            leave_out(&mut calls, run, mistake);
            run = if run > 8 { run / 2 } else { run - 1 };
        }
        if !simplify(&mut calls, mistake) && calls.len() == before {
            return calls;
        }
    }
}
