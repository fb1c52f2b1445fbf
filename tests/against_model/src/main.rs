//! The proved library against the independent model (tests/model): the same calls to both; after each, the number returned, the
//! lent slice and all 54 bytes of the image are compared.
//!
//!     against_model [SEED [CALLS [-v]]]
//!
//! First the named cases are replayed, then models that are wrong on purpose must be caught, then the run. A difference is shrunk
//! to a short list of calls, printed as cases.txt writes them; give it a name there. At the end, with a quarter as many calls, the
//! library beside itself: nobody is told where the FIFO's bytes stand (twins.rs).

mod call;
mod cases;
mod drives;
mod guide;
mod images;
// The declarations that rust/ uses: one list for both.
#[path = "../../../rust/src/entries.rs"]
mod library;
mod misplacement;
mod mistakes;
mod mistranslation;
mod noise;
mod pair;
mod random;
mod run;
mod seen;
mod shrink;
mod told;
mod twins;

use call::Call;
use mistakes::Mistake;
use pair::Pair;
use seen::Seen;
use std::process::ExitCode;

/// A wrong model is caught within so many calls, and told in so few.
const CAUGHT_WITHIN: u64 = 1_000_000;
const SHORT: usize = 50;
/// So many calls to twins do everything to a FIFO that can be done.
const ENOUGH_TRAFFIC: u64 = 100_000;

/// Plays episodes until a difference or until so many calls are made.
fn run(seed: u64, calls: u64, mistake: Option<Mistake>, seen: &mut Seen) -> (u64, Option<Vec<Call>>) {
    let mut made = 0;
    for number in 0.. {
        if made >= calls {
            break;
        }
        let episode = run::play(seed, number, calls - made, mistake, seen);
        made += episode.calls.len() as u64;
        if episode.differs {
            return (made, Some(episode.calls));
        }
    }
    (made, None)
}

fn print_told(calls: &[Call], mistake: Option<Mistake>) {
    let mut pair = Pair::fresh(mistake);
    for call in calls {
        match pair.call(*call) {
            Ok(outcome) => println!("  {} -> {}", told::text_of(call), told::text_of_outcome(call, &outcome)),
            Err(difference) => println!("  {}  # differs, {}", told::text_of(call), told::text_of_difference(&difference)),
        }
    }
}

fn replays_cases() -> bool {
    let (cases, failures) = cases::replay();
    failures.iter().for_each(|failure| println!("against model: {failure}"));
    println!("against model: {cases} named cases, {} failed", failures.len());
    failures.is_empty()
}

fn catches_mistakes(seed: u64, is_verbose: bool) -> bool {
    let mut longest = 0;
    let mut missed = 0;
    for mistake in Mistake::ALL {
        let (made, found) = run(seed, CAUGHT_WITHIN, Some(mistake), &mut Seen::new());
        let shrunk = found.map(|calls| shrink::shrink(calls, Some(mistake)));
        let length = shrunk.as_ref().map_or(usize::MAX, Vec::len);
        if length > SHORT {
            missed += 1;
            println!("against model: {mistake:?} not caught in {made} calls, or not told in {SHORT}");
            continue;
        }
        longest = longest.max(length);
        if is_verbose {
            println!("{mistake:?}, caught after {made} calls:");
            print_told(&shrunk.unwrap_or_default(), Some(mistake));
        }
    }
    println!("against model: {} wrong models, {missed} missed; the longest shrunk list {longest} calls", Mistake::ALL.len());
    missed == 0
}

fn agrees(seed: u64, calls: u64, is_verbose: bool) -> bool {
    let mut seen = Seen::new();
    let (made, found) = run(seed, calls, None, &mut seen);
    if is_verbose {
        seen.print();
    }
    if let Some(calls) = found {
        println!("against model: seed {seed}, a difference at call {made}; shrunk:");
        print_told(&shrink::shrink(calls, None), None);
        return false;
    }
    let missing = seen.missing_codes();
    if made >= CAUGHT_WITHIN && !missing.is_empty() {
        println!("against model: codes never raised: {missing:02x?}");
        return false;
    }
    println!("against model: seed {seed}, {made} calls, 0 differences");
    true
}

fn tells_no_places(seed: u64, calls: u64, is_verbose: bool) -> bool {
    let is_missed = |library: &twins::Library| !twins::Run::of(*library, seed, CAUGHT_WITHIN, false).is_apart;
    let missed: Vec<&str> = twins::WRONG.iter().filter(|(_, library)| is_missed(library)).map(|(name, _)| *name).collect();
    missed.iter().for_each(|name| println!("against model: a library that {name} is not told from the right one"));
    println!("against model: {} libraries that tell of their places, {} missed", twins::WRONG.len(), missed.len());
    let run = twins::Run::of(twins::right, seed, calls, true);
    if is_verbose {
        run.traffic.print();
    }
    let (missing, apart) = (run.traffic.missing(), u32::from(run.is_apart));
    if run.calls >= ENOUGH_TRAFFIC && !missing.is_empty() {
        println!("against model: never done to the FIFO of twins: {}", missing.join(", "));
        return false;
    }
    println!("against model: seed {seed}, {} pairs with other places, {} calls, {apart} told apart", run.pairs, run.calls);
    missed.is_empty() && !run.is_apart && run.pairs > 0 && run.calls > 0
}

fn main() -> ExitCode {
    let arguments: Vec<String> = std::env::args().skip(1).collect();
    let number = |n: usize, default: u64| arguments.get(n).map_or(Ok(default), |text| text.parse());
    let (Ok(seed), Ok(calls)) = (number(0, 1), number(1, 10_000_000)) else {
        eprintln!("usage: against_model [SEED [CALLS [-v]]]");
        return ExitCode::from(2);
    };
    let is_verbose = arguments.get(2).is_some_and(|word| word == "-v");
    let all = [
        replays_cases(),
        catches_mistakes(seed, is_verbose),
        agrees(seed, calls, is_verbose),
        tells_no_places(seed, calls / 4, is_verbose),
    ];
    ExitCode::from(u8::from(all.contains(&false)))
}
