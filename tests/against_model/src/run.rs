//! Episodes: calls from fresh, kept so that they can be told again. Of eight, five are played by the guide, one is noise, and two
//! lend images.

use crate::call::Call;
use crate::guide::Guide;
use crate::images;
use crate::mistakes::Mistake;
use crate::noise::noise;
use crate::pair::Pair;
use crate::random::Random;

const LONGEST: u32 = 3000;

/// Every call made, and whether its last one differed.
pub struct Episode {
    pub calls: Vec<Call>,
    pub differs: bool,
}

enum Kind {
    Guided,
    Noise,
    Lent,
}

pub fn play(seed: u64, number: u64, most: u64, mistake: Option<Mistake>, seen: &mut crate::seen::Seen) -> Episode {
    let mut random = Random::new(seed, number);
    let kind = match number % 8 {
        7 => Kind::Noise,
        3 | 6 => Kind::Lent,
        _ => Kind::Guided,
    };
    let length = u64::from(100 + random.below(LONGEST - 100)).min(most);
    let mut pair = Pair::fresh(mistake);
    let mut guide = Guide::powered(&mut random);
    let mut calls = Vec::with_capacity(length as usize);
    for _ in 0..length {
        let call = match kind {
            Kind::Guided => guided(&pair, &mut guide, &mut random),
            Kind::Noise => noise(&mut random),
            Kind::Lent => lent(&pair, &mut guide, &mut random),
        };
        calls.push(call);
        let had_interrupt = pair.state().is_some_and(|state| state.has_interrupt());
        match pair.call(call) {
            Ok(outcome) => seen.note(&call, outcome.returned, had_interrupt, pair.state()),
            Err(_) => return Episode { calls, differs: true },
        }
    }
    Episode { calls, differs: false }
}

fn guided(pair: &Pair, guide: &mut Guide, random: &mut Random) -> Call {
    match pair.state() {
        Some(state) => guide.next_call(state, random),
        None => Call::Fresh,
    }
}

/// Images are lent often, so that most calls meet a state that no other call has made.
fn lent(pair: &Pair, guide: &mut Guide, random: &mut Random) -> Call {
    match (random.below(100), pair.state()) {
        (0..=24, _) => {
            *guide = Guide::default();
            Call::Lend(images::any_state(random))
        }
        (25..=34, _) => {
            *guide = Guide::default();
            Call::Lend(images::near(&pair.library, random))
        }
        (35..=37, _) => Call::Lend(images::damaged(&pair.library, random)),
        (38..=54, _) => noise(random),
        (55, _) => Call::Fresh,
        // Only a lent image brings some states before this command.
        (56..=59, Some(state)) if state.pointer == 0x18 => Call::Register { mark: 1, byte: random.one_of(&[0x18, 0x98]) },
        (56..=75, Some(state)) => Guide::target_turn(state, random),
        (_, Some(state)) => guide.next_call(state, random),
        (_, None) => noise(random),
    }
}
