//! Cases for the comparison of library and model. A seed and an index give one case, always the same.
//!
//! Most cases are made to reach something named in `situations`: the counters there show whether they do.

mod buffers;
mod catalogues;
mod damage;
mod demands;
mod draft;
mod extremes;
mod fitting;
mod heat;
mod houses;
mod lines;
mod losses;
mod meters;
mod mixed;
mod rng;

use crate::case::{Buffer, Call, Case};
use crate::model::{self, house::House};
use catalogues::catalogue;
use draft::{Draft, catalogue_bytes};
use lines::Line;
use rng::Rng;

/// The calls, each as often as it is worth: one that does more is asked more often.
const CALLS: [Call; 15] = [
    Call::Copy,
    Call::Flow,
    Call::Flow,
    Call::Duty,
    Call::Meter,
    Call::Meter,
    Call::Losses,
    Call::Heads,
    Call::Heads,
    Call::Rate,
    Call::Rate,
    Call::Choose,
    Call::Choose,
    Call::Heat,
    Call::Heat,
];

/// The case of this index in the row of this seed.
pub fn case(seed: u64, index: u64) -> Case {
    let rng = &Rng::new(seed, index);
    let call = rng.pick(&CALLS);
    let mut case = sound(rng, call);
    let order = model::order_of(call);
    let mut spoilt = [0, 0];
    match rng.below(20) {
        0..9 => {}
        9..12 => spoilt[0] = rng.pick(order),
        12..15 => {
            let place = rng.below(order.len() as u64 - 1) as usize;
            spoilt = [order[place], order[place + 1]];
        }
        15 | 16 => damage::scratch(rng, &mut case),
        17 => (0..rng.between(1, 2)).for_each(|_| damage::edge(rng, &mut case.job)),
        18 => spoilt = [rng.pick(order), rng.pick(order)],
        _ => damage::junk(rng, &mut case),
    }
    // The later fault first, so that the earlier one does not take away the bytes that it needs.
    spoilt.iter().rev().for_each(|number| damage::spoil(rng, &mut case, *number));
    buffers::lend(rng, &mut case, spoilt);
    case
}

/// A case that is accepted, most of the time.
fn sound(rng: &Rng, call: Call) -> Case {
    // Choosing for many sections takes the model a millisecond, and its workspace is long, so it is rarer.
    let large_once_in = if call == Call::Choose { 40 } else { 12 };
    let extreme = rng.once_in(match call {
        Call::Choose => 100,
        Call::Losses => 10,
        _ => 30,
    });
    let line = Line::of(rng, call);
    let mut draft = match rng.below(8) {
        _ if extreme => extremes::longest(rng, line),
        0 => demands::marked(rng, line),
        1 | 2 => mixed::mixed(rng, line, large_once_in),
        _ => houses::house(rng, line, large_once_in),
    };
    let (t, loss) = if call == Call::Heat { heat::asked(rng) } else { (0, 0) };
    if call == Call::Heat && rng.once_in(12) {
        heat::many_residents(&mut draft);
    }
    let mut case = Case {
        call,
        job: draft.bytes(),
        meters: Vec::new(),
        losses: Vec::new(),
        cat: Vec::new(),
        sizes: Vec::new(),
        t,
        loss,
        work: Buffer::default(),
        out: Buffer::default(),
    };
    if call == Call::Meter {
        case.meters = meters::offered(rng, &House::of(&case.job));
    }
    if call.takes_catalogue() || call == Call::Heads {
        with_pipes(rng, &mut draft, &mut case, extreme);
    }
    case
}

/// A catalogue and sizes that fit the house, or losses, which may be those of such sizes.
fn with_pipes(rng: &Rng, draft: &mut Draft, case: &mut Case, extreme: bool) {
    let house = House::of(&case.job);
    let flows = fitting::flows(rng, &house);
    let measure = fitting::measure(rng, draft, &house, &flows);
    let sizes = if extreme { extremes::greatest(rng) } else { catalogue(rng, &measure) };
    case.cat = catalogue_bytes(&sizes);
    fitting::fit(rng, draft, case, &house, &flows);
    if case.call == Call::Heads {
        case.losses = losses::given(rng, draft, case, &flows);
        (case.cat, case.sizes) = (Vec::new(), Vec::new());
    }
    case.job = draft.bytes();
}
