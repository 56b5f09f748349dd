//! Seeded requests: all calls, inputs good, damaged and at the limits.

pub mod bits;
pub mod blocks;
pub mod buffers;
pub mod cases;
pub mod contract_faults;
pub mod contract_limits;
pub mod contracts;
pub mod damage;
pub mod entries;
pub mod entry_tables;
pub mod explanations;
pub mod files;
pub mod limits;
pub mod lists;
pub mod octals;
pub mod parted;
pub mod prints;
pub mod programs;
pub mod rechecks;
pub mod required;
pub mod rivals;
pub mod rng;
pub mod scenes;
pub mod skips;
pub mod snippets;
pub mod spelling;
pub mod texts;

use crate::requests::{Call, Request, LONGEST_INPUT};
use rng::Rng;
use scenes::Scene;

/// The calls that `desk generate` and `desk compare` make, and how often each
/// is made, in so many parts. A call enters here once the product answers it.
pub const SHARES: &[(Call, usize)] = &[
    (Call::Read, 2),
    (Call::Check, 3),
    (Call::Judge, 5),
    (Call::Translate, 3),
    (Call::Load, 3),
    (Call::Run, 4),
    (Call::Print, 3),
    (Call::Explain, 4),
    (Call::Summarize, 2),
    (Call::Recheck, 4),
    (Call::FixOctal, 3),
    (Call::Pact, 4),
    (Call::Compare, 4),
    (Call::Count, 4),
    (Call::RunAll, 4),
];

/// Request `index` of the run with this seed.
pub fn request(seed: u64, index: u64) -> Request {
    let mut rng = Rng::for_item(seed, index);
    if rng.one_in(400) {
        return odd_request(&mut rng);
    }
    let scene = Scene::new(&mut rng, 8, 7);
    let calls: Vec<Call> = SHARES
        .iter()
        .flat_map(|&(call, share)| vec![call; share])
        .collect();
    let call = rng.pick(&calls);
    scene.request(&mut rng, call)
}

/// An unknown call, or an input at the limit of the framing.
fn odd_request(rng: &mut Rng) -> Request {
    let mut inputs = [b"true".to_vec(), Vec::new(), vec![0; 4]];
    if rng.one_in(2) {
        let beyond = Call::ALL.len() as u8 + 1;
        let call = rng.pick(&[0, beyond, beyond + 1, 255]);
        return Request { call, inputs };
    }
    let length = LONGEST_INPUT + rng.below(2);
    inputs[rng.below(3)] = vec![b' '; length];
    let (call, _) = rng.pick(SHARES);
    Request {
        call: call.byte(),
        inputs,
    }
}
