//! Faults put into a sound call in every combination: so every refusal is tried with every other one behind it.

use danivomel::Refusal;

/// A fault, and the refusal that it causes where no earlier fault is there.
pub struct Fault<Call> {
    pub refusal: Refusal,
    pub apply: fn(&mut Call),
}

/// A fault with its refusal's number and place.
pub fn fault<Call>(number: u64, place: u64, apply: fn(&mut Call)) -> Fault<Call> {
    Fault { refusal: Refusal { number, place }, apply }
}

/// Tries every set of faults but the empty one. The faults come in the order in which they are looked for. They are
/// put in from the last to the first, so that the first is there for sure, and its refusal is the one expected.
pub fn each_combination<Call: Clone>(sound: &Call, faults: &[Fault<Call>], mut attempt: impl FnMut(&Call, Refusal)) {
    for set in 1u32..1 << faults.len() {
        let mut call = sound.clone();
        for (index, fault) in faults.iter().enumerate().rev() {
            if set >> index & 1 == 1 {
                (fault.apply)(&mut call);
            }
        }
        attempt(&call, faults[set.trailing_zeros() as usize].refusal);
    }
}
