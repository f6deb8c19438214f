//! Room for a held frame to grow by.
use quayrudder::LedgerAnswer;

/// Another count for one pixel makes a frame longer by at most so many bytes: a step of 16 in each of three tables.
const STEP: usize = 48;
/// The library's refusal of a buffer that is too short for the longer frame.
const NO_ROOM: u32 = 18;

/// Lends the held frame to a call, and lends it longer where its length is all that is wrong.
pub fn lend(held: &mut Vec<u8>, mut call: impl FnMut(&mut [u8]) -> LedgerAnswer) -> LedgerAnswer {
    let answer = call(held);
    if answer.refusal != NO_ROOM {
        return answer;
    }
    held.resize(held.len() + STEP, 0);
    call(held)
}
