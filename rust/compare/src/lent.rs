//! Lent buffers, with bytes in front of them and behind them that no call may
//! change.

use std::cell::RefCell;

use crate::library::LONGEST_GAME;
use crate::random::Random;

/// What the memory that is lent for a game's text holds before the call.
pub const UNTOUCHED: u8 = 0xee;

/// How many bytes stand in front of a game's text and behind it.
pub const AROUND: usize = 16;

/// As many bytes as are compared at once.
const PIECE: usize = 4096;

thread_local! {
    /// The memory for a game's text, untouched from call to call, since filling it
    /// anew takes longer than most calls.
    static FOR_GAME: RefCell<Vec<u8>> =
        RefCell::new(vec![UNTOUCHED; AROUND + LONGEST_GAME + AROUND]);
}

/// Lends a game's text to a call. Answers the length that the call answers, and the
/// memory, up to the end of the text or to the last byte that the call changed.
pub fn for_game(call: impl FnOnce(&mut [u8; LONGEST_GAME]) -> usize) -> (usize, Vec<u8>) {
    FOR_GAME.with_borrow_mut(|memory| {
        let Some(text) = memory[AROUND..].first_chunk_mut() else {
            panic!("there are fewer bytes than a game's text has");
        };
        let length = call(text);
        let used = changed(memory).max(AROUND + length.min(LONGEST_GAME));
        let after = memory[..used].to_vec();
        memory[..used].fill(UNTOUCHED);
        (length, after)
    })
}

/// How many bytes there are up to the last that is not untouched.
fn changed(memory: &[u8]) -> usize {
    let is_changed = |piece: &[u8]| piece != &[UNTOUCHED; PIECE][..piece.len()];
    let Some(last) = memory.chunks(PIECE).rposition(is_changed) else {
        return 0;
    };
    let start = PIECE * last;
    let piece = &memory[start..memory.len().min(start + PIECE)];
    let byte = piece.iter().rposition(|byte| *byte != UNTOUCHED);
    start + byte.map_or(0, |byte| byte + 1)
}

/// Memory of which one part is lent.
#[derive(Clone, Debug, PartialEq, Eq)]
pub struct Lent {
    pub memory: Vec<u8>,
    pub from: usize,
    pub to: usize,
}

impl Lent {
    /// Lends so many of these bytes. Any bytes stand in front of them and at
    /// least 16 behind, beginning with the rest of these.
    pub fn first(random: &mut Random, bytes: &[u8], length: usize) -> Lent {
        let from = random.below(9);
        let mut memory = random.bytes(from);
        memory.extend(bytes);
        let missing = (length + 16).saturating_sub(bytes.len());
        memory.extend(random.bytes(missing));
        Lent { memory, from, to: from + length }
    }

    /// Lends any bytes: exactly as many as needed, one more, one less, none, or
    /// some other count.
    pub fn for_result(random: &mut Random, needed: usize) -> Lent {
        let length = match random.below(12) {
            0..=3 => needed,
            4 | 5 => needed + 1,
            6 => needed.saturating_sub(1),
            7 => 0,
            8 => random.below(needed),
            9 => random.below(400),
            _ => needed + random.below(60),
        };
        Lent::first(random, &[], length)
    }

    /// The lent part.
    pub fn buffer(&mut self) -> &mut [u8] {
        &mut self.memory[self.from..self.to]
    }
}

#[cfg(test)]
mod tests {
    use super::*;

    #[test]
    fn a_games_text_comes_back_with_each_changed_byte() {
        let places = [0, 1, 4079, 4080, 4081, 5000, LONGEST_GAME - 1];
        for place in places {
            let (length, memory) = for_game(|text| {
                assert!(text.iter().all(|byte| *byte == UNTOUCHED));
                text[place] = 0;
                1
            });
            assert_eq!((length, memory.len()), (1, AROUND + place + 1));
            assert_eq!(memory.iter().position(|byte| *byte == 0), Some(AROUND + place));
        }
        assert_eq!(for_game(|_| 3).1, [UNTOUCHED; AROUND + 3]);
    }
}
