//! The slots of the rules that are being run, and the values they held before: one pile of pairs in the work area.
//!
//! A call puts sixteen fresh slots on the pile. A write keeps what the slot held, on top of the pile, if a failure can bring it back: if a choice, repeat or not is open
//! that began in this rule, and the slot wasn't written since the latest of these began. So each of them keeps at most sixteen pairs, as a call has sixteen slots. With the
//! start rule's slots, those of 255 nodes that wait for a part, and those of a call whose body is then found to be too deep, `PAIRS` is enough.

use super::expressions::{Held, Slots};
use reader_tests::reference::table::SLOTS;

pub const PAIRS: usize = SLOTS * 257;

/// Where the pile ends (upper half), and a bit for each slot whose value needn't be kept (lower half): what a node remembers when it opens.
pub type Mark = u32;

const ALL_KEPT: Mark = 0xffff;
const A_PAIR: Mark = 0x1_0000;

pub struct Pile<'a> {
    pub pairs: &'a mut [[u32; 2]; PAIRS],
    /// Where the slots of the rule at hand begin.
    pub first: usize,
    pub mark: Mark,
}

fn end(mark: Mark) -> usize {
    (mark / A_PAIR) as usize
}

impl<'a> Pile<'a> {
    /// The start rule's slots, unset.
    pub fn new(pairs: &'a mut [[u32; 2]; PAIRS]) -> Pile<'a> {
        let mut pile = Pile {
            pairs,
            first: 0,
            mark: 0,
        };
        pile.fresh(&[]);
        pile
    }

    pub fn slots(&self) -> &Slots {
        self.pairs[self.first..]
            .first_chunk()
            .expect("sixteen slots")
    }

    /// A called rule's slots: the inherited, others unset. None need be kept: if its body fails, they are gone.
    pub fn fresh(&mut self, inherited: &[Held]) {
        self.first = end(self.mark);
        let slots = &mut self.pairs[self.first..self.first + SLOTS];
        slots.fill([0; 2]);
        for (slot, held) in slots.iter_mut().zip(inherited) {
            *slot = [held.tag, held.payload];
        }
        self.mark = ((self.first + SLOTS) as u32 * A_PAIR) | ALL_KEPT;
    }

    /// The slots of a caller, as they were at the call.
    #[inline(always)]
    pub fn back_to(&mut self, first: usize, mark: Mark) {
        self.first = first;
        self.mark = mark;
    }

    #[inline(always)]
    pub fn set(&mut self, slot: usize, held: Held) {
        let place = self.first + slot;
        if self.mark & 1 << slot == 0 {
            let [tag, payload] = self.pairs[place];
            self.pairs[end(self.mark)] = [(slot as u32) << 16 | tag, payload];
            self.mark = (self.mark | 1 << slot) + A_PAIR;
        }
        self.pairs[place] = [held.tag, held.payload];
    }

    /// A choice, repeat or not opens: from here on it keeps what the slots hold.
    #[inline(always)]
    pub fn open(&mut self) -> Mark {
        let outer = self.mark;
        self.mark &= !ALL_KEPT;
        outer
    }

    /// It is left with its slots as they are: what it kept is now its outer's to keep.
    #[inline(always)]
    pub fn hand_on(&mut self, outer: Mark) {
        if self.mark & ALL_KEPT == 0 {
            self.mark = outer;
        } else {
            self.hand_on_kept(outer);
        }
    }

    /// But for the slots that the outer has kept already, or needn't keep.
    #[inline(never)]
    fn hand_on_kept(&mut self, outer: Mark) {
        let mut merged = outer;
        for pair in end(outer)..end(self.mark) {
            let kept = self.pairs[pair];
            let slot = kept[0] >> 16;
            if merged & 1 << slot == 0 {
                self.pairs[end(merged)] = kept;
                merged = (merged | 1 << slot) + A_PAIR;
            }
        }
        self.mark = merged;
    }

    /// It is left with the slots it began with.
    #[inline(always)]
    pub fn give_back(&mut self, outer: Mark) {
        if self.mark ^ outer > ALL_KEPT {
            self.give_back_kept(outer);
        }
        self.mark = outer;
    }

    /// The latest first: a slot may have been kept by nodes inside as well.
    #[inline(never)]
    fn give_back_kept(&mut self, outer: Mark) {
        for pair in (end(outer)..end(self.mark)).rev() {
            let [slot_and_tag, payload] = self.pairs[pair];
            let slot = (slot_and_tag >> 16) as usize;
            self.pairs[self.first + slot] = [slot_and_tag & 0xffff, payload];
        }
    }
}
