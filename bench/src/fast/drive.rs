//! "Running": visits, and what is left to do of the nodes that wait for a part.
//!
//! A node that has something left to do when its part is through leaves a frame. The second part of a sequence or choice is visited without one, since nothing is left
//! to do after it, so the depth stands in the frame and isn't the number of frames. A part that is a terminal is visited at once, without a frame.
//!
//! Where a failing node must give back its slots, only those of a choice, repeat or not are given back: no one can see them between a failing sequence, bind or call and
//! the next of these around it. The exception that document 01 makes of a not can only be seen by a not whose part it is.

use super::attributes::Attributes;
use super::expressions::{Held, Sight};
use super::slots::{Pile, PAIRS};
use super::table::*;
use reader_tests::numbers::{BUDGET, DEEP, DONE, NOMATCH, STUCK};
use reader_tests::reference::run::MOST_DEPTH;
use reader_tests::reference::table::*;

/// A node at the greatest depth has no part to wait for, so its place is the start's.
pub const FRAMES: usize = MOST_DEPTH as usize;

/// What waits (upper half of the first word) and the node or slot it needs then (lower half); the place, or a caller's first slot; the part's depth; the mark.
pub type Frame = [u32; 4];

/// What waits is told by the kind of its node, but for these: the start, and a choice for its first part, which has the highest bit so that a failure, which mostly meets
/// a choice, finds it by one look.
const START: u16 = 0;
const FIRST_ARM: u16 = 0x8000;

fn waits_for_first_arm(waits: u32) -> bool {
    waits >= u32::from(FIRST_ARM) << 16
}

#[derive(Clone, Copy)]
pub struct Answer {
    pub number: u32,
    pub place: u32,
    pub consumed: u32,
    pub visits: u32,
    pub values: [Held; FOUR],
}

/// What comes next.
pub enum Next {
    Visit(usize),
    /// A node is through: whether it matched.
    Through(bool),
    /// The run ends, as `Attributes` say.
    End,
}

/// What changes at every visit: a few numbers that the compiler can keep in registers, since every function over them is inlined.
struct Walk<'a> {
    nodes: &'a [Node],
    message: &'a [u8],
    frames: &'a mut [Frame; FRAMES],
    /// The latest frame.
    top: u8,
    /// Visits that may still be made.
    left: u32,
    depth: u32,
    at: usize,
}

pub fn drive(
    sight: Sight,
    budget: u32,
    frames: &mut [Frame; FRAMES],
    pairs: &mut [[u32; 2]; PAIRS],
) -> Answer {
    frames[0] = [u32::from(START) << 16, 0, 0, 0];
    let mut attributes = Attributes {
        sight,
        pile: Pile::new(pairs),
        ending: (DONE, 0),
    };
    let mut walk = Walk {
        nodes: sight.table.nodes,
        message: sight.message,
        frames,
        top: 0,
        left: budget,
        depth: 1,
        at: 0,
    };
    walk.all(&mut attributes);
    let (number, place) = attributes.ending;
    let mut answer = Answer {
        number,
        place,
        consumed: 0,
        visits: budget - walk.left,
        values: [Held::NOTHING; FOUR],
    };
    if number == DONE {
        match attributes.returned(&sight.table.rules[0]) {
            Ok(values) => {
                answer.consumed = walk.at as u32;
                answer.values = values;
            }
            Err(value) => (answer.number, answer.place) = value.ending(),
        }
    }
    answer
}

impl Walk<'_> {
    /// From the start body on, until the run ends.
    #[inline(always)]
    fn all(&mut self, attributes: &mut Attributes) {
        let mut node = number(&attributes.sight.table.rules[0], BODY);
        'visits: loop {
            let mut matched = match self.visit(attributes, node) {
                Next::Visit(part) => {
                    node = part;
                    continue 'visits;
                }
                Next::Through(matched) => matched,
                Next::End => return,
            };
            loop {
                while !matched {
                    match self.failed(attributes) {
                        Next::Visit(part) => {
                            node = part;
                            continue 'visits;
                        }
                        Next::Through(through) => matched = through,
                        Next::End => return,
                    }
                }
                while matched {
                    match self.matched(attributes) {
                        Next::Visit(part) => {
                            node = part;
                            continue 'visits;
                        }
                        Next::Through(through) => matched = through,
                        Next::End => return,
                    }
                }
            }
        }
    }

    /// Applies a node whose depth has been looked at.
    #[inline(always)]
    fn visit(&mut self, attributes: &mut Attributes, node: usize) -> Next {
        if self.left == 0 {
            return attributes.end(BUDGET, node);
        }
        self.left -= 1;
        let record = &self.nodes[node];
        match record[0] {
            EMPTY => Next::Through(true),
            TERMINAL => Next::Through(self.matches(record)),
            UPDATE => self.update(attributes, record),
            CONSTRAINT => self.constraint(attributes, node, record),
            CALL => self.call(attributes, node, record),
            SEQUENCE => self.sequence(attributes, record),
            CHOICE => self.choice(attributes, record),
            REPEAT => self.repeat(attributes, record),
            NOT => self.not(attributes, record),
            _ => self.bind(attributes, record),
        }
    }

    #[inline(always)]
    fn matches(&mut self, terminal: &Node) -> bool {
        match self.message.get(self.at) {
            Some(&byte) if u16::from(byte) == terminal[1] => {
                self.at += 1;
                true
            }
            _ => false,
        }
    }

    /// A first part that is a terminal is visited here: after it, only the second part is left to do.
    #[inline(always)]
    fn sequence(&mut self, attributes: &mut Attributes, record: &Node) -> Next {
        let [first, second] = [record[1], record[2]].map(usize::from);
        if self.depth == MOST_DEPTH {
            return self.too_deep(attributes, first);
        }
        let part = &self.nodes[first];
        if part[0] != TERMINAL {
            return self.open(SEQUENCE, second, first, self.at as u32, 0);
        }
        if self.left == 0 {
            return attributes.end(BUDGET, first);
        }
        self.left -= 1;
        if self.matches(part) {
            self.depth += 1;
            Next::Visit(second)
        } else {
            Next::Through(false)
        }
    }

    /// As a sequence: a terminal writes no slots, so there is nothing to give back before the second part.
    #[inline(always)]
    fn choice(&mut self, attributes: &mut Attributes, record: &Node) -> Next {
        let [first, second] = [record[1], record[2]].map(usize::from);
        if self.depth == MOST_DEPTH {
            return self.too_deep(attributes, first);
        }
        let part = &self.nodes[first];
        if part[0] != TERMINAL {
            return self.open(
                FIRST_ARM,
                second,
                first,
                self.at as u32,
                attributes.pile.open(),
            );
        }
        if self.left == 0 {
            return attributes.end(BUDGET, first);
        }
        self.left -= 1;
        if self.matches(part) {
            Next::Through(true)
        } else {
            self.depth += 1;
            Next::Visit(second)
        }
    }

    #[inline(always)]
    fn repeat(&mut self, attributes: &mut Attributes, record: &Node) -> Next {
        let part = number(record, 1);
        if self.depth == MOST_DEPTH {
            return self.too_deep(attributes, part);
        }
        self.open(REPEAT, part, part, self.at as u32, attributes.pile.open())
    }

    #[inline(always)]
    fn not(&mut self, attributes: &mut Attributes, record: &Node) -> Next {
        let part = number(record, 1);
        if self.depth == MOST_DEPTH {
            return self.too_deep(attributes, part);
        }
        self.open(NOT, 0, part, self.at as u32, attributes.pile.open())
    }

    #[inline(always)]
    fn bind(&mut self, attributes: &mut Attributes, record: &Node) -> Next {
        let part = number(record, 2);
        if self.depth == MOST_DEPTH {
            return self.too_deep(attributes, part);
        }
        self.open(BIND, number(record, 1), part, self.at as u32, 0)
    }

    /// A node waits for its part.
    #[inline(always)]
    fn open(&mut self, waits: u16, needs: usize, part: usize, from: u32, mark: u32) -> Next {
        self.depth += 1;
        self.top += 1;
        self.frames[usize::from(self.top)] = [
            u32::from(waits) << 16 | needs as u32,
            from,
            self.depth,
            mark,
        ];
        Next::Visit(part)
    }

    /// "the budget (32-bit unsigned) is looked at first, then depth"
    #[inline(always)]
    fn too_deep(&self, attributes: &mut Attributes, node: usize) -> Next {
        let number = if self.left == 0 { BUDGET } else { DEEP };
        attributes.end(number, node)
    }

    #[inline(always)]
    fn update(&mut self, attributes: &mut Attributes, record: &Node) -> Next {
        match attributes.update(record) {
            None => Next::Through(true),
            Some(value) => attributes.ended_by(value),
        }
    }

    #[inline(always)]
    fn constraint(&mut self, attributes: &mut Attributes, node: usize, record: &Node) -> Next {
        let value = attributes.value(number(record, 1));
        match value.as_bool() {
            Some(holds) => Next::Through(holds),
            None if value.ends_the_run() => attributes.ended_by(value),
            None => attributes.end(STUCK, node),
        }
    }

    #[inline(always)]
    fn call(&mut self, attributes: &mut Attributes, node: usize, record: &Node) -> Next {
        let callee = &attributes.sight.table.rules[number(record, 1)];
        let (first, mark) = (attributes.pile.first, attributes.pile.mark);
        if let Some(value) = attributes.call(record, callee) {
            return attributes.ended_by(value);
        }
        let body = number(callee, BODY);
        if self.depth == MOST_DEPTH {
            return self.too_deep(attributes, body);
        }
        self.open(CALL, node, body, first as u32, mark)
    }

    /// The part that the latest frame waits for has matched.
    #[inline(always)]
    fn matched(&mut self, attributes: &mut Attributes) -> Next {
        let top = usize::from(self.top);
        let [waits, from, depth, mark] = self.frames[top];
        let needs = (waits & 0xffff) as usize;
        match (waits >> 16) as u16 {
            SEQUENCE => {
                self.top -= 1;
                self.depth = depth;
                Next::Visit(needs)
            }
            FIRST_ARM => {
                self.top -= 1;
                attributes.pile.hand_on(mark);
                Next::Through(true)
            }
            REPEAT => {
                attributes.pile.hand_on(mark);
                self.frames[top][1] = self.at as u32;
                self.frames[top][3] = attributes.pile.open();
                self.depth = depth;
                Next::Visit(needs)
            }
            NOT => self.not_matched(attributes, from, depth, mark),
            BIND => {
                self.top -= 1;
                attributes.bind(needs, from as usize, self.at);
                Next::Through(true)
            }
            CALL => self.returned(attributes, needs, from, mark),
            _ => attributes.end(DONE, 0),
        }
    }

    /// The part of a not has matched: the not fails and hands on the slots. If it is itself the part of a not, that one matches and hands them on.
    #[inline(always)]
    fn not_matched(
        &mut self,
        attributes: &mut Attributes,
        from: u32,
        depth: u32,
        mark: u32,
    ) -> Next {
        self.top -= 1;
        let [waits, _, outer_depth, outer_mark] = self.frames[usize::from(self.top)];
        if waits != u32::from(NOT) << 16 || outer_depth != depth - 1 {
            return Next::Through(false);
        }
        self.top -= 1;
        self.at = from as usize;
        attributes.pile.hand_on(mark);
        attributes.pile.hand_on(outer_mark);
        Next::Through(true)
    }

    #[inline(always)]
    fn returned(
        &mut self,
        attributes: &mut Attributes,
        node: usize,
        first: u32,
        mark: u32,
    ) -> Next {
        self.top -= 1;
        match attributes.receive(node, first as usize, mark) {
            None => Next::Through(true),
            Some(value) => attributes.ended_by(value),
        }
    }

    /// The part that the latest frame waits for has failed.
    #[inline(always)]
    fn failed(&mut self, attributes: &mut Attributes) -> Next {
        let [waits, from, depth, mark] = self.frames[usize::from(self.top)];
        // the start's frame is the last to fail
        self.top = self.top.wrapping_sub(1);
        if waits_for_first_arm(waits) {
            attributes.pile.give_back(mark);
            self.at = from as usize;
            self.depth = depth;
            return Next::Visit((waits & 0xffff) as usize);
        }
        match (waits >> 16) as u16 {
            REPEAT | NOT => {
                attributes.pile.give_back(mark);
                self.at = from as usize;
                Next::Through(true)
            }
            CALL => {
                attributes.pile.back_to(from as usize, mark);
                Next::Through(false)
            }
            SEQUENCE | BIND => Next::Through(false),
            _ => attributes.end(NOMATCH, 0),
        }
    }
}
