//! The tables and messages that are measured: the same on every run.

use reader_tests::random::draft::Draft;
use reader_tests::reference::console::asked;
use reader_tests::reference::table::*;

pub struct Work {
    pub words: Vec<u16>,
    pub literals: Vec<u8>,
    pub message: Vec<u8>,
}

pub const LONGEST: usize = 65_535;

/// Document 01's greatest R; K is 16 a rule.
pub const MOST_BLOCKS: usize = MOST_RULES;

fn work(draft: Draft, message: Vec<u8>) -> Work {
    Work {
        words: draft.words(),
        literals: draft.literals,
        message,
    }
}

/// `unit` over and over, `length` bytes of it.
fn message_of(unit: &[u8], length: usize) -> Vec<u8> {
    unit.iter().copied().cycle().take(length).collect()
}

pub fn measured_runs() -> [(&'static str, Work); 5] {
    [
        ("(a) lift message, 30 bytes, attributes", lift()),
        ("(b) ('a' 'b' 'c')*, 65,535 bytes", repeat(LONGEST)),
        ("(c) calls 255 deep, over and over", deep(256, 4_200)),
        ("(d) constraints of 52 expression nodes", expressions()),
        ("(e) eight arms, seven fail late", choices(LONGEST)),
    ]
}

/// The table of examples/floor-direction-name and a message of 30 bytes.
pub fn lift() -> Work {
    Work {
        message: b"F12^Observation deck and cafe.".to_vec(),
        ..example()
    }
}

/// The same table and the example's own message, of 16 bytes.
pub fn example() -> Work {
    let input = include_bytes!("../../examples/floor-direction-name/up.console");
    let asked = asked(input).ok().expect("an example's lines are right");
    Work {
        words: asked.words,
        literals: asked.literals,
        message: asked.message,
    }
}

fn word(draft: &mut Draft, bytes: &[u8]) -> u16 {
    let first = draft.node(TERMINAL, &[bytes[0] as u16]);
    if bytes.len() == 1 {
        return first;
    }
    let rest = word(draft, &bytes[1..]);
    draft.node(SEQUENCE, &[first, rest])
}

/// ('a' 'b' 'c')*
pub fn repeat(length: usize) -> Work {
    let mut draft = Draft::default();
    let part = word(&mut draft, b"abc");
    let body = draft.node(REPEAT, &[part]);
    draft.rule(body, &[], &[]);
    work(draft, message_of(b"abc", length))
}

/// ('levela' / 'levelb' / .. / 'levelh')* on the last of them: seven arms fail at their sixth byte.
pub fn choices(length: usize) -> Work {
    let mut draft = Draft::default();
    let mut arms = word(&mut draft, b"levela");
    for last in b'b'..=b'h' {
        let arm = word(&mut draft, &[b"level".as_slice(), &[last]].concat());
        arms = draft.node(CHOICE, &[arms, arm]);
    }
    let body = draft.node(REPEAT, &[arms]);
    draft.rule(body, &[], &[]);
    work(draft, message_of(b"levelh", length))
}

/// r←0, (Inner(0) → r)*, where Inner(n) is '(' Inner(n+1) → r / ')' r←n; returns r.
/// Each unit of the message goes `depth` deep, or one or two less.
pub fn deep(depth: usize, length: usize) -> Work {
    let mut draft = Draft::default();
    let zero = draft.node(INTEGER, &[0, 0]);
    let first = draft.node(UPDATE, &[0, zero]);
    let zero = draft.node(INTEGER, &[0, 0]);
    let outer = draft.node(CALL, &[1, zero, 0, 0, 0, 0]);
    let rounds = draft.node(REPEAT, &[outer]);
    let start = draft.node(SEQUENCE, &[first, rounds]);
    let returned = draft.node(SLOT, &[0]);
    draft.rule(start, &[], &[(returned, INTEGER_TYPE)]);

    let open = draft.node(TERMINAL, &[b'(' as u16]);
    let level = draft.node(SLOT, &[0]);
    let one = draft.node(INTEGER, &[0, 1]);
    let next = draft.node(ADD, &[level, one]);
    let inner = draft.node(CALL, &[1, next, 0, 0, 0, 1]);
    let deeper = draft.node(SEQUENCE, &[open, inner]);
    let close = draft.node(TERMINAL, &[b')' as u16]);
    let level = draft.node(SLOT, &[0]);
    let keep = draft.node(UPDATE, &[1, level]);
    let bottom = draft.node(SEQUENCE, &[close, keep]);
    let body = draft.node(CHOICE, &[deeper, bottom]);
    let returned = draft.node(SLOT, &[1]);
    draft.rule(body, &[INTEGER_TYPE], &[(returned, INTEGER_TYPE)]);

    // The first Inner's body has depth 4, each further one 3 more, and the terminal at the bottom 2 more than its body.
    let mut unit = vec![b'('; (depth - 6) / 3];
    unit.push(b')');
    let units = length / unit.len();
    let length = units * unit.len();
    work(draft, message_of(&unit, length))
}

/// x←0, (?(c and c and c and c and !(x==1000)) x←x+1)*, where c is (x×3+7)÷2 > x-5; returns x.
pub fn expressions() -> Work {
    let mut draft = Draft::default();
    let zero = draft.node(INTEGER, &[0, 0]);
    let first = draft.node(UPDATE, &[0, zero]);
    let mut all = comparison(&mut draft);
    for _ in 0..3 {
        let next = comparison(&mut draft);
        all = draft.node(AND, &[all, next]);
    }
    let end = binary(&mut draft, EQUAL, 1000);
    let not_end = draft.node(LOGIC_NOT, &[end]);
    let all = draft.node(AND, &[all, not_end]);
    let guard = draft.node(CONSTRAINT, &[all]);
    let sum = binary(&mut draft, ADD, 1);
    let step = draft.node(UPDATE, &[0, sum]);
    let round = draft.node(SEQUENCE, &[guard, step]);
    let rounds = draft.node(REPEAT, &[round]);
    let body = draft.node(SEQUENCE, &[first, rounds]);
    let returned = draft.node(SLOT, &[0]);
    draft.rule(body, &[], &[(returned, INTEGER_TYPE)]);
    work(draft, Vec::new())
}

/// Slot 0 and a number.
fn binary(draft: &mut Draft, kind: u16, number: u16) -> u16 {
    let slot = draft.node(SLOT, &[0]);
    let number = draft.node(INTEGER, &[0, number]);
    draft.node(kind, &[slot, number])
}

fn comparison(draft: &mut Draft) -> u16 {
    let product = binary(draft, MULTIPLY, 3);
    let seven = draft.node(INTEGER, &[0, 7]);
    let sum = draft.node(ADD, &[product, seven]);
    let two = draft.node(INTEGER, &[0, 2]);
    let half = draft.node(DIVIDE, &[sum, two]);
    let less = binary(draft, SUBTRACT, 5);
    draft.node(GREATER, &[half, less])
}

/// A body that is empty.
pub fn smallest() -> Work {
    let mut draft = Draft::default();
    let body = draft.node(EMPTY, &[]);
    draft.rule(body, &[], &[]);
    work(draft, Vec::new())
}

/// `rules` rules of 16 nodes each, well typed: name = 'a', n←7, ?(n>3), word←"floor", the next rule → r; returns r.
pub fn blocks(rules: usize, literals: usize) -> Work {
    let mut draft = Draft {
        literals: message_of(b"floor", literals),
        ..Draft::default()
    };
    for rule in 0..rules {
        let terminal = draft.node(TERMINAL, &[b'a' as u16]);
        let bind = draft.node(BIND, &[0, terminal]);
        let seven = draft.node(INTEGER, &[0, 7]);
        let number = draft.node(UPDATE, &[1, seven]);
        let set = draft.node(SEQUENCE, &[bind, number]);
        let slot = draft.node(SLOT, &[1]);
        let three = draft.node(INTEGER, &[0, 3]);
        let greater = draft.node(GREATER, &[slot, three]);
        let guard = draft.node(CONSTRAINT, &[greater]);
        let guarded = draft.node(SEQUENCE, &[set, guard]);
        let text = draft.node(TEXT, &[0, 5]);
        let word = draft.node(UPDATE, &[2, text]);
        let next = (rule + 1) % rules;
        let call = draft.node(CALL, &[next as u16, 0, 0, 0, 0, 3]);
        let rest = draft.node(SEQUENCE, &[word, call]);
        let body = draft.node(SEQUENCE, &[guarded, rest]);
        let returned = draft.node(SLOT, &[3]);
        draft.rule(body, &[], &[(returned, INTEGER_TYPE)]);
    }
    work(draft, Vec::new())
}
