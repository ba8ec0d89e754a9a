//! "Words of a table": where each word stands and what a kind expects.
//!
//! Readings chosen here:
//! - A node of an unknown kind is of neither sort, so a word that names it is
//!   bad before its own kind word is.
//! - A call uses as many argument and receiving fields as its callee's n and m;
//!   the fields past them are not used and so hold 0.

pub const MOST_RULES: usize = 64;
pub const MOST_NODES: usize = 1024;
pub const MOST_LITERALS: usize = 4096;
pub const RULE_WORDS: usize = 15;
pub const NODE_WORDS: usize = 10;
pub const SLOTS: usize = 16;
pub const FOUR: usize = 4;

pub const EMPTY: u16 = 1;
pub const TERMINAL: u16 = 2;
pub const SEQUENCE: u16 = 3;
pub const CHOICE: u16 = 4;
pub const REPEAT: u16 = 5;
pub const NOT: u16 = 6;
pub const CALL: u16 = 7;
pub const BIND: u16 = 8;
pub const UPDATE: u16 = 9;
pub const CONSTRAINT: u16 = 10;
pub const BOOL: u16 = 16;
pub const INTEGER: u16 = 17;
pub const TEXT: u16 = 18;
pub const SLOT: u16 = 19;
pub const ADD: u16 = 20;
pub const SUBTRACT: u16 = 21;
pub const MULTIPLY: u16 = 22;
pub const DIVIDE: u16 = 23;
pub const EQUAL: u16 = 24;
pub const GREATER: u16 = 25;
pub const AND: u16 = 26;
pub const OR: u16 = 27;
pub const LOGIC_NOT: u16 = 28;

pub const BOOL_TYPE: u16 = 1;
pub const INTEGER_TYPE: u16 = 2;
pub const TEXT_TYPE: u16 = 3;

#[derive(Clone, Copy, Debug, PartialEq, Eq)]
pub enum Sort {
    Parsing,
    Expression,
}

/// What a kind expects in one field.
#[derive(Clone, Copy, Debug, PartialEq, Eq)]
pub enum Want {
    Zero,
    Byte,
    Bit,
    AnyWord,
    Slot,
    Part(Sort),
    Rule,
    Argument(usize),
    Receiver(usize),
    TextStart,
    TextLength,
}

pub fn sort_of_kind(kind: u16) -> Option<Sort> {
    match kind {
        EMPTY..=CONSTRAINT => Some(Sort::Parsing),
        BOOL..=LOGIC_NOT => Some(Sort::Expression),
        _ => None,
    }
}

pub fn is_binary(kind: u16) -> bool {
    (ADD..=OR).contains(&kind)
}

const PARSING: Want = Want::Part(Sort::Parsing);
const EXPRESSION: Want = Want::Part(Sort::Expression);
const OF_CALL: [Want; 9] = [
    Want::Rule,
    Want::Argument(0),
    Want::Argument(1),
    Want::Argument(2),
    Want::Argument(3),
    Want::Receiver(0),
    Want::Receiver(1),
    Want::Receiver(2),
    Want::Receiver(3),
];

/// The wants of the nine fields; the unnamed ones want 0.
pub fn wants(kind: u16) -> [Want; 9] {
    let named: &[Want] = match kind {
        TERMINAL => &[Want::Byte],
        SEQUENCE | CHOICE => &[PARSING, PARSING],
        REPEAT | NOT => &[PARSING],
        CALL => &OF_CALL,
        BIND => &[Want::Slot, PARSING],
        UPDATE => &[Want::Slot, EXPRESSION],
        CONSTRAINT | LOGIC_NOT => &[EXPRESSION],
        BOOL => &[Want::Bit],
        INTEGER => &[Want::AnyWord, Want::AnyWord],
        TEXT => &[Want::TextStart, Want::TextLength],
        SLOT => &[Want::Slot],
        _ if is_binary(kind) => &[EXPRESSION, EXPRESSION],
        _ => &[],
    };
    let mut all = [Want::Zero; 9];
    all[..named.len()].copy_from_slice(named);
    all
}

/// A table that passed SIZE.
#[derive(Clone, Copy)]
pub struct Table<'a> {
    pub words: &'a [u16],
    pub literals: &'a [u8],
}

impl Table<'_> {
    pub fn rules(&self) -> usize {
        self.words[0] as usize
    }

    pub fn nodes(&self) -> usize {
        self.words[1] as usize
    }

    pub fn rule_place(&self, rule: usize) -> usize {
        3 + RULE_WORDS * rule
    }

    pub fn node_place(&self, node: usize) -> usize {
        3 + RULE_WORDS * self.rules() + NODE_WORDS * node
    }

    pub fn rule_word(&self, rule: usize, word: usize) -> u16 {
        self.words[self.rule_place(rule) + word]
    }

    pub fn kind(&self, node: usize) -> u16 {
        self.words[self.node_place(node)]
    }

    /// Field a is 0, b is 1, and so on.
    pub fn field(&self, node: usize, field: usize) -> u16 {
        self.words[self.node_place(node) + 1 + field]
    }

    pub fn part(&self, node: usize, field: usize) -> usize {
        self.field(node, field) as usize
    }

    pub fn sort(&self, node: usize) -> Option<Sort> {
        sort_of_kind(self.kind(node))
    }

    pub fn body(&self, rule: usize) -> usize {
        self.rule_word(rule, 0) as usize
    }

    pub fn inherited(&self, rule: usize) -> usize {
        self.rule_word(rule, 1) as usize
    }

    pub fn inherited_type(&self, rule: usize, index: usize) -> u16 {
        self.rule_word(rule, 2 + index)
    }

    pub fn returned(&self, rule: usize) -> usize {
        self.rule_word(rule, 6) as usize
    }

    pub fn returned_node(&self, rule: usize, index: usize) -> usize {
        self.rule_word(rule, 7 + index) as usize
    }

    pub fn returned_type(&self, rule: usize, index: usize) -> u16 {
        self.rule_word(rule, 11 + index)
    }

    pub fn argument(&self, call: usize, index: usize) -> usize {
        self.part(call, 1 + index)
    }

    pub fn receiver(&self, call: usize, index: usize) -> usize {
        self.part(call, 5 + index)
    }
}
