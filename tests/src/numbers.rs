//! "Numbers that come back", in document 01's order.

pub const DONE: u32 = 0;
pub const SIZE: u32 = 1;
pub const FIELD: u32 = 2;
pub const USE: u32 = 3;
pub const START: u32 = 4;
pub const TYPE: u32 = 5;
pub const LONG: u32 = 6;
pub const WORK: u32 = 7;
pub const NOMATCH: u32 = 8;
pub const BUDGET: u32 = 9;
pub const DEEP: u32 = 10;
pub const STUCK: u32 = 11;
pub const FAULT: u32 = 12;
pub const LINE: u32 = 20;
pub const ROOM: u32 = 21;
pub const OUT: u32 = 22;
pub const INPUT: u32 = 23;

pub const ALL: [(u32, &str); 17] = [
    (DONE, "DONE"),
    (SIZE, "SIZE"),
    (FIELD, "FIELD"),
    (USE, "USE"),
    (START, "START"),
    (TYPE, "TYPE"),
    (LONG, "LONG"),
    (WORK, "WORK"),
    (NOMATCH, "NOMATCH"),
    (BUDGET, "BUDGET"),
    (DEEP, "DEEP"),
    (STUCK, "STUCK"),
    (FAULT, "FAULT"),
    (LINE, "LINE"),
    (ROOM, "ROOM"),
    (OUT, "OUT"),
    (INPUT, "INPUT"),
];

/// "A run (0, 8 to 12)".
pub fn is_run(number: u32) -> bool {
    number == DONE || (NOMATCH..=FAULT).contains(&number)
}
