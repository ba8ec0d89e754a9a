// display LISTING MESSAGE [BUDGET]: all that firmware does with a table and a message, to begin with and to copy from. display.c is the same in C.
// LISTING is a file that holds a listing; MESSAGE is lower-case hex pairs, or @FILE for the bytes of a file; BUDGET is how many visits the run may make, 100000 if it
// isn't given. Prints the answer in words, and the values. Ends with 0 if the answer is DONE and is shown, with 1 if not, and with 2 if nothing could be run or written.
use std::ffi::{OsStr, OsString};
use std::fs::File;
use std::io::{Read, Write};
use std::process::ExitCode;

/// The reader behind safe functions: a slice knows its length, so pointer and count belong together; what is written is borrowed alone, so it overlaps nothing.
mod reader {
    pub const VERSION: u32 = 1;
    pub const MOST_WORDS: usize = 11203;
    pub const MOST_LITERALS: usize = 4096;
    pub const MOST_MESSAGE: usize = 65535;
    pub const MOST_LISTING: usize = 80862;
    pub const WORK_WORDS: usize = 9760;

    /// As styrmflo.h declares them. Counts have 64 bits on every processor: `u64`, not `usize`.
    mod c {
        extern "C" {
            pub fn styrmflo_version() -> u32;
            pub fn styrmflo_type_check(
                words: *const u16,
                words_count: u64,
                literals: *const u8,
                literals_count: u64,
            ) -> u32;
            pub fn styrmflo_display(
                words: *const u16,
                words_count: u64,
                literals: *const u8,
                literals_count: u64,
                message: *const u8,
                message_count: u64,
                budget: u32,
                work: *mut u32,
                work_count: u64,
                record: *mut u32,
                record_count: u64,
            );
            pub fn styrmflo_read(
                text: *const u8,
                text_count: u64,
                words: *mut u16,
                words_count: u64,
                literals: *mut u8,
                literals_count: u64,
                answer: *mut u64,
                answer_count: u64,
            );
            pub fn styrmflo_text(
                message_count: u64,
                literals_count: u64,
                tag: u32,
                payload: u32,
            ) -> u64;
        }
    }

    pub fn version() -> u32 {
        // SAFETY: it takes nothing and touches nothing.
        unsafe { c::styrmflo_version() }
    }

    /// 65536 times the answer's number, and its place; 0 if the table passes.
    pub fn type_check(words: &[u16], literals: &[u8]) -> u32 {
        // SAFETY: pointers and counts are those of slices, which are only read.
        unsafe {
            c::styrmflo_type_check(
                words.as_ptr(),
                words.len() as u64,
                literals.as_ptr(),
                literals.len() as u64,
            )
        }
    }

    /// Number, place, consumed, visits, then tag and payload of each of the four values.
    pub fn display(
        words: &[u16],
        literals: &[u8],
        message: &[u8],
        budget: u32,
        work: &mut [u32],
    ) -> [u32; 12] {
        let mut record = [0; 12];
        // SAFETY: pointers and counts are those of slices; what is written is borrowed alone.
        unsafe {
            c::styrmflo_display(
                words.as_ptr(),
                words.len() as u64,
                literals.as_ptr(),
                literals.len() as u64,
                message.as_ptr(),
                message.len() as u64,
                budget,
                work.as_mut_ptr(),
                work.len() as u64,
                record.as_mut_ptr(),
                12,
            );
        }
        record
    }

    /// Number, line, words filled, literals filled.
    pub fn read(text: &[u8], words: &mut [u16], literals: &mut [u8]) -> [u64; 4] {
        let mut answer = [0; 4];
        // SAFETY: as in display.
        unsafe {
            c::styrmflo_read(
                text.as_ptr(),
                text.len() as u64,
                words.as_mut_ptr(),
                words.len() as u64,
                literals.as_mut_ptr(),
                literals.len() as u64,
                answer.as_mut_ptr(),
                4,
            );
        }
        answer
    }

    /// Where a Text's bytes stand: whether in the literals, else in the message; from which byte on; and how many.
    pub fn text(message: &[u8], literals: &[u8], tag: u32, payload: u32) -> (bool, usize, usize) {
        // SAFETY: it takes numbers alone.
        let place =
            unsafe { c::styrmflo_text(message.len() as u64, literals.len() as u64, tag, payload) };
        (
            place >> 32 & 1 != 0,
            (place >> 16 & 0xffff) as usize,
            (place & 0xffff) as usize,
        )
    }
}

/// What firmware does with an answer. A display shows nothing rather than a guess: values are shown for DONE alone.
#[derive(Clone, Copy, PartialEq)]
enum Action {
    Show,
    Ignore,
    Log,
    Refuse,
}

/// What an answer's number means: its name, its text, and what is done. A number that has no row, of 32 bits or of 64, comes to the last line and never to another's. After
/// a passed check no run answers SIZE to TYPE, nor STUCK, and with these sizes none answers WORK or ROOM: firmware handles them all the same, since memory can fail.
fn meaning_of(number: u64) -> (&'static str, &'static str, Action) {
    match number {
        0 => ("DONE", "the message matches", Action::Show),
        1 => (
            "SIZE",
            "counts and lengths of the table don't fit together",
            Action::Refuse,
        ),
        2 => (
            "FIELD",
            "this word of the table breaks the rules for its record",
            Action::Refuse,
        ),
        3 => ("USE", "this node is not used exactly once", Action::Refuse),
        4 => ("START", "rule 0 inherits something", Action::Refuse),
        5 => ("TYPE", "this rule breaks the type rules", Action::Refuse),
        6 => ("LONG", "the message is over 65535 bytes", Action::Log),
        7 => ("WORK", "the work area is too short", Action::Log),
        8 => (
            "NOMATCH",
            "the message is none of this table's",
            Action::Ignore,
        ),
        9 => ("BUDGET", "no visit was left at this node", Action::Log),
        10 => (
            "DEEP",
            "a visit of this node was due at depth 257",
            Action::Log,
        ),
        11 => (
            "STUCK",
            "this node came to a name with no value, or to a wrong type",
            Action::Log,
        ),
        12 => (
            "FAULT",
            "32-bit overflow or a zero divisor at this node",
            Action::Log,
        ),
        20 => (
            "LINE",
            "this line of the listing is wrong or missing",
            Action::Refuse,
        ),
        21 => (
            "ROOM",
            "the slices for words and literals are too short",
            Action::Log,
        ),
        22 => ("OUT", "the slice for the text is too short", Action::Log),
        _ => (
            "(no row)",
            "header and archive don't belong together, or memory failed",
            Action::Refuse,
        ),
    }
}

/// The answer in words, and what is done with it.
fn say_answer(said: &mut String, number: u64, place: u64) -> Action {
    let (name, text, action) = meaning_of(number);
    *said += &format!("answer {number} {name}, place {place}: {text}\n");
    *said += match action {
        Action::Show => "",
        Action::Ignore => "nothing is shown: the message is ignored\n",
        Action::Log => "nothing is shown: number and place go to the log\n",
        Action::Refuse => "nothing is shown: number and place go to the log, and no message is given to this table\n",
    };
    action
}

/// A value as the display has it. A Text borrows its bytes from the message or from the literals: they are never copied, and both stay borrowed until it is shown.
enum Value<'a> {
    Absent,
    Bool(bool),
    Integer(i32),
    Text(&'a [u8], &'static str, usize),
}

/// None for a value that this program can't show: a tag that has no row, or a Bool that is neither 0 nor 1.
fn value_of<'a>(
    message: &'a [u8],
    literals: &'a [u8],
    tag: u32,
    payload: u32,
) -> Option<Value<'a>> {
    match (tag, payload) {
        (0, _) => Some(Value::Absent),
        (1, 0 | 1) => Some(Value::Bool(payload == 1)),
        (2, _) => Some(Value::Integer(payload as i32)),
        (3 | 4, _) => {
            let (literal, start, length) = reader::text(message, literals, tag, payload);
            let (bytes, of) = if literal {
                (literals, "literals")
            } else {
                (message, "message")
            };
            Some(Value::Text(bytes.get(start..start + length)?, of, start))
        }
        _ => None,
    }
}

fn say_value(said: &mut String, value: &Value) {
    match value {
        Value::Absent => *said += "absent\n",
        Value::Bool(truth) => *said += &format!("Bool {truth}\n"),
        Value::Integer(number) => *said += &format!("Integer {number}\n"),
        Value::Text(bytes, of, start) => {
            *said += "Text \"";
            for &byte in *bytes {
                match byte {
                    b'"' | b'\\' => *said += &format!("\\x{byte:02x}"),
                    0x20..=0x7e => said.push(char::from(byte)),
                    _ => *said += &format!("\\x{byte:02x}"),
                }
            }
            *said += &format!("\", in the {of} from byte {start}\n");
        }
    }
}

/// The four values in words. Where one of them has no row nothing is shown, not even the others: what came is not what this program was written for.
fn say_values(said: &mut String, message: &[u8], literals: &[u8], record: &[u32; 12]) -> bool {
    let mut all = Vec::new();
    for (i, pair) in record[4..].chunks(2).enumerate() {
        let (tag, payload) = (pair[0], pair[1]);
        let Some(value) = value_of(message, literals, tag, payload) else {
            *said += &format!("nothing is shown: value {i} has tag {tag} and payload {payload}, for which there is no row; both go to the log\n");
            return false;
        };
        all.push(value);
    }
    for (i, value) in all.iter().enumerate() {
        *said += &format!("value {i}: ");
        say_value(said, value);
    }
    true
}

/// At most `most` bytes of a file.
fn take_file(path: &OsStr, most: usize) -> Result<Vec<u8>, String> {
    let mut bytes = Vec::new();
    let file = File::open(path).and_then(|file| file.take(most as u64).read_to_end(&mut bytes));
    file.map(|_| bytes)
        .map_err(|_| format!("cannot read {}", path.to_string_lossy()))
}

fn digit_of(c: u8) -> Option<u8> {
    match c {
        b'0'..=b'9' => Some(c - b'0'),
        b'a'..=b'f' => Some(c - b'a' + 10),
        _ => None,
    }
}

/// The message: a file's bytes, or hex pairs. Here it comes from the command line; in a lift it is what the controller sent. One byte more than the longest is kept: by it
/// the reader sees that a longer one is too long.
fn take_message(text: &OsStr) -> Result<Vec<u8>, String> {
    let wrong = || "the message is lower-case hex pairs, or @FILE".to_string();
    let text = text.to_str().ok_or_else(wrong)?;
    if let Some(path) = text.strip_prefix('@') {
        return take_file(OsStr::new(path), reader::MOST_MESSAGE + 1);
    }
    let pair = |pair: &[u8]| Some(16 * digit_of(pair[0])? + digit_of(*pair.get(1)?)?);
    let mut bytes = text
        .as_bytes()
        .chunks(2)
        .map(pair)
        .collect::<Option<Vec<u8>>>()
        .ok_or_else(wrong)?;
    bytes.truncate(reader::MOST_MESSAGE + 1);
    Ok(bytes)
}

/// A decimal up to 4294967295, without a leading zero.
fn take_budget(text: &OsStr) -> Result<u32, String> {
    let decimal = |text: &&str| {
        text.bytes().all(|c| c.is_ascii_digit()) && (*text == "0" || !text.starts_with('0'))
    };
    let budget = text
        .to_str()
        .filter(decimal)
        .and_then(|text| text.parse().ok());
    budget.ok_or_else(|| {
        "the budget is a decimal from 0 to 4294967295, without a leading zero".to_string()
    })
}

struct Table {
    words: Vec<u16>,
    literals: Vec<u8>,
}

/// A listing becomes the table, and is type-checked once. This is what is done when a table is fitted.
fn fit(said: &mut String, listing: &[u8]) -> Option<Table> {
    let mut table = Table {
        words: vec![0; reader::MOST_WORDS],
        literals: vec![0; reader::MOST_LITERALS],
    };
    let [number, line, words, literals] =
        reader::read(listing, &mut table.words, &mut table.literals);
    if number != 0 {
        say_answer(said, number, line);
        return None;
    }
    table.words.truncate(words as usize);
    table.literals.truncate(literals as usize);
    let verdict = reader::type_check(&table.words, &table.literals);
    if verdict != 0 {
        say_answer(said, u64::from(verdict >> 16), u64::from(verdict & 0xffff));
        return None;
    }
    *said +=
        &format!("table of {words} words and {literals} literal bytes: passes the type check\n");
    Some(table)
}

/// The table's answer to the message. DONE may leave a rest of the message; whether that is a mistake, the maker's protocol says: here it is told.
fn show(said: &mut String, table: &Table, message: &[u8], budget: u32) -> bool {
    let mut work = vec![0; reader::WORK_WORDS];
    let record = reader::display(&table.words, &table.literals, message, budget, &mut work);
    let [number, place, consumed, visits, ..] = record;
    if say_answer(said, u64::from(number), u64::from(place)) != Action::Show {
        *said += &format!("visits {visits}\n");
        return false;
    }
    *said += &format!(
        "visits {visits}, consumed {consumed} of {} bytes\n",
        message.len()
    );
    if (consumed as usize) < message.len() {
        *said += &format!("a rest is left, from byte {consumed}\n");
    }
    say_values(said, message, &table.literals, &record)
}

/// Whether a message's values are shown; Err is why nothing was run.
fn run(said: &mut String, arguments: &[OsString]) -> Result<bool, String> {
    if reader::version() != reader::VERSION {
        return Err(format!(
            "the header is version {}, the archive {}",
            reader::VERSION,
            reader::version()
        ));
    }
    // a byte more than the longest listing, by which the reader sees that a longer one is none
    let listing = take_file(&arguments[1], reader::MOST_LISTING + 1)?;
    let message = take_message(&arguments[2])?;
    let budget = arguments
        .get(3)
        .map_or(Ok(100000), |text| take_budget(text))?;
    Ok(fit(said, &listing).is_some_and(|table| show(said, &table, &message, budget)))
}

fn main() -> ExitCode {
    let arguments: Vec<OsString> = std::env::args_os().collect();
    if arguments.len() < 3 || arguments.len() > 4 {
        eprintln!("display LISTING MESSAGE [BUDGET]: MESSAGE is lower-case hex pairs, or @FILE");
        return ExitCode::from(2);
    }
    let mut said = String::new();
    let shown = match run(&mut said, &arguments) {
        Ok(shown) => shown,
        Err(why) => {
            eprintln!("display: {why}");
            return ExitCode::from(2);
        }
    };
    let mut out = std::io::stdout();
    if out
        .write_all(said.as_bytes())
        .and_then(|()| out.flush())
        .is_err()
    {
        eprintln!("display: the answer could not be written");
        return ExitCode::from(2);
    }
    ExitCode::from(u8::from(!shown))
}
