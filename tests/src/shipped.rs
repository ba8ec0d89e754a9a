//! The shipped archive, called from C with docs/styrmflo.h: the program
//! tests/shipped/caller.c, which answers requests one after the other. On a
//! processor for which the archive isn't made it runs under an emulator. The
//! libraries for other targets are called in the same way (tests/targets.sh).

use crate::exported::{Exports, VERSION, WORK_WORDS};
use crate::numbers;
use crate::reference::console::MOST_WORDS;
use crate::reference::run::{Lent, MOST_MESSAGE};
use crate::reference::table::{FOUR, MOST_LITERALS, MOST_NODES, MOST_RULES};
use std::cell::RefCell;
use std::io::{Read, Write};
use std::process::{Child, ChildStdin, ChildStdout, Command, Stdio};

/// The numbers of caller.c's `enum`.
const HEADER: u32 = 0;
const CHECK: u32 = 1;
const TYPE_CHECK: u32 = 2;
const BENCH: u32 = 3;
const DISPLAY: u32 = 4;
const READ: u32 = 5;
const WRITE: u32 = 6;
const TEXT: u32 = 7;
const ASKED_VERSION: u32 = 8;

/// The longest listing: as many lines as there can be, each as long as it can
/// be, with 65535 for every number past the head.
const MOST_LISTING: usize = "rules=64\nnodes=1024\nliterals=\n".len()
    + 2 * MOST_LITERALS
    + MOST_RULES * ("rule=".len() + 15 * "65535 ".len())
    + MOST_NODES * ("node=".len() + 10 * "65535 ".len());

/// What the header states: caller.c's `stated`, in its order.
fn stated() -> Vec<(&'static str, u64)> {
    let sizes = [
        ("W", WORK_WORDS),
        ("the version", VERSION as usize),
        ("the most rules", MOST_RULES),
        ("the most nodes", MOST_NODES),
        ("the most words", MOST_WORDS),
        ("the most literals", MOST_LITERALS),
        ("the longest message", MOST_MESSAGE),
        ("the longest listing", MOST_LISTING),
        ("the record's words", 12),
        ("the answer's words", 4),
        ("how many values", FOUR),
    ];
    let sizes = sizes.map(|(name, size)| (name, size as u64));
    let numbers = numbers::ALL.iter();
    let numbers = numbers.filter(|(number, _)| *number != numbers::INPUT);
    let numbers = numbers.map(|&(number, name)| (name, u64::from(number)));
    let places = [0, 1, 2, 3, 4, 5, 10, 11].map(|place| ("a place in the record", place));
    let tags = [0, 1, 2, 3, 4].map(|tag| ("a tag", tag));
    let answers = [0, 1, 2, 3, 0, 1, 2, 3].map(|place| ("a place in an answer", place));
    let all = sizes.into_iter().chain(numbers).chain(places);
    all.chain(tags).chain(answers).collect()
}

/// As caller.c's `struct request`, in its order.
#[derive(Default)]
struct Request {
    asked: u32,
    words: usize,
    literals: usize,
    bytes: usize,
    work: usize,
    answer: usize,
    budget: u32,
    tag: u32,
    payload: u32,
}

impl Request {
    fn bytes(&self) -> Vec<u8> {
        let counts = [
            self.words,
            self.literals,
            self.bytes,
            self.work,
            self.answer,
        ];
        let counts = counts.map(|count| u32::try_from(count).expect("a count of 32 bits"));
        let numbers =
            [self.asked]
                .into_iter()
                .chain(counts)
                .chain([self.budget, self.tag, self.payload]);
        numbers.flat_map(u32::to_le_bytes).collect()
    }
}

pub struct Shipped {
    pipes: RefCell<Pipes>,
    /// What the header states, W first.
    header: Vec<u64>,
}

struct Pipes {
    child: Child,
    requests: ChildStdin,
    answers: ChildStdout,
}

/// A number as it lies in memory.
trait Number: Copy {
    fn out(self) -> Vec<u8>;
    fn of(bytes: &[u8]) -> Self;
}

macro_rules! number {
    ($($width:ty)*) => { $(
        impl Number for $width {
            fn out(self) -> Vec<u8> {
                self.to_le_bytes().to_vec()
            }
            fn of(bytes: &[u8]) -> $width {
                <$width>::from_le_bytes(bytes.try_into().expect("its bytes"))
            }
        }
    )* };
}

number!(u8 u16 u32 u64);

impl Pipes {
    /// The request and the slices that it lends, in one go.
    fn ask(&mut self, request: &Request, lent: &[Vec<u8>]) {
        let whole = [request.bytes(), lent.concat()].concat();
        let sent = self.requests.write_all(&whole);
        self.expect(sent);
    }

    fn fill<N: Number>(&mut self, slice: &mut [N]) {
        let mut bytes = vec![0; std::mem::size_of_val(slice)];
        let came = self.answers.read_exact(&mut bytes);
        self.expect(came);
        let each = bytes.chunks_exact(std::mem::size_of::<N>());
        slice
            .iter_mut()
            .zip(each)
            .for_each(|(number, bytes)| *number = N::of(bytes));
    }

    fn word(&mut self) -> u64 {
        let mut word = [0];
        self.fill(&mut word);
        word[0]
    }

    fn expect(&mut self, went: std::io::Result<()>) {
        if let Err(error) = went {
            let status = self.child.try_wait();
            panic!("the caller of the shipped archive: {error}, {status:?}");
        }
    }
}

fn out<N: Number>(slice: &[N]) -> Vec<u8> {
    slice.iter().flat_map(|number| number.out()).collect()
}

impl Shipped {
    /// `command` has a word a line, as tests/shipped.sh prints it.
    pub fn new(command: &str) -> Shipped {
        let words: Vec<&str> = command.lines().collect();
        let mut child = Command::new(words[0])
            .args(&words[1..])
            .stdin(Stdio::piped())
            .stdout(Stdio::piped())
            .spawn()
            .expect("the caller of the shipped archive");
        let mut pipes = Pipes {
            requests: child.stdin.take().expect("a pipe"),
            answers: child.stdout.take().expect("a pipe"),
            child,
        };
        let request = Request {
            asked: HEADER,
            ..Request::default()
        };
        pipes.ask(&request, &[]);
        let mut header = vec![0; pipes.word() as usize];
        pipes.fill(&mut header);
        Shipped {
            pipes: RefCell::new(pipes),
            header,
        }
    }

    /// Whether the header that the caller was compiled with states what it must.
    pub fn header_is_right(&self) -> Result<(), String> {
        let wanted = stated();
        if self.header.len() != wanted.len() {
            return Err("the header: other numbers than are asked".to_string());
        }
        let both = self.header.iter().zip(wanted);
        let wrong = both
            .into_iter()
            .find(|(given, (_, wanted))| *given != wanted);
        match wrong {
            Some((given, (name, wanted))) => Err(format!("{name}: {given}, not {wanted}")),
            None => Ok(()),
        }
    }

    fn verdict(&self, asked: u32, words: &[u16], literals: &[u8]) -> u32 {
        let request = Request {
            asked,
            words: words.len(),
            literals: literals.len(),
            ..Request::default()
        };
        let mut pipes = self.pipes.borrow_mut();
        pipes.ask(&request, &[out(words), out(literals)]);
        u32::try_from(pipes.word()).expect("a verdict")
    }
}

impl Exports for Shipped {
    fn work_words(&self) -> usize {
        self.header[0] as usize
    }

    fn version(&self) -> u32 {
        let request = Request {
            asked: ASKED_VERSION,
            ..Request::default()
        };
        let mut pipes = self.pipes.borrow_mut();
        pipes.ask(&request, &[]);
        u32::try_from(pipes.word()).expect("a version")
    }

    fn check(&self, words: &[u16], literals: &[u8]) -> u32 {
        self.verdict(CHECK, words, literals)
    }

    fn type_check(&self, words: &[u16], literals: &[u8]) -> u32 {
        self.verdict(TYPE_CHECK, words, literals)
    }

    fn run_into(&self, lent: &Lent, work: &mut [u32], twelve: &mut [u32]) {
        let request = Request {
            asked: if lent.display { DISPLAY } else { BENCH },
            words: lent.words.len(),
            literals: lent.literals.len(),
            bytes: lent.message.len(),
            work: work.len(),
            answer: twelve.len(),
            budget: lent.budget,
            ..Request::default()
        };
        let lent = [
            out(lent.words),
            out(lent.literals),
            out(lent.message),
            out(work),
            out(twelve),
        ];
        let mut pipes = self.pipes.borrow_mut();
        pipes.ask(&request, &lent);
        pipes.fill(work);
        pipes.fill(twelve);
    }

    fn read_into(&self, text: &[u8], words: &mut [u16], literals: &mut [u8], answer: &mut [u64]) {
        let request = Request {
            asked: READ,
            words: words.len(),
            literals: literals.len(),
            bytes: text.len(),
            answer: answer.len(),
            ..Request::default()
        };
        let lent = [out(words), out(literals), out(text), out(answer)];
        let mut pipes = self.pipes.borrow_mut();
        pipes.ask(&request, &lent);
        pipes.fill(words);
        pipes.fill(literals);
        pipes.fill(answer);
    }

    fn write_into(&self, words: &[u16], literals: &[u8], text: &mut [u8], answer: &mut [u64]) {
        let request = Request {
            asked: WRITE,
            words: words.len(),
            literals: literals.len(),
            bytes: text.len(),
            answer: answer.len(),
            ..Request::default()
        };
        let lent = [out(words), out(literals), out(text), out(answer)];
        let mut pipes = self.pipes.borrow_mut();
        pipes.ask(&request, &lent);
        pipes.fill(text);
        pipes.fill(answer);
    }

    fn text_word(&self, message: usize, literals: usize, tag: u32, payload: u32) -> u64 {
        let request = Request {
            asked: TEXT,
            literals,
            bytes: message,
            tag,
            payload,
            ..Request::default()
        };
        let mut pipes = self.pipes.borrow_mut();
        pipes.ask(&request, &[]);
        pipes.word()
    }
}
