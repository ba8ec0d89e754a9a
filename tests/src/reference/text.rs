//! "its bytes are handed out as a part of the message or of the literals".
//!
//! Readings chosen here:
//! - A part fits when its end is at most the slice's length; an empty part
//!   that fits is handed out where it stands, also at the very end.

use crate::subject::{Home, Span, Value};

pub fn text_bytes(message: &[u8], literals: &[u8], value: Value) -> Span {
    let nothing = Span {
        home: Home::Message,
        start: 0,
        length: 0,
    };
    let Value::Text(span) = value else {
        return nothing;
    };
    let end = span.start as u64 + span.length as u64;
    if end <= slice_of(message, literals, span.home).len() as u64 {
        span
    } else {
        nothing
    }
}

pub fn bytes_at<'a>(message: &'a [u8], literals: &'a [u8], span: Span) -> &'a [u8] {
    let start = span.start as usize;
    &slice_of(message, literals, span.home)[start..start + span.length as usize]
}

fn slice_of<'a>(message: &'a [u8], literals: &'a [u8], home: Home) -> &'a [u8] {
    match home {
        Home::Message => message,
        Home::Literals => literals,
    }
}
