//! The small pieces that case files are made of.

/// The line before a `#` that doesn't stand between quotes.
pub fn without_comment(line: &str) -> &str {
    let mut quoted = false;
    for (index, letter) in line.char_indices() {
        match letter {
            '"' => quoted = !quoted,
            '#' if !quoted => return &line[..index],
            _ => {}
        }
    }
    line
}

pub fn first_word(text: &str) -> (&str, &str) {
    match text.split_once(' ') {
        Some((word, rest)) => (word, rest.trim()),
        None => (text, ""),
    }
}

pub fn number<T: std::str::FromStr>(text: &str) -> Result<T, String> {
    text.trim()
        .parse()
        .map_err(|_| format!("{text:?} isn't a number that fits"))
}

/// `"text"`, `hex 00ff`, `12 times "text"` or `counted 4096`: 0, 1, 2 .. 255, 0 ..
pub fn bytes(text: &str) -> Result<Vec<u8>, String> {
    if let Some((count, rest)) = text.split_once(" times ") {
        return Ok(bytes(rest)?.repeat(number(count)?));
    }
    if let Some(pairs) = text.strip_prefix("hex ") {
        let read = crate::reference::listing::hex(pairs.as_bytes());
        return read.ok_or(format!("{pairs:?} isn't hex"));
    }
    if let Some(count) = text.strip_prefix("counted ") {
        return Ok((0..number(count)?)
            .map(|index: usize| index as u8)
            .collect());
    }
    let inside = text
        .strip_prefix('"')
        .and_then(|text| text.strip_suffix('"'));
    let inside = inside.ok_or(format!("{text:?} isn't bytes"))?;
    Ok(inside.as_bytes().to_vec())
}

/// The other way round, for an answer: long ones by their length.
pub fn shown(bytes: &[u8]) -> String {
    if bytes.len() > 40 {
        return format!("{} bytes", bytes.len());
    }
    let printable = |&byte: &u8| (32..127).contains(&byte) && byte != b'"';
    if bytes.iter().all(printable) {
        return format!("\"{}\"", String::from_utf8_lossy(bytes));
    }
    format!("hex {}", crate::reference::listing::hex_of(bytes))
}
