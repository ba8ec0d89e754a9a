//! Texts shorter by some bytes or some lines.

use super::shrink::Smaller;

/// Without a half, a quarter and so on, down to without one byte.
pub fn shorter(text: &[u8]) -> Smaller<'_, Vec<u8>> {
    let sizes = std::iter::successors(Some(text.len()), |size| Some(size / 2));
    let sizes = sizes.take_while(|&size| size > 0 && text.len() / size <= 400);
    Box::new(sizes.flat_map(move |size| {
        let starts = (0..text.len()).step_by(size);
        starts.map(move |start| {
            let end = (start + size).min(text.len());
            [&text[..start], &text[end..]].concat()
        })
    }))
}

/// Without some of the rule or node lines, their count lowered.
pub fn fewer_lines(text: &[u8]) -> Vec<Vec<u8>> {
    let lines: Vec<&[u8]> = text.split_inclusive(|&byte| byte == 10).collect();
    let mut all = Vec::new();
    for (head, name) in [("nodes=", "node="), ("rules=", "rule=")] {
        let of_name = lines
            .iter()
            .filter(|line| line.starts_with(name.as_bytes()));
        let count = of_name.count();
        for fewer in [count / 2, count / 4, 1] {
            if fewer > 0 && fewer < count {
                let now = format!("{head}{}\n", count - fewer);
                all.push(without_lines(&lines, name, fewer, head, &now));
            }
        }
    }
    all
}

fn without_lines(lines: &[&[u8]], name: &str, fewer: usize, head: &str, now: &str) -> Vec<u8> {
    let mut left = fewer;
    let mut other = Vec::new();
    for line in lines {
        if left > 0 && line.starts_with(name.as_bytes()) {
            left -= 1;
        } else if line.starts_with(head.as_bytes()) {
            other.extend(now.bytes());
        } else {
            other.extend(*line);
        }
    }
    other
}
