//! Listings, right and hurt in a byte or a line.

use super::prng::Random;

const HEADS: [&str; 28] = [
    "rules=0",
    "rules=65",
    "rules=64",
    "rules=",
    "rules=01",
    "nodes=0",
    "nodes=1025",
    "nodes=1024",
    "nodes=+1",
    "literals=0",
    "literals=0G",
    "literals=AB",
    "literals= ",
    "Rules=1",
    "literals=00",
    "mode=bench",
    "mode=Display",
    "mode=display",
    "budget=00",
    "budget=4294967296",
    "budget=",
    "budget=-1",
    "message=A0",
    "message=abc",
    "message=",
    "rule=",
    "node=",
    "",
];

/// Hurts a text of lines somewhere.
pub fn hurt(random: &mut Random, text: &mut Vec<u8>) {
    match random.below(5) {
        0 => hurt_byte(random, text),
        1 => hurt_line(random, text),
        2 => hurt_number(random, text),
        3 => hurt_head(random, text),
        _ => hurt_end(random, text),
    }
}

fn hurt_byte(random: &mut Random, text: &mut Vec<u8>) {
    let odd = [b' ', b'\n', b'\r', 0, b'+', b'-', b'0', b'=', b'A', 255];
    let byte = match random.below(3) {
        0 => random.byte(),
        1 => random.pick(b"0123456789abcdefg"),
        _ => random.pick(&odd),
    };
    let place = random.below(text.len());
    match random.below(3) {
        0 => text[place] = byte,
        1 => text.insert(place, byte),
        _ => {
            text.remove(place);
        }
    }
}

fn lines_of(text: &[u8]) -> Vec<Vec<u8>> {
    let lines = text.split_inclusive(|&byte| byte == 10);
    lines.map(<[u8]>::to_vec).collect()
}

/// Another value, mostly wrong, under the same name.
fn hurt_head(random: &mut Random, text: &mut Vec<u8>) {
    let mut lines = lines_of(text);
    let place = random.below(lines.len().min(6));
    let name_ends = lines[place].iter().position(|&byte| byte == b'=');
    let name = &lines[place][..name_ends.map_or(0, |place| place + 1)];
    let same: Vec<&str> = HEADS
        .into_iter()
        .filter(|head| head.as_bytes().starts_with(name))
        .collect();
    if name == b"literals=" && random.chance(300) {
        lines[place] = many_literals(random);
    } else if !same.is_empty() {
        lines[place] = format!("{}\n", random.pick(&same)).into_bytes();
    }
    *text = lines.concat();
}

fn many_literals(random: &mut Random) -> Vec<u8> {
    let digits = 2 * random.pick(&[4096, 4097]);
    format!("literals={}\n", "0".repeat(digits)).into_bytes()
}

fn hurt_line(random: &mut Random, text: &mut Vec<u8>) {
    let mut lines = lines_of(text);
    // The head lines are few among many, so they get a share of their own.
    let most = if random.chance(400) {
        lines.len().min(7)
    } else {
        lines.len()
    };
    let place = random.below(most);
    match random.below(7) {
        0 => {
            lines.remove(place);
        }
        1 => lines.insert(place, lines[place].clone()),
        2 => {
            let other = random.below(lines.len());
            lines.swap(place, other);
        }
        3 => before_end(&mut lines[place], b" "),
        4 => before_end(&mut lines[place], b"\r"),
        5 => lines.iter_mut().for_each(|line| capital_hex(line)),
        _ => lines[place] = format!("{}\n", random.pick(&HEADS)).into_bytes(),
    }
    *text = lines.concat();
}

fn before_end(line: &mut Vec<u8>, bytes: &[u8]) {
    let place = line.len().saturating_sub(1);
    line.splice(place..place, bytes.iter().copied());
}

fn capital_hex(line: &mut [u8]) {
    for name in ["literals=", "message="] {
        if line.starts_with(name.as_bytes()) {
            line[name.len()..].make_ascii_uppercase();
        }
    }
}

/// Hurts one of the numbers of some line.
fn hurt_number(random: &mut Random, text: &mut Vec<u8>) {
    let starts: Vec<usize> = (1..text.len())
        .filter(|&place| text[place].is_ascii_digit() && b"= ".contains(&text[place - 1]))
        .collect();
    if starts.is_empty() {
        return;
    }
    let start = random.pick(&starts);
    let digits = text[start..]
        .iter()
        .take_while(|byte| byte.is_ascii_digit());
    let end = start + digits.count();
    let old = text[start..end].to_vec();
    let new: Vec<u8> = match random.below(10) {
        0 => [b"0".as_slice(), &old].concat(),
        1 => [b"+".as_slice(), &old].concat(),
        2 => [b"-".as_slice(), &old].concat(),
        3 => b"65536".to_vec(),
        4 => b"65535".to_vec(),
        5 => [b" ".as_slice(), &old].concat(),
        6 => [&old, b" 0".as_slice()].concat(),
        7 => b"18446744073709551616".to_vec(),
        8 => b"4294967297".to_vec(),
        _ => Vec::new(),
    };
    text.splice(start..end, new);
}

fn hurt_end(random: &mut Random, text: &mut Vec<u8>) {
    match random.below(6) {
        0 => {
            text.pop();
        }
        1 => text.push(10),
        2 => text.push(random.byte()),
        3 => text.extend(b"node=1 0 0 0 0 0 0 0 0 0\n"),
        4 => text.push(0),
        _ => {
            let length = random.below(text.len() + 1);
            text.truncate(length);
        }
    }
}
