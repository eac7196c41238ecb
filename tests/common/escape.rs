//! Sources as one line of printable text.
//!
//! Bytes 32 to 126 other than `\` stand for themselves; the rest is `\\`, `\t`, `\n`, `\r`, `\xHH`, and
//! `\{N:TEXT}` for N times TEXT. A `#` that starts the line and a `}` inside TEXT are written by `\xHH`.

const LONGEST_PERIOD: usize = 32;
/// A run that is shorter stays as it is, since it is easier to read.
const SHORTEST_RUN: usize = 40;
const FEWEST_COPIES: usize = 4;

pub fn escape(source: &[u8]) -> String {
    let mut text = String::new();
    let mut at = 0;
    while at < source.len() {
        let (period, copies) = longest_run(&source[at..]);
        if copies > 1 {
            text.push_str(&format!("\\{{{copies}:"));
            for &byte in &source[at..at + period] {
                push_byte(&mut text, byte, byte == b'}');
            }
            text.push('}');
        } else {
            push_byte(&mut text, source[at], at == 0 && source[at] == b'#');
        }
        at += period * copies;
    }
    text
}

/// The period and the number of copies of the run that `rest` starts with; (1, 1) without one.
fn longest_run(rest: &[u8]) -> (usize, usize) {
    let mut best = (1, 1);
    for period in 1..=LONGEST_PERIOD.min(rest.len()) {
        let unit = &rest[..period];
        let copies = rest.chunks_exact(period).take_while(|chunk| *chunk == unit).count();
        let long_enough = period * copies >= SHORTEST_RUN && copies >= FEWEST_COPIES;
        if long_enough && period * copies > best.0 * best.1 {
            best = (period, copies);
        }
    }
    best
}

fn push_byte(text: &mut String, byte: u8, as_number: bool) {
    match byte {
        b'\\' => text.push_str("\\\\"),
        b'\t' => text.push_str("\\t"),
        b'\n' => text.push_str("\\n"),
        b'\r' => text.push_str("\\r"),
        32..=126 if !as_number => text.push(char::from(byte)),
        _ => text.push_str(&format!("\\x{byte:02x}")),
    }
}

pub fn unescape(text: &str) -> Result<Vec<u8>, String> {
    let mut source = Vec::new();
    let mut rest = text.as_bytes();
    while !rest.is_empty() {
        rest = match rest.strip_prefix(b"\\{") {
            Some(run) => unescape_run(run, &mut source)?,
            None => unescape_byte(rest, &mut source)?,
        };
    }
    Ok(source)
}

/// Takes `N:TEXT}`, appends N times TEXT, and gives what follows.
fn unescape_run<'a>(run: &'a [u8], source: &mut Vec<u8>) -> Result<&'a [u8], String> {
    let colon = run.iter().position(|byte| *byte == b':').ok_or("a run without ':'")?;
    let digits = String::from_utf8_lossy(&run[..colon]);
    let copies: usize = digits.parse().map_err(|_| format!("'{digits}' copies"))?;
    let mut unit = Vec::new();
    let mut rest = &run[colon + 1..];
    while !rest.starts_with(b"}") {
        rest = unescape_byte(rest, &mut unit)?;
    }
    source.extend(unit.repeat(copies));
    Ok(&rest[1..])
}

/// Takes one byte's spelling, appends the byte, and gives what follows.
fn unescape_byte<'a>(rest: &'a [u8], source: &mut Vec<u8>) -> Result<&'a [u8], String> {
    let (byte, length) = match rest {
        [b'\\', b'\\', ..] => (b'\\', 2),
        [b'\\', b't', ..] => (b'\t', 2),
        [b'\\', b'n', ..] => (b'\n', 2),
        [b'\\', b'r', ..] => (b'\r', 2),
        [b'\\', b'x', high, low, ..] => (hex(*high)? * 16 + hex(*low)?, 4),
        [byte @ 32..=126, ..] if *byte != b'\\' => (*byte, 1),
        _ => return Err(format!("no byte is spelt {:?}", String::from_utf8_lossy(rest))),
    };
    source.push(byte);
    Ok(&rest[length..])
}

fn hex(digit: u8) -> Result<u8, String> {
    char::from(digit)
        .to_digit(16)
        .map(|value| value as u8)
        .ok_or_else(|| format!("byte {digit} is no hexadecimal digit"))
}
