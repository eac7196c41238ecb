//! Core text printed and read from document 02 alone, in the place of the Rattle library: to try the tests before it
//! exists, and to see them fail by the mistakes of `common::fault`.
mod printing;
mod reading;
mod tokens;

use super::station::Reader;
use crate::faults;
use crate::loading::mock::{load, report};
use crate::loading::station;
use crate::loading::tables::{RECORD, ROW, Tables, WORK};
use common::fault::{fault, is};
use common::refusal::Refusal;
use printing::{Module, Numerals};
use reading::Read;

/// "from a source, write its core text"; "printing refuses only after a complete load".
pub fn print(source: &[u8], mut lent: Tables<&mut [u32]>, text: &mut [u8], answer: &mut [u64; 3]) -> u8 {
    let mut told = [0; 3];
    let class = load(station::Reader::Frames, source, lent.each_mut().map(|words| &mut **words), &mut told);
    let offset = (told[0] == 1).then_some(told[1] as usize);
    let loaded = if class == 0 { Ok(told[2] as usize) } else { Err(Refusal { class, offset }) };
    let outcome = match fault() {
        "fourteen-before-loading" if text.len() < printing::LEAST => Err(Refusal::nowhere(14)),
        _ => loaded.and_then(|declarations| {
            let numerals = Numerals::Counts;
            let module = Module { bytes: source, core: lent.core, declarations: lent.declarations, numerals };
            let printed = printing::text(&module, declarations);
            put(&printed, text)
        }),
    };
    let (clears_text, clears_tables) = match outcome {
        Ok(_) => (false, is("tables-cleared-by-printing")),
        Err(Refusal { class: 14, .. }) => (!is("buffer-left-after-fourteen"), !is("tables-left-after-fourteen")),
        Err(_) => (!is("buffer-left-after-refusal"), true),
    };
    if clears_text {
        text.fill(0);
    }
    if clears_tables {
        lent.each_mut().map(|words| words.fill(0));
    }
    report(outcome.map(|length| vec![length - usize::from(is("length-without-the-last-byte"))]), answer)
}

/// Puts a text into a buffer, 0 behind it: its length, or 14.
fn put(printed: &[u8], text: &mut [u8]) -> Result<usize, Refusal> {
    let fits = match fault() {
        "fourteen-at-the-exact-length" => printed.len() < text.len(),
        _ => printed.len() <= text.len(),
    };
    let length = printed.len().min(text.len());
    text[..length].copy_from_slice(&printed[..length]);
    if !is("buffer-not-cleared") {
        text[length..].fill(0);
    }
    match fault() {
        _ if fits => Ok(length),
        "text-cut" => Ok(length),
        "fourteen-tells-the-length" => Err(Refusal::at(14, printed.len())),
        _ => Err(Refusal::nowhere(14)),
    }
}

pub fn read_core(text: &[u8], lent: Tables<&mut [u32]>, answer: &mut [u64; 3]) -> u8 {
    read(Reader::Any, text, lent, answer)
}

pub fn read_canonical(text: &[u8], lent: Tables<&mut [u32]>, answer: &mut [u64; 3]) -> u8 {
    read(Reader::Canonical, text, lent, answer)
}

/// "from a core text, fill a core table and a declaration list".
fn read(reader: Reader, text: &[u8], mut lent: Tables<&mut [u32]>, answer: &mut [u64; 3]) -> u8 {
    let mut read = Read::default();
    let outcome = judge(reader, text, &lent, &mut read);
    leave(&mut lent, &read, outcome);
    report(outcome.map(|()| vec![read.core.len() / ROW, read.declarations.len() / RECORD]), answer)
}

/// "11, then 6, come first, then 2 and 13 in the Rust's own order, with 7, 9 and 10 where its reading meets them".
fn judge(reader: Reader, text: &[u8], lent: &Tables<&mut [u32]>, read: &mut Read) -> Result<(), Refusal> {
    let eleven = if lent.work.len() < WORK { Err(Refusal::nowhere(11)) } else { Ok(()) };
    if !is("core-eleven-after-utf8") && !is("core-eleven-left-out") {
        eleven?;
    }
    if is("core-six-over-65535") && text.len() > 65_535 {
        return Err(Refusal::nowhere(6));
    }
    let valid = faults::valid_beginning(text);
    let class = if is("core-utf8-as-1") { 1 } else { 13 };
    let utf8 = if valid < text.len() { Err(Refusal::at(class, valid)) } else { Ok(()) };
    if !is("core-utf8-after-reading") {
        utf8?;
    }
    if is("core-eleven-after-utf8") {
        eleven?;
    }
    let marked = text.starts_with(b"\xef\xbb\xbf");
    if marked && !is("core-mark-skipped") {
        return Err(Refusal::at(13, 0));
    }
    let (rows, records) = (lent.core.len() / ROW, lent.declarations.len() / RECORD);
    reading::read(text, if marked { 3 } else { 0 }, [rows, records], read)?;
    utf8?;
    let own = judge_print(reader, text, read);
    if is("canonical-before-duplicates") {
        own?;
    }
    read.names(text)?;
    own
}

/// The reader of canonical texts takes those that are their own print.
fn judge_print(reader: Reader, text: &[u8], read: &Read) -> Result<(), Refusal> {
    if reader == Reader::Any && !is("every-text-canonical") || is("canonical-takes-any-layout") {
        return Ok(());
    }
    let numerals = Numerals::Digits;
    let module = Module { bytes: text, core: &read.core, declarations: &read.declarations, numerals };
    let printed = printing::text(&module, read.declarations.len() / RECORD);
    let cut = is("canonical-without-newline") && printed.strip_suffix(b"\n") == Some(text);
    if printed == text || cut {
        return Ok(());
    }
    let differs = printed.iter().zip(text).take_while(|(a, b)| a == b).count();
    Err(if is("canonical-with-offset") { Refusal::at(13, differs) } else { Refusal::nowhere(13) })
}

/// 0 everywhere after a refusal; else 0 behind the rows and records, and in the work area.
fn leave(lent: &mut Tables<&mut [u32]>, read: &Read, outcome: Result<(), Refusal>) {
    if outcome.is_err() && is("core-left-after-refusal") {
        return;
    }
    let words = |words| if outcome.is_ok() { words } else { &[][..] };
    fill(lent.core, words(&read.core), ROW, "core-rows-left", "core-words-left");
    fill(lent.declarations, words(&read.declarations), RECORD, "core-records-left", "core-words-left");
    if !is("core-work-left") {
        lent.work.fill(0);
    }
}

/// The words, then 0; `unused` and `over` are the mistakes that leave unused rows, and words left over.
fn fill(lent: &mut [u32], words: &[u32], width: usize, unused: &str, over: &str) {
    let used = words.len().min(lent.len());
    lent[..used].copy_from_slice(&words[..used]);
    let whole = lent.len() / width * width;
    if !is(unused) {
        lent[used..whole.max(used)].fill(0);
    }
    if !is(over) {
        lent[whole.max(used)..].fill(0);
    }
}
