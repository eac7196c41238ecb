//! Every form where a limit is met, from document 01's words and the form's arity: 512 and 513 of it inside each other, frames that
//! are given back behind an argument, 7 behind its tag and binder, and 8 at its parenthesis.
use super::tables::{LISTING, ROW, Sizes, Tables};
use common::vocabulary::{ARROW, FORMS, Form, HEAD, HEAD_0_2};

/// "7 more than 512 frames open in one term"
const FRAMES: usize = 512;

/// The tables, the source, and its answer as the card has it.
pub type Reading = (Sizes, Vec<u8>, String);

pub fn readings() -> Vec<Reading> {
    let forms = FORMS.iter().chain([&ARROW]);
    forms.flat_map(|form| [nested(form), beside(form), opened(form), closed(form)].concat()).collect()
}

/// Inside each other in the first and in the last argument, in the type and again in the body.
fn nested(form: &Form) -> Vec<Reading> {
    let size = FRAMES * form.arity + 1;
    let of_place = |place: usize| {
        let [most, over] = [FRAMES, FRAMES + 1].map(|count| inside(form, place, count));
        [
            reading(form, 2 * size, &format!("(postulate a {most})"), nodes(size)),
            reading(form, 2 * size, &format!("(postulate a {over})"), refused(7)),
            reading(form, 2 * size, &format!("(opaque a {most} {most})"), nodes(2 * size)),
            reading(form, 2 * size, &format!("(opaque a {most} {over})"), refused(7)),
        ]
    };
    [0, form.arity - 1].into_iter().flat_map(of_place).collect()
}

/// Each argument finds all frames but the form's own, whatever was open in those before it.
fn beside(form: &Form) -> Vec<Reading> {
    let [most, over] = [FRAMES - 1, FRAMES].map(|count| format!(" {}star{}", "(fst ".repeat(count), ")".repeat(count)));
    let rows = FRAMES * form.arity + 1;
    let term = |last: &str| format!("(postulate a {}{}{last}))", beginning(form), most.repeat(form.arity - 1));
    vec![reading(form, rows, &term(&most), nodes(rows)), reading(form, rows, &term(&over), refused(7))]
}

/// 7 behind tag and binder, whatever follows their last byte.
fn opened(form: &Form) -> Vec<Reading> {
    let before = format!("(postulate a {}", "(fst ".repeat(FRAMES));
    let (tag, whole) = (format!("({}", form.word), beginning(form));
    let line = |end: &str, answer: String| reading(form, 1, &format!("{before}{end}"), answer);
    let at = |text: &str| HEAD.len() + before.len() + text.len();
    let mut all: Vec<Reading> = ["", " ]", " )", ")"].map(|end| line(&format!("{whole}{end}"), refused(7))).into();
    all.push(line(&format!("{whole}]"), malformed(at(&whole))));
    if form.binds {
        all.push(line(&tag, malformed(at(&tag))));
        all.push(line(&format!("{tag} nat"), format!("refused 3 at {}", at(&tag) + 1)));
    }
    all
}

/// 8 at the parenthesis, where there are as many rows as arguments, and not before. An argument less and one more.
fn closed(form: &Form) -> Vec<Reading> {
    let before = "(postulate a ";
    let term = |arguments: usize| format!("{}{}", beginning(form), " nat".repeat(arguments));
    let line = |rows: usize, end: String, answer: String| reading(form, rows, &format!("{before}{end}"), answer);
    let at = |text: &str| HEAD.len() + before.len() + text.len();
    let (arity, whole, less) = (form.arity, term(form.arity), term(form.arity - 1));
    vec![
        line(arity - 1, whole.clone(), refused(8)),
        line(arity, whole.clone(), malformed(at(&whole))),
        line(arity, format!("{whole} nat)"), malformed(at(&whole) + 1)),
        line(arity, format!("{less})"), malformed(at(&less))),
        line(arity, format!("{whole})"), refused(8)),
        line(arity + 1, format!("{whole}))"), nodes(arity + 1)),
    ]
}

/// A module with tables of so many rows.
fn reading(form: &Form, rows: usize, declaration: &str, answer: String) -> Reading {
    let head = if form.word == ARROW.word { HEAD_0_2 } else { HEAD };
    let sizes = Tables { surface: rows * ROW, core: rows * ROW, ..LISTING };
    (sizes, format!("{head}{declaration}").into_bytes(), answer)
}

/// So many of a form, each the argument at this place of the one around it; all others are `nat`.
fn inside(form: &Form, place: usize, count: usize) -> String {
    let opening = format!("{}{} ", beginning(form), " nat".repeat(place));
    let closing = format!("{})", " nat".repeat(form.arity - 1 - place));
    format!("{}nat{}", opening.repeat(count), closing.repeat(count))
}

/// A form up to its first argument.
fn beginning(form: &Form) -> String {
    format!("({}{}", form.word, if form.binds { " x" } else { "" })
}

fn nodes(count: usize) -> String {
    format!("nodes {count} declarations 1|..")
}

fn refused(class: u8) -> String {
    format!("refused {class}")
}

fn malformed(at: usize) -> String {
    format!("refused 1 at {at}")
}
