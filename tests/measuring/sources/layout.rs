//! Comments, and layout.
use super::filled;

pub fn blank(size: usize) -> String {
    filled(size, |place, _| {
        let declared = format!("(postulate\n\t\tc{place}\n\t\t(id\n\t\t\t\tnat\n\t\t\t\tzero\n\t\t\t\tzero))");
        format!("\r\n\r\n{declared}{:60}\r\n", "")
    })
}

pub fn comments(size: usize) -> String {
    let line = "which says nothing of interest, on a line of its own";
    filled(size, |place, _| {
        let declared = format!("(postulate\n        c{place}\n        (id nat zero zero))");
        format!("; declaration number {place}, {line}\n\n    {declared}   ; end\n\n")
    })
}

/// Characters of two, three and four bytes.
pub fn unicode(size: usize) -> String {
    let lines =
        "; объявление без особого смысла\n; 意味のない宣言についての注釈です\n; 😀😁😂😃😄😅😆😇 αβγδεζηθικλμ\n";
    filled(size, |place, _| format!("{lines}(postulate c{place} nat)\n"))
}
