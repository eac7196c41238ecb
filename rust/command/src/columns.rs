//! Lines of fields, each field in the same column on every line.

/// A longer field moves what follows it on its own line only: a name of many bytes would else fill every line with spaces.
const WIDEST: usize = 32;

/// The lines: fields are separated by at least one space, and no line ends with one.
pub fn aligned<const N: usize>(lines: &[[String; N]]) -> String {
    let widths: [usize; N] = std::array::from_fn(|at| {
        let lengths = lines.iter().map(|line| line[at].len());
        lengths.max().unwrap_or(0).min(WIDEST)
    });
    let mut text = String::new();
    for line in lines {
        let mut column = text.len();
        for (field, width) in line.iter().zip(widths) {
            text.extend(std::iter::repeat_n(' ', column - text.len()));
            text.push_str(field);
            column += field.len().max(width) + 1;
        }
        text.push('\n');
    }
    text
}

#[cfg(test)]
mod tests {
    use super::*;

    #[test]
    fn every_field_in_its_column() {
        let lines = [["1:1", "a", "lam"], ["12:1", "long", "pi"]].map(|line| line.map(String::from));
        assert_eq!(aligned(&lines), "1:1  a    lam\n12:1 long pi\n");
    }

    #[test]
    fn a_long_field_moves_its_own_line() {
        let long = "n".repeat(WIDEST + 1);
        let lines = [["a", "b", "c"], [&long, "b", "c"], ["a", "bb", "c"]].map(|line| line.map(String::from));
        let short = "a".to_string() + &" ".repeat(WIDEST);
        assert_eq!(aligned(&lines), format!("{short}b  c\n{long} b  c\n{short}bb c\n"));
    }

    #[test]
    fn one_space_where_there_is_one_line_and_nothing_where_there_is_none() {
        assert_eq!(aligned(&[["a", "bc"].map(String::from)]), "a bc\n");
        assert_eq!(aligned::<2>(&[]), "");
    }
}
