//! The table that says of each kind whether the goal is reached.
use crate::case::{OUTCOMES, Outcome, Task};
use crate::kinds::{Kind, SIZES};
use crate::row::{Row, compared, head, line, marked, number, ratio, titles};
use crate::work::Who;

/// Cost a byte of the long source against that of the medium one.
const GROWTH: f64 = 1.2;
/// What is asked of reading, and of loading where the tables are not lent again: not to be behind.
const EVEN: f64 = 1.0;

/// What a kind's rows say together.
struct Summary<'a> {
    kind: &'static Kind,
    task: Task,
    rows: Vec<&'a Row<'a>>,
}

impl Summary<'_> {
    fn goal(&self) -> f64 {
        if self.task == Task::Load { self.kind.goal } else { EVEN }
    }

    /// The least of what the rows of these outcomes say.
    fn least(&self, outcomes: &[Outcome], of: impl Fn(&Row) -> Option<f64>) -> Option<f64> {
        let rows = self.rows.iter().filter(|row| outcomes.contains(&row.case.outcome));
        rows.filter_map(|row| of(row)).reduce(f64::min)
    }

    fn fewer(&self, outcome: Outcome) -> Option<f64> {
        self.least(&[outcome], |row| row.fewer(Who::Lent))
    }

    /// Those whose tables are not lent again, with how many times fewer their instructions are.
    fn others(&self) -> Vec<(Who, Option<f64>)> {
        let others = compared(self.task).into_iter().filter(|who| *who != Who::Lent);
        others.map(|who| (who, self.least(&OUTCOMES, |row| row.fewer(who)))).collect()
    }

    /// Instructions a byte of an accepted source.
    fn cost(&self, size: usize) -> Option<f64> {
        let row = self.rows.iter().find(|row| (row.case.size, row.case.outcome) == (size, Outcome::Accepted))?;
        row.instructions(Who::Lent)
    }

    fn growth(&self) -> Option<f64> {
        Some(self.cost(SIZES[2])? / self.cost(SIZES[1])?)
    }

    /// What of the goal is missing.
    fn missing(&self) -> Vec<String> {
        let below = |value: Option<f64>, asked: f64| value.is_some_and(|value| value < asked);
        let mut tests = vec![
            ("accepted".to_owned(), below(self.fewer(Outcome::Accepted), self.goal())),
            ("refused".to_owned(), below(self.fewer(Outcome::Refused), self.goal())),
            ("growth".to_owned(), self.growth().is_some_and(|growth| growth > GROWTH)),
        ];
        let others = self.others().into_iter().map(|(who, fewer)| (titles("", &[who]).concat(), below(fewer, EVEN)));
        tests.extend(others);
        tests.into_iter().filter(|test| test.1).map(|test| test.0).collect()
    }

    fn reached(&self) -> String {
        match (&self.rows[0].counts, &self.missing()[..]) {
            (None, _) => "-".to_owned(),
            (_, []) => "yes".to_owned(),
            (_, missing) => format!("no: {}", missing.join(", ")),
        }
    }

    fn cells(&self) -> Vec<String> {
        let mut cells = vec![self.kind.name.to_owned(), number(Some(self.goal()), 1)];
        cells.extend(self.costs());
        cells.push(marked(self.growth(), |growth| growth <= GROWTH));
        cells.extend(OUTCOMES.map(|outcome| ratio(self.fewer(outcome), self.goal())));
        cells.extend(self.others().iter().map(|other| ratio(other.1, EVEN)));
        let quicker = |who| self.least(&OUTCOMES, |row| row.quicker(who));
        cells.extend(compared(self.task).into_iter().map(|who| ratio(quicker(who), EVEN)));
        cells.push(self.reached());
        cells
    }

    /// The cost at each length; a kind of one length of its own has it in the first cell.
    fn costs(&self) -> [String; SIZES.len()] {
        match self.kind.sizes {
            [size] => [format!("{} at {size}", number(self.cost(*size), 1)), "-".to_owned(), "-".to_owned()],
            _ => SIZES.map(|size| number(self.cost(size), 1)),
        }
    }
}

fn all_titles(task: Task) -> Vec<String> {
    let first = [&*task.to_string(), "goal", "instructions a byte at 1,000", "at 8,000", "at 64,000", "growth"];
    let mut all = first.map(str::to_owned).to_vec();
    all.extend(["times fewer, accepted".to_owned(), "refused".to_owned()]);
    all.extend(titles("", &compared(task)).into_iter().skip(1));
    all.extend(titles("times quicker", &compared(task)));
    all.push("reached".to_owned());
    all
}

/// A line for each kind, and behind them how many reach the goal.
pub fn print(task: Task, kinds: &[&'static Kind], rows: &[Row]) {
    println!("\n{}", head(&all_titles(task)));
    let of_kind = |kind: &&'static Kind| {
        let rows = rows.iter().filter(|row| row.case.task == task && row.case.kind.name == kind.name).collect();
        Summary { kind, task, rows }
    };
    let summaries: Vec<Summary> = kinds.iter().map(of_kind).collect();
    summaries.iter().for_each(|summary| println!("{}", line(&summary.cells())));
    println!("\n{}", conclusion(task, &summaries));
}

fn conclusion(task: Task, summaries: &[Summary]) -> String {
    if summaries.iter().any(|summary| summary.rows[0].counts.is_none()) {
        return format!("Whether the goal of {task} is reached is not known: instructions are counted by valgrind.");
    }
    let reached = summaries.iter().filter(|summary| summary.missing().is_empty()).count();
    format!("The goal of {task} is reached on {reached} of {} kinds.", summaries.len())
}
