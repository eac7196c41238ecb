//! The tables of docs/PERFORMANCE.md.
use crate::case::{OUTCOMES, Outcome, TASKS, Task};
use crate::chain::{self, Measured};
use crate::clock;
use crate::goals;
use crate::kinds::Kind;
use crate::row::{Row, compared, head, line, number, ratio, titles};
use crate::three;
use crate::work::whos;

pub fn print(kinds: &[&'static Kind], rows: &[Row], asked: &[Measured], long: &[three::Measured]) {
    if !kinds.is_empty() {
        println!("### The kinds\n\n| kind | what it is |\n|---|---|");
        kinds.iter().for_each(|kind| println!("| {} | {} |", kind.name, kind.about));
        println!("\n### The goal, kind by kind");
        TASKS.iter().for_each(|task| goals::print(*task, kinds, rows));
        println!("\nClearing a work area, by itself, takes {:.2} microseconds.", clock::clearing_seconds() * 1e6);
    }
    if !asked.is_empty() {
        chain::print(asked);
    }
    if !long.is_empty() {
        three::print(long);
    }
    if !kinds.is_empty() {
        TASKS.iter().for_each(|task| OUTCOMES.iter().for_each(|outcome| print_all(*task, *outcome, rows)));
    }
}

/// Every row of a task and an outcome.
fn print_all(task: Task, outcome: Outcome, rows: &[Row]) {
    println!("\n### Every row: {task}, {outcome}\n");
    let mut all = ["kind", "bytes", "rows", "declarations"].map(str::to_owned).to_vec();
    all.extend(titles("instructions a byte", whos(task)));
    all.extend(titles("times fewer", &compared(task)));
    all.extend(titles("MB/s", whos(task)));
    all.extend(titles("times quicker", &compared(task)));
    println!("{}", head(&all));
    for row in rows.iter().filter(|row| row.case.is(task, outcome)) {
        println!("{}", line(&cells(row)));
    }
}

fn cells(row: &Row) -> Vec<String> {
    let (case, task) = (row.case, row.case.task);
    let mut cells = vec![case.kind.name.to_owned()];
    cells.extend([case.text.len(), case.rows, case.declarations].map(|count| count.to_string()));
    cells.extend(whos(task).iter().map(|who| number(row.instructions(*who), 1)));
    cells.extend(compared(task).iter().map(|who| ratio(row.fewer(*who), 1.0)));
    cells.extend(whos(task).iter().map(|who| number(row.rate(*who), 0)));
    cells.extend(compared(task).iter().map(|who| ratio(row.quicker(*who), 1.0)));
    cells
}
