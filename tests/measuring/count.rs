//! Instructions, counted by valgrind's callgrind: one run for all cases, which writes down each turn by itself; and what a run
//! for other events (branches.rs) has in common with it.
use crate::case::Case;
use crate::chain::{self, Chain, Turns};
use crate::work::{Who, Work, whos};
use std::process::Command;

/// What the run is told to do besides the words that choose the cases.
pub const WORD: &str = "--count";

/// The library's memset and memcpy use string instructions for long blocks, of which valgrind counts one a byte.
const PLAIN: &str = "glibc.cpu.x86_rep_stosb_threshold=1000000000:glibc.cpu.x86_rep_movsb_threshold=1000000000";

/// Turns that are counted, of which the one in the middle counts: the allocator puts its lists in order now and then, and the
/// Rust's keys for names are random.
fn turns_of(who: Who) -> usize {
    if who == Who::Rust { 5 } else { 3 }
}

/// Of a chain's.
const CHAIN_TURNS: usize = 3;

/// A turn that callgrind knows by its name.
#[unsafe(no_mangle)]
#[inline(never)]
pub fn counted_turn(turn: &mut dyn FnMut()) {
    turn();
}

/// The run that is counted: turns of each case and chain, behind one that is not counted.
pub fn turns(cases: &[Case], chains: &[Chain]) {
    cases.iter().for_each(case_turns);
    for chain in chains {
        let mut turns = Turns::new(chain);
        for task in 0..chain::TASKS {
            turns.turn(task);
            (0..CHAIN_TURNS).for_each(|_| counted_turn(&mut || turns.turn(task)));
        }
    }
}

/// The turns of a case by each who has the task.
pub fn case_turns(case: &Case) {
    let mut work = Work::new(case);
    for who in whos(case.task) {
        work.turn(*who);
        (0..turns_of(*who)).for_each(|_| counted_turn(&mut || work.turn(*who)));
    }
}

/// The instructions of each case by each who has the task.
type OfCases = Vec<Vec<u64>>;
type OfChains = Vec<[u64; chain::TASKS]>;

/// The instructions of the cases and of the chains, in order; none without valgrind.
pub fn counts(words: &[String], cases: &[Case], chains: &[Chain]) -> Option<(OfCases, OfChains)> {
    let words: Vec<&str> = words.iter().map(String::as_str).chain([WORD]).collect();
    let mut totals = totals(&words, &[], ["Ir"])?.into_iter();
    let of_cases = cases.iter().map(|case| case_counts(case, &mut totals).map(|[count]| count).collect()).collect();
    let of_chains = chains.iter().map(|_| [(); chain::TASKS].map(|()| middle(&mut totals, CHAIN_TURNS)[0])).collect();
    assert_eq!(totals.count(), 0, "turns of nothing");
    Some((of_cases, of_chains))
}

/// What is counted of a case by each who has the task, if its turns are the next.
pub fn case_counts<const N: usize>(
    case: &Case,
    totals: &mut impl Iterator<Item = [u64; N]>,
) -> impl Iterator<Item = [u64; N]> {
    whos(case.task).iter().map(|who| middle(totals, turns_of(*who)))
}

/// The middle of the next so many turns, for each event by itself.
fn middle<const N: usize>(totals: &mut impl Iterator<Item = [u64; N]>, number: usize) -> [u64; N] {
    let turns: Vec<[u64; N]> = totals.take(number).collect();
    std::array::from_fn(|event| {
        let mut counts: Vec<u64> = turns.iter().map(|turn| turn[event]).collect();
        counts.sort_unstable();
        counts[counts.len() / 2]
    })
}

/// How often these events happen in every turn of a run with these words, by callgrind with these options.
pub fn totals<const N: usize>(words: &[&str], options: &[&str], events: [&str; N]) -> Option<Vec<[u64; N]>> {
    let profile = format!("target/reference/measure.{}.profile", std::process::id());
    let mut valgrind = Command::new("valgrind");
    valgrind.args(["--tool=callgrind", "--combine-dumps=yes", &format!("--callgrind-out-file={profile}")]);
    valgrind.args(["--zero-before=counted_turn", "--dump-after=counted_turn"]).env("GLIBC_TUNABLES", PLAIN);
    let run = valgrind.args(options).arg(std::env::current_exe().ok()?).args(words).output().ok()?;
    let said = std::fs::read_to_string(&profile).unwrap_or_default();
    let _ = std::fs::remove_file(&profile);
    assert!(run.status.success(), "{}", String::from_utf8_lossy(&run.stderr));
    Some(said.split("desc: Trigger: --dump-after").skip(1).map(|part| total(part, events)).collect())
}

/// How often these events happen in one part of a profile. It names all its events in the order of its totals, of which it
/// leaves out those at the end that are 0.
fn total<const N: usize>(part: &str, events: [&str; N]) -> [u64; N] {
    let (names, numbers) = (words_behind("events: ", part), words_behind("totals: ", part));
    events.map(|event| {
        let place = names.iter().position(|name| *name == event).expect("an event of the profile");
        numbers.get(place).map_or(0, |number| number.parse().expect("a total"))
    })
}

/// The words of the line that begins so.
fn words_behind<'a>(head: &str, part: &'a str) -> Vec<&'a str> {
    part.lines().find_map(|line| line.strip_prefix(head)).map_or(Vec::new(), |line| line.split_whitespace().collect())
}
