//! Compares the peer with the proved library, with the program, and with itself: by second ways
//! to the same margin, by truth, by histories tried one by one, by faults put in on purpose.

mod arguments;
mod checks;
mod claimed;
mod compare;
mod families;
mod flat;
mod half_open;
#[cfg(test)]
mod header;
mod kept;
mod library;
mod marked;
// Without a library the functions are unused, the forms of what is lent are not.
#[cfg_attr(not(any(feature = "proved", test)), allow(dead_code))]
#[path = "../../../rust/src/names.rs"]
mod names;
mod ordered;
mod pairs;
mod play;
mod program;
#[cfg(any(feature = "proved", test))]
mod proved;
mod scaled;
mod shapes;
#[cfg(all(test, not(feature = "proved")))]
mod standin;
mod tally;
mod watchable;
mod watched;
mod written;

use arguments::Arguments;
use compare::Others;
use families::{limit_sheets, long_call, Bench, Failure, Family, FAMILIES, LONG, WINDOWS};
use peer::generate::prng::{case_seed, Prng};
use peer::generate::windows::LONG_CASES;
use peer::refusal::of_a_sheet;
use program::Program;
use std::ops::Range;
use std::process::ExitCode;
use std::time::Instant;
use tally::Tally;
use watched::WATCH;
use written::WRITTEN;

/// Thousands of cases of a run.
const THOUSANDS: u64 = 100;
const LONG_THOUSANDS: u64 = 2_000;
/// The cases that are the same in every run.
const LIMITS: &str = "limits";
/// Of so many cases one is put to the program too.
const PROGRAM_EVERY: u64 = 10;

fn main() -> ExitCode {
    let arguments = match arguments::parse(std::env::args().skip(1)) {
        Ok(arguments) => arguments,
        Err(fault) => {
            eprintln!("{fault}\n{}", arguments::USAGE);
            return ExitCode::from(2);
        }
    };
    let others = match others(&arguments) {
        Ok(others) => others,
        Err(fault) => {
            eprintln!("{fault}");
            return ExitCode::from(2);
        }
    };
    match &arguments.only {
        Some((name, seed)) => only(&others, name, *seed),
        None => whole_run(&others, &arguments),
    }
}

fn others(arguments: &Arguments) -> Result<Others, String> {
    let program = arguments.program.clone().map(|file| Program { file });
    let library = if arguments.library { Some(proved_library()?) } else { None };
    Ok(Others { library, program })
}

#[cfg(feature = "proved")]
fn proved_library() -> Result<Box<dyn library::Library>, String> {
    Ok(Box::new(proved::Proved))
}

#[cfg(not(feature = "proved"))]
fn proved_library() -> Result<Box<dyn library::Library>, String> {
    Err("--library wants a build with --features proved".to_string())
}

/// Prints what failed, with all that is needed to see it again.
fn report(family: &str, seed: u64, failure: &Failure) {
    println!("FAILED: {}", failure.what);
    println!("again with: --only {family} {seed}");
    println!("--- input, {} bytes", failure.input.len());
    println!("{}", String::from_utf8_lossy(&failure.input));
    println!("---");
}

fn only(others: &Others, name: &str, seed: u64) -> ExitCode {
    let mut tally = Tally::default();
    let mut bench = Bench { others, tally: &mut tally, ask_program: true };
    let family = FAMILIES.iter().find(|family| family.name == name);
    let outcome = match family {
        Some(family) => (family.run)(&mut bench, &mut Prng::new(seed)),
        None if name == LIMITS => limit_sheets(&mut bench),
        None if name == LONG => long_call(&mut bench, seed),
        None => {
            eprintln!("no family {name}");
            return ExitCode::from(2);
        }
    };
    match outcome {
        Ok(()) => {
            println!("the case passes");
            ExitCode::SUCCESS
        }
        Err(failure) => {
            report(name, seed, &failure);
            ExitCode::FAILURE
        }
    }
}

fn whole_run(others: &Others, arguments: &Arguments) -> ExitCode {
    let begun = Instant::now();
    let mut tally = Tally::default();
    let mut bench = Bench { others, tally: &mut tally, ask_program: true };
    if let Err(failure) = limit_sheets(&mut bench) {
        report(LIMITS, 0, &failure);
        return ExitCode::FAILURE;
    }
    let thousands = if arguments.long { LONG_THOUSANDS } else { THOUSANDS };
    // A thousand at a time, so that every family has its turn early.
    for thousand in 0..thousands {
        for (place, family) in FAMILIES.iter().enumerate() {
            // Each family has its own seeds, so that changing one leaves the others' cases.
            let run = case_seed(arguments.seed, place as u64);
            let cases = thousand * family.share..(thousand + 1) * family.share;
            if !run_family(others, &mut tally, family, run, cases) {
                return ExitCode::FAILURE;
            }
        }
    }
    if arguments.long && !run_long(others, &mut tally, arguments.seed) {
        return ExitCode::FAILURE;
    }
    if arguments.histogram {
        tally.print();
    }
    let missing = tally.missing(&wanted(thousands, arguments.long));
    if !missing.is_empty() {
        println!("FAILED: too rare to say anything: {missing:?}");
        return ExitCode::FAILURE;
    }
    let seconds = begun.elapsed().as_secs();
    println!("{} cases agree ({seconds} s)", thousands * 1_000 + tally.count("limits"));
    ExitCode::SUCCESS
}

fn run_family(
    others: &Others,
    tally: &mut Tally,
    family: &Family,
    run: u64,
    cases: Range<u64>,
) -> bool {
    for case in cases {
        let seed = case_seed(run, case);
        let ask_program = case % PROGRAM_EVERY == 0;
        let mut bench = Bench { others, tally, ask_program };
        if let Err(failure) = (family.run)(&mut bench, &mut Prng::new(seed)) {
            report(family.name, seed, &failure);
            return false;
        }
    }
    true
}

/// The long calls of a run: their number takes the place of a seed, so that together they have
/// every shape.
fn run_long(others: &Others, tally: &mut Tally, run: u64) -> bool {
    for case in 0..LONG_CASES {
        let number = run.wrapping_mul(LONG_CASES).wrapping_add(case);
        let mut bench = Bench { others, tally, ask_program: false };
        if let Err(failure) = long_call(&mut bench, number) {
            report(LONG, number, &failure);
            return false;
        }
    }
    true
}

/// What must come up, and how often: every refusal and every verdict, of every entry point, every
/// order of predicates, every fault of `c=` lines, cards with unequal scales, all that claims may
/// be about, every pair of marks, every kind of table that is written and of pair in its text, every
/// kind of watch and of row that is offered to one, every shape of window.
fn wanted(thousands: u64, long: bool) -> Vec<(String, u64)> {
    let mut wanted = wanted_refusals(thousands);
    for verdict in ["holds", "fails", "unshown"] {
        wanted.push((format!("answer verdict={verdict}"), 20 * thousands));
    }
    for what in
        ["16 requirements", "none accepted", "some refused", "all accepted", "another order"]
    {
        wanted.push((format!("several: {what}"), 5 * thousands));
    }
    wanted.push(("several: equal margins".to_string(), 20 * thousands));
    for what in ["unread rows", "the last unended"] {
        wanted.push((format!("several: {what}"), 2 * thousands));
    }
    for order in ordered::ALL {
        wanted.push((format!("predicates: {order}"), thousands / 2));
    }
    for fault in scaled::ALL {
        wanted.push((format!("scales: {fault}"), thousands / 2));
    }
    wanted.push(("scales: accepted, unequal".to_string(), 20 * thousands));
    wanted.push(("histories: a scale above 1".to_string(), 10 * thousands));
    for histories in ["there is none", "all tried", "some tried", "a verdict tried on all"] {
        wanted.push((format!("histories: {histories}"), 10 * thousands));
    }
    wanted.extend(claimed::all().iter().map(|about| (format!("histories: {about}"), thousands)));
    wanted.extend(wanted_marks(thousands));
    wanted.extend(wanted_writings(thousands));
    wanted.extend(watchable::all().iter().map(|kind| (format!("{WATCH}: {kind}"), thousands / 2)));
    for shape in shapes::all() {
        wanted.push((format!("{WINDOWS}: {shape}"), thousands / 5));
        wanted.extend(long.then(|| (format!("{LONG}: {shape}"), 1)));
    }
    wanted
}

fn wanted_refusals(thousands: u64) -> Vec<(String, u64)> {
    let mut wanted = Vec::new();
    let mut each = |what: &str, numbers: &[u64], least: u64| {
        wanted.extend(numbers.iter().map(|number| (format!("{what}{number}"), least * thousands)));
    };
    each("answer refused=", &of_a_sheet(), 5);
    each("margin call refused=", &[0, 3, 4, 13, 5, 6, 7, 8], 3);
    each("verdict call refused=", &[0, 3, 4, 13, 5, 6, 7, 8, 9, 10, 11], 2);
    each("scales miscounted refused=", &[4, 13, 5], 2);
    each("cut call refused=", &[0, 3], 2);
    each("distance refused=", &[0, 4, 13, 7], 20);
    each("requirement refused=", &[0, 2], 10);
    each("rows refused=", &[0, 1, 4, 5], 2);
    each(&format!("{WRITTEN} refused="), &[0, 3, 14, 15], 10);
    each(&format!("{WRITTEN}, cut refused="), &[0, 3], 1);
    each(&format!("{WATCH} refused="), &[0, 3, 4, 13, 16], 2);
    each(&format!("{WATCH}, row refused="), &[0, 5, 6, 7], 20);
    each(&format!("{WATCH}, margin refused="), &[0, 5], 5);
    each(&format!("{WATCH}, refused watch, row refused="), &[3, 4, 13, 16], 10);
    each(&format!("{WATCH}, short refused="), &[3, 4, 13, 16, 8], 1);
    each(&format!("{WATCH}, cut refused="), &[0, 3], 1);
    wanted
}

/// Each pair of marks of each operator, and each refusal for marks alone. Those of windows, watches and
/// claims stand among what these may be about.
fn wanted_marks(thousands: u64) -> Vec<(String, u64)> {
    let mut wanted = vec![("margin call: excluded ends moved".to_string(), 10 * thousands)];
    for form in marked::all() {
        wanted.push((format!("answer: {form}"), thousands));
        wanted.push((format!("{WRITTEN}: {form}"), thousands));
    }
    for refusal in marked::TEXT_REFUSALS {
        wanted.push((format!("answer: {refusal}"), thousands / 5));
        wanted.push((format!("requirement: {refusal}"), thousands / 10));
    }
    for refusal in marked::TABLE_REFUSALS {
        wanted.push((format!("table: {refusal}"), thousands / 5));
    }
    wanted
}

fn wanted_writings(thousands: u64) -> Vec<(String, u64)> {
    let mut wanted = vec![(format!("{WRITTEN}: read, written, read"), 10 * thousands)];
    wanted.extend(written::ALL.map(|about| (format!("{WRITTEN}: {about}"), thousands / 4)));
    wanted.extend(pairs::all().iter().map(|pair| (format!("{WRITTEN}: {pair}"), thousands)));
    wanted
}
