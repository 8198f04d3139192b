//! Families of cases. Each case comes from its seed alone.

use crate::checks::{self, Tried};
use crate::claimed;
use crate::compare::{self, Others, BEHIND, SIGNED_NOISE, WHOLE_CALL, WHOLE_SHEET, WHOLE_TABLE};
use crate::half_open::{limit_windows, same_when_moved};
use crate::library::{COUNTS, NODES, NODE_NUMBERS};
use crate::marked;
use crate::names::LINES;
use crate::ordered;
use crate::scaled;
use crate::shapes;
use crate::tally::Tally;
use crate::watched::{limit_watches, watched_rows, WATCH};
use crate::written::{limit_tables, read_again, written_table, WRITTEN};
use peer::answer::{entry_line, judge_sheet, printed, Answer, Entry};
use peer::generate::calls::{call, Foretold};
use peer::generate::damage::{damaged, damaged_requirement};
use peer::generate::faults::{bad_requirement, faulty, Numbers};
use peer::generate::limits::limits;
use peer::generate::prng::Prng;
use peer::generate::several::several;
use peer::generate::sheets::{sound, tiny, Sound};
use peer::generate::windows::{long, windows, Shaped};
use peer::recording::channels_broken;
use peer::refusal::Refusal;
use peer::sheet::read_sheet;
use peer::table::Table;
use peer::verdict::Verdict;

/// What a case needs: whom to ask, and where to count.
pub struct Bench<'a> {
    pub others: &'a Others,
    pub tally: &'a mut Tally,
    /// Whether this case is put to the program too: starting one costs a millisecond.
    pub ask_program: bool,
}

pub struct Failure {
    pub input: Vec<u8>,
    pub what: String,
}

pub type Run = fn(&mut Bench, &mut Prng) -> Result<(), Failure>;

pub struct Family {
    pub name: &'static str,
    /// How many cases of a thousand.
    pub share: u64,
    pub run: Run,
}

/// A family's place gives its seeds, so a new one goes to the end.
pub const FAMILIES: [Family; 11] = [
    Family { name: "sound", share: 180, run: sound_sheet },
    Family { name: "tiny", share: 90, run: tiny_sheet },
    Family { name: "faulty", share: 190, run: faulty_sheet },
    Family { name: "damaged", share: 100, run: damaged_sheet },
    Family { name: "several", share: 70, run: several_sheet },
    Family { name: "calls", share: 150, run: library_call },
    Family { name: "requirements", share: 50, run: requirement_text },
    Family { name: "rows", share: 50, run: rows_text },
    Family { name: WINDOWS, share: 30, run: windows_call },
    Family { name: WRITTEN, share: 50, run: written_table },
    Family { name: WATCH, share: 40, run: watched_rows },
];

pub const WINDOWS: &str = "windows";
/// Recordings as long as the library takes: slow by the literal definitions, so for long runs.
pub const LONG: &str = "long";

pub fn at<T>(input: &[u8], result: Result<T, String>) -> Result<T, Failure> {
    result.map_err(|what| Failure { input: input.to_vec(), what })
}

/// The peer's answer, compared with the others'.
fn answered(bench: &mut Bench, text: &[u8]) -> Result<Result<Vec<Entry>, Refusal>, Failure> {
    let judged = judge_sheet(text);
    let lines = printed(&judged);
    at(text, compare::answers(bench.others, text, &lines, LINES))?;
    at(text, compare::sheets(bench.others, text, WHOLE_SHEET))?;
    // And with some other room, mostly too little.
    let any = text.len();
    at(text, compare::answers(bench.others, text, &lines, any % (lines.len() + 1)))?;
    let room = [any % 7, any % 35, any % 10, any % 34, any % 33];
    at(text, compare::sheets(bench.others, text, room))?;
    if bench.ask_program {
        at(text, compare::program(bench.others, text, &lines))?;
    }
    if let Some(order) = ordered::about(text) {
        bench.tally.add(format!("predicates: {order}"));
    }
    if let Some(fault) = scaled::about(text) {
        bench.tally.add(format!("scales: {fault}"));
    }
    match &judged {
        Err(refusal) => {
            bench.tally.add(format!("answer refused={}", refusal.number()));
            if unended(text) {
                bench.tally.add("several: the last unended");
            }
        }
        Ok(entries) => {
            entries.iter().for_each(|entry| bench.tally.add(kind_of_entry(entry)));
            tally_marks(bench.tally, text, entries);
            if entries.len() > 1 {
                each_alone(bench, text, &lines, entries.len())?;
            }
        }
    }
    Ok(judged)
}

/// The marks of each requirement that is accepted, and why others are refused for theirs alone.
fn tally_marks(tally: &mut Tally, text: &[u8], entries: &[Entry]) {
    let Ok(sheet) = read_sheet(text) else { return };
    for (entry, places) in entries.iter().zip(sheet.requirements) {
        let about: Vec<String> = match entry {
            Ok(answer) => marked::reached(&answer.table),
            Err(Refusal::Requirement) => {
                marked::refused_text(&text[places]).map(str::to_string).into_iter().collect()
            }
            Err(_) => Vec::new(),
        };
        about.iter().for_each(|about| tally.add(format!("answer: {about}")));
    }
}

/// Why a table is refused for its marks alone.
pub fn tally_refused(tally: &mut Tally, table: &Table) {
    if let Some(refusal) = marked::refused_table(table) {
        tally.add(format!("table: {refusal}"));
    }
}

/// Whether the text lacks nothing but the line feed of the last of several `req=` lines.
fn unended(text: &[u8]) -> bool {
    let ended = [text, b"\n"].concat();
    text.last() != Some(&b'\n')
        && read_sheet(&ended)
            .is_ok_and(|sheet| sheet.requirements.len() > 1 && sheet.rows_from == ended.len())
}

/// Whether something stands where the rows are, and is unread.
fn unread(text: &[u8]) -> bool {
    read_sheet(text)
        .is_ok_and(|sheet| channels_broken(sheet.channels) && sheet.rows_from < text.len())
}

/// The refusal or the verdict of a requirement.
fn kind_of_entry(entry: &Entry) -> String {
    let line = entry_line(entry);
    let last = line.trim_end().rsplit(' ').next().unwrap_or_default();
    format!("answer {last}")
}

/// The lines of several requirements are in order, and each is what its requirement alone gets: of
/// the peer, of the library, and for one of them of the program.
fn each_alone(bench: &mut Bench, text: &[u8], printed: &[u8], count: usize) -> Result<(), Failure> {
    let lines = at(text, checks::lines(printed))?;
    at(text, checks::in_order(&lines, count))?;
    for line in &lines {
        at(text, checks::alone(text, line))?;
        let single = checks::only(text, line.k);
        at(&single, compare::answers(bench.others, &single, &line.alone, LINES))?;
        if bench.ask_program && line.k == text.len() % count {
            at(&single, compare::program(bench.others, &single, &line.alone))?;
        }
    }
    let accepted = lines.iter().filter(|line| line.margin.is_some()).count();
    let equal = lines.windows(2).any(|p| p[0].margin.is_some() && p[0].margin == p[1].margin);
    for (what, found) in [
        ("16 requirements", count == 16),
        ("none accepted", accepted == 0),
        ("some refused", (1..count).contains(&accepted)),
        ("all accepted", accepted == count),
        ("another order", lines.iter().enumerate().any(|(place, line)| line.k != place)),
        ("equal margins", equal),
        ("unread rows", unread(text)),
    ] {
        if found {
            bench.tally.add(format!("several: {what}"));
        }
    }
    Ok(())
}

fn sound_sheet(bench: &mut Bench, rng: &mut Prng) -> Result<(), Failure> {
    let sound = sound(rng);
    accepted(bench, rng, &sound)
}

fn tiny_sheet(bench: &mut Bench, rng: &mut Prng) -> Result<(), Failure> {
    let sound = tiny(rng);
    accepted(bench, rng, &sound)
}

fn accepted(bench: &mut Bench, rng: &mut Prng, sound: &Sound) -> Result<(), Failure> {
    let text = sound.draft.text();
    at(&text, checks::read_back(sound))?;
    at(&text, checks::filled_unread(&sound.draft, rng))?;
    let refused = |refusal| format!("a sound sheet: {refusal:?}");
    for entry in at(&text, answered(bench, &text)?.map_err(refused))? {
        let answer = at(&text, entry.map_err(refused))?;
        accepted_requirement(bench, rng, &text, &answer)?;
    }
    Ok(())
}

fn accepted_requirement(
    bench: &mut Bench,
    rng: &mut Prng,
    text: &[u8],
    answer: &Answer,
) -> Result<(), Failure> {
    at(text, checks::margins(answer))?;
    if scaled::unequal(answer) {
        bench.tally.add("scales: accepted, unequal");
    }
    match at(text, checks::histories(answer, rng))? {
        Tried::All(0, _) => bench.tally.add("histories: there is none"),
        Tried::All(count, claims) => {
            bench.tally.add("histories: all tried");
            bench.tally.add_many("histories in all", count as u64);
            if answer.judgement.verdict != Verdict::NotShown {
                bench.tally.add("histories: a verdict tried on all");
            }
            // One history alone, as there is without drift, tries little.
            if count > 1 {
                for about in claims.iter().flat_map(|claim| claimed::about(claim, answer)) {
                    bench.tally.add(format!("histories: {about}"));
                }
                if claims.iter().any(|claim| scaled::on_scaled(claim, answer)) {
                    bench.tally.add("histories: a scale above 1");
                }
            }
        }
        Tried::Some => bench.tally.add("histories: some tried"),
        Tried::None => bench.tally.add("histories: too long a span"),
    }
    Ok(())
}

fn faulty_sheet(bench: &mut Bench, rng: &mut Prng) -> Result<(), Failure> {
    let (text, numbers) = faulty(rng);
    foretold_sheet(bench, &text, numbers)
}

fn several_sheet(bench: &mut Bench, rng: &mut Prng) -> Result<(), Failure> {
    let (text, numbers) = several(rng);
    foretold_sheet(bench, &text, numbers)
}

fn foretold_sheet(bench: &mut Bench, text: &[u8], numbers: Numbers) -> Result<(), Failure> {
    let number = |entry: &Entry| entry.as_ref().err().map_or(0, |refusal| refusal.number());
    let given: Numbers = match answered(bench, text)? {
        Err(refusal) => Err(refusal.number()),
        Ok(entries) => Ok(entries.iter().map(number).collect()),
    };
    if given != numbers {
        return at(text, Err(format!("refused by {given:?}, foretold {numbers:?}")));
    }
    Ok(())
}

fn damaged_sheet(bench: &mut Bench, rng: &mut Prng) -> Result<(), Failure> {
    let text = damaged(rng);
    answered(bench, &text).map(|_| ())
}

fn library_call(bench: &mut Bench, rng: &mut Prng) -> Result<(), Failure> {
    let foretold = call(rng);
    let shown = format!("{:?}\n", foretold.call).into_bytes();
    let value = rng.pick(&[0, 1_000_000_000, 1_000_000_001, -1_000_000_001, i64::MIN, i64::MAX]);
    let scale = rng.pick(&[1, 3, 1_000, 0, 1_001, u64::MAX]);
    for number in at(&shown, compare::distances(bench.others, &foretold.call, scale, value))? {
        bench.tally.add(format!("distance refused={number}"));
    }
    foretold_call(bench, &foretold)?;
    tally_refused(bench.tally, &foretold.call.table);
    if foretold.margin == 0 && rng.once_in(2) {
        at(&shown, same_when_moved(bench, &foretold.call))?;
    }
    bench.tally.add(format!("margin call refused={}", foretold.margin));
    bench.tally.add(format!("verdict call refused={}", foretold.verdict));
    let recording = &foretold.call.recording;
    if recording.scales.len() as u64 != recording.channels {
        bench.tally.add(format!("scales miscounted refused={}", foretold.margin));
    }
    if rng.once_in(4) {
        // What a slice does not have reads as 0: the table or a predicate may be another.
        let nodes = (NODE_NUMBERS * foretold.call.table.count() + BEHIND).min(NODES + BEHIND);
        let lengths = [rng.below(nodes + 1), rng.below(36), rng.below(36), rng.below(5)];
        at(&shown, compare::margins(bench.others, &foretold.call, lengths))?;
        let (verdict, ..) = at(&shown, compare::verdicts(bench.others, &foretold.call, lengths))?;
        bench.tally.add(format!("cut call refused={verdict}"));
    }
    Ok(())
}

fn windows_call(bench: &mut Bench, rng: &mut Prng) -> Result<(), Failure> {
    shaped_call(bench, WINDOWS, &windows(rng))
}

/// The long call of that number.
pub fn long_call(bench: &mut Bench, number: u64) -> Result<(), Failure> {
    let mut shaped = long(number);
    shaped_call(bench, LONG, &shaped)?;
    // One row more is one too many.
    let recording = &mut shaped.foretold.call.recording;
    recording.times.push(recording.times[recording.rows() - 1] + 1);
    recording.values.extend_from_within(..recording.channels as usize);
    foretold_call(bench, &Foretold { margin: 5, verdict: 5, ..shaped.foretold })
}

/// A call whose windows are counted.
fn shaped_call(bench: &mut Bench, family: &str, shaped: &Shaped) -> Result<(), Failure> {
    foretold_call(bench, &shaped.foretold)?;
    for read in shapes::read_by(shaped) {
        bench.tally.add(format!("{family}: {read}"));
    }
    Ok(())
}

pub fn foretold_call(bench: &Bench, foretold: &Foretold) -> Result<(), Failure> {
    let shown = format!("{:?}\n", foretold.call).into_bytes();
    let (margin, _, _) = at(&shown, compare::margins(bench.others, &foretold.call, WHOLE_CALL))?;
    let (verdict, _, _) = at(&shown, compare::verdicts(bench.others, &foretold.call, WHOLE_CALL))?;
    if (margin, verdict) != (foretold.margin, foretold.verdict) {
        let wanted = (foretold.margin, foretold.verdict);
        return at(&shown, Err(format!("refused by {:?}, foretold {wanted:?}", (margin, verdict))));
    }
    Ok(())
}

fn requirement_text(bench: &mut Bench, rng: &mut Prng) -> Result<(), Failure> {
    let broken = rng.once_in(5);
    let text = if broken { bad_requirement(rng) } else { damaged_requirement(rng) };
    let refusal = at(&text, compare::requirements(bench.others, &text, WHOLE_TABLE))?;
    let room = [rng.below(WHOLE_TABLE[0] + 4), rng.below(3)];
    at(&text, compare::requirements(bench.others, &text, room))?;
    if broken && refusal != 2 {
        return at(&text, Err("a bad requirement was read".to_string()));
    }
    bench.tally.add(format!("requirement refused={refusal}"));
    if let Some(marks) = marked::refused_text(&text) {
        bench.tally.add(format!("requirement: {marks}"));
    }
    at(&text, read_again(bench, &text))
}

fn rows_text(bench: &mut Bench, rng: &mut Prng) -> Result<(), Failure> {
    let draft = sound(rng).draft;
    let text = if rng.once_in(4) { damaged(rng) } else { draft.text() };
    // Damage may have moved where the rows begin; their text is then some other text.
    let front = draft.text().len() - rows_length(&draft.text(), draft.lines_before_rows());
    let rows = &text[front.min(text.len())..];
    let channels = if rng.once_in(10) { rng.pick(&[0, 9, u64::MAX]) } else { draft.channels };
    let measured = draft.measured().len();
    let times = (measured + rng.below(4)).saturating_sub(rng.below(2));
    let values = (measured * draft.channels as usize + rng.below(9)).saturating_sub(rng.below(3));
    let lengths = [times, values, rng.pick(&[0, 1, COUNTS, COUNTS, COUNTS, COUNTS + 1])];
    let refusal = at(rows, compare::rows(bench.others, rows, channels, lengths))?;
    bench.tally.add(format!("rows refused={refusal}"));
    Ok(())
}

fn rows_length(text: &[u8], lines_before: usize) -> usize {
    text.split_inclusive(|&byte| byte == b'\n').skip(lines_before).map(<[u8]>::len).sum()
}

/// Sheets at each limit: the same in every run, always put to the program too.
pub fn limit_sheets(bench: &mut Bench) -> Result<(), Failure> {
    for limit in limits() {
        let lines = printed(&answered(bench, &limit.text)?);
        if lines != limit.printed.as_bytes() {
            let lines = String::from_utf8_lossy(&lines).into_owned();
            let what = format!("{}: {lines:?}, not {:?}", limit.name, limit.printed);
            return at(&limit.text, Err(what));
        }
        for room in [0, 1, 60, lines.len() - 1, lines.len()] {
            at(&limit.text, compare::answers(bench.others, &limit.text, &lines, room))?;
        }
        for room in [[0; 5], [4, 3, 7, 32, 32], [5, 31, 1, 1, 31], [6, 33, 9, 33, 33]] {
            at(&limit.text, compare::sheets(bench.others, &limit.text, room))?;
        }
        bench.tally.add("limits");
    }
    limit_rows(bench)?;
    limit_distances(bench)?;
    limit_tables(bench)?;
    limit_windows(bench)?;
    limit_watches(bench)
}

/// Distances where the products are largest, and where 4, 13 and 7 meet.
fn limit_distances(bench: &mut Bench) -> Result<(), Failure> {
    let big = 1_000_000_000;
    let (unset, free, least, most, between) = (0, 1, 2, 3, 4);
    for (predicate, scale, value, wanted) in [
        ((least, 7, -big, 0), 1_000, big, Ok(2_000_000_001_000)),
        ((least, 0, -big, 0), 1_000, -big, Ok(1_000)),
        ((least, 0, big, 0), 1_000, -big, Ok(-2_000_000_000_000)),
        ((most, 7, 0, big), 1_000, -big, Ok(2_000_000_001_000)),
        ((most, 0, 0, big), 999, big, Ok(999)),
        ((most, 0, 0, -big), 1_000, big, Ok(-2_000_000_000_000)),
        ((between, 0, -big, big), 1_000, 0, Ok(1_000_000_001_000)),
        ((between, 0, -big, big), 1, -big, Ok(1)),
        ((free, 0, big, -big), 1_000, big, Ok(4_000_000_000_000)),
        ((unset, 0, big, -big), 1_000, big, Ok(4_000_000_000_000)),
        ((least, 0, -big, 0), 1_000, -big - 1, Err(7)),
        ((free, 0, 0, 0), 0, 0, Err(13)),
        ((unset, 0, 0, 0), 1_001, 0, Err(13)),
        ((least, 0, 0, 0), u64::MAX, big + 1, Err(13)),
        ((least, 8, 0, 0), 0, big + 1, Err(4)),
    ] {
        let wanted = wanted.map_or_else(|number| (number, SIGNED_NOISE), |found| (0, found));
        let shown = format!("{predicate:?} {scale} {value}\n").into_bytes();
        let found = at(&shown, compare::distance(bench.others, predicate, scale, value, 1))?;
        if found != wanted {
            return at(&shown, Err(format!("distance {found:?}, not {wanted:?}")));
        }
        bench.tally.add("limits");
    }
    Ok(())
}

/// The row reader's own limits, which no program's room hides.
fn limit_rows(bench: &mut Bench) -> Result<(), Failure> {
    let row = b"t=0 src=m v0=0\n";
    for (count, lengths, wanted) in [
        (4_096, (5_000, 5_000), 0),
        (4_097, (5_000, 5_000), 5),
        (4_096, (4_095, 5_000), 5),
        (4_096, (4_096, 4_095), 5),
        (4_096, (4_096, 4_096), 0),
        (0, (0, 0), 0),
        (1, (0, 9), 5),
        (1, (9, 0), 5),
    ] {
        let text = row.repeat(count);
        let lengths = [lengths.0, lengths.1, COUNTS];
        let refusal = at(&text, compare::rows(bench.others, &text, 1, lengths))?;
        if refusal != wanted {
            return at(&text, Err(format!("{count} rows: refused by {refusal}, not {wanted}")));
        }
        bench.tally.add("limits");
    }
    Ok(())
}
