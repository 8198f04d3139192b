//! What a sheet must satisfy, without any other implementation.

use peer::answer::{answer, Answer};
use peer::between::{claims, contradicted, Claim};
use peer::generate::draft::Draft;
use peer::generate::prng::Prng;
use peer::generate::sheets::{filled, Sound};
use peer::grammar::read_requirement;
use peer::history::{Courses, History};
use peer::levels::{margin_before_scales, margin_by_levels, TOP_BEFORE_SCALES};
use peer::limits::TOP;
use peer::margin::Margins;
use peer::predicate::{Predicate, Range, UNSET};
use peer::sheet::read_sheet;
use peer::strengthen::Strengthening;
use peer::table::Table;
use peer::truth::{Samples, Truth};
use peer::verdict::{verdict, Verdict};

pub type Checked = Result<(), String>;

fn same<T: PartialEq + std::fmt::Debug>(what: &str, one: T, other: T) -> Checked {
    if one == other {
        Ok(())
    } else {
        Err(format!("{what}: {one:?} and {other:?}"))
    }
}

fn ensure(condition: bool, what: impl Fn() -> String) -> Checked {
    if condition {
        Ok(())
    } else {
        Err(what())
    }
}

/// The readers give back what the sheet was written from.
pub fn read_back(sound: &Sound) -> Checked {
    let draft = &sound.draft;
    let text = draft.text();
    let sheet = read_sheet(&text).map_err(|refusal| format!("sheet refused: {refusal:?}"))?;
    same("channels", sheet.channels, draft.channels)?;
    same("scales", &sheet.scales, &draft.scales)?;
    same("step", sheet.step, draft.step)?;
    same("drift", sheet.drift, draft.drift)?;
    let requirements: Vec<&[u8]> =
        sheet.requirements.iter().map(|places| &text[places.clone()]).collect();
    same("requirements", &requirements, &draft.requirements.iter().map(Vec::as_slice).collect())?;
    for number in 0..16 {
        same("predicate", sheet.predicates[number as usize], drafted(draft, number))?;
    }
    for (requirement, tree) in requirements.iter().zip(&sound.trees) {
        same("table", read_requirement(requirement), Ok(Table::of_tree(tree)))?;
    }
    Ok(())
}

/// The text without its other `req=` lines: of the lines that begin so, one behind the other, the
/// one of number k is kept.
pub fn only(text: &[u8], k: usize) -> Vec<u8> {
    let lines: Vec<&[u8]> = text.split_inclusive(|&byte| byte == b'\n').collect();
    let is_requirement = |line: &&[u8]| line.starts_with(b"req=");
    let first = lines.iter().position(is_requirement).unwrap_or(lines.len());
    let count = lines[first..].iter().take_while(|line| is_requirement(line)).count();
    [&lines[..first], &lines[first + k..first + k + 1], &lines[first + count..]].concat().concat()
}

/// One of several printed lines.
pub struct Line {
    pub k: usize,
    /// What follows `req=K` and the space.
    pub alone: Vec<u8>,
    /// None where the requirement is refused.
    pub margin: Option<i64>,
}

/// The lines of an answer to several requirements, from its bytes.
pub fn lines(printed: &[u8]) -> Result<Vec<Line>, String> {
    let line = |bytes: &[u8]| {
        let words = std::str::from_utf8(bytes).ok()?.strip_prefix("req=")?;
        let (k, alone) = words.split_once(' ')?;
        let margin = alone.split(' ').find_map(|word| word.strip_prefix("margin="));
        let margin = match margin {
            Some(margin) => Some(margin.parse().ok()?),
            None => alone.starts_with("refused=").then_some(None)?,
        };
        Some(Line { k: k.parse().ok()?, alone: alone.as_bytes().to_vec(), margin })
    };
    let lines: Option<Vec<Line>> =
        printed.split_inclusive(|&byte| byte == b'\n').map(line).collect();
    lines.ok_or("a line without its number, or of no known form".to_string())
}

/// "Lines come by rising margin, equal margins in sheet order; refused requirements follow, in
/// sheet order": each requirement once, and of neighbours the one that must precede.
pub fn in_order(lines: &[Line], count: usize) -> Checked {
    let mut numbers: Vec<usize> = lines.iter().map(|line| line.k).collect();
    numbers.sort();
    same("numbers of the lines", numbers, (0..count).collect())?;
    for pair in lines.windows(2) {
        let (one, next) = (&pair[0], &pair[1]);
        let precedes = match (one.margin, next.margin) {
            (Some(margin), Some(other)) => margin < other || margin == other && one.k < next.k,
            (Some(_), None) => true,
            (None, Some(_)) => false,
            (None, None) => one.k < next.k,
        };
        ensure(precedes, || format!("line {} stands before line {}", one.k, next.k))?;
    }
    Ok(())
}

/// "Each answer equals what that requirement alone would get, refusal included."
pub fn alone(text: &[u8], line: &Line) -> Checked {
    let printed = String::from_utf8_lossy(&line.alone).into_owned();
    let single = String::from_utf8_lossy(&answer(&only(text, line.k))).into_owned();
    same(&format!("line of requirement {}, and its own sheet's", line.k), printed, single)
}

fn drafted(draft: &Draft, number: u64) -> Predicate {
    let Some(line) = draft.predicates.iter().find(|line| line.number == number) else {
        return UNSET;
    };
    let range = match (line.lo, line.hi) {
        (None, None) => Range::Free,
        (Some(lo), None) => Range::AtLeast(lo),
        (None, Some(hi)) => Range::AtMost(hi),
        (Some(lo), Some(hi)) => Range::Between(lo, hi),
    };
    Predicate { channel: line.channel, range }
}

/// "No figure in a well-written filled row reaches an answer."
pub fn filled_unread(draft: &Draft, rng: &mut Prng) -> Checked {
    let mut other = draft.clone();
    for row in other.rows.iter_mut().filter(|row| !row.measured) {
        *row = filled(rng, draft.channels);
    }
    same("answers with other filled rows", answer(&draft.text()), answer(&other.text()))
}

/// Margins by a second way, their signs by truth, and strengthened ones never above plain ones.
pub fn margins(accepted: &Answer) -> Checked {
    let (predicates, recording) = (&accepted.predicates, &accepted.recording);
    let trees = accepted.table.trees();
    let mut margins = Margins::over(predicates, recording);
    let samples = Samples { predicates, recording };
    let mut truth = Truth::over(&samples);
    for tree in &trees {
        let signs: Vec<bool> = margins.of(tree).iter().map(|&margin| margin > 0).collect();
        same("sign of the margin and truth", signs, truth.of(tree).to_vec())?;
        ensure(!margins.of(tree).contains(&0), || "a margin of 0".to_string())?;
    }
    let root = &trees[trees.len() - 1];
    let mut strengthening = Strengthening::by(accepted.step);
    let pushed = strengthening.push(root, false);
    let (hold, fail) = (accepted.judgement.hold, accepted.judgement.fail);
    for (what, tree, margin) in [
        ("margin", pushed, accepted.margin),
        ("hold", strengthening.strengthened(root, false), hold),
        ("fail", strengthening.strengthened(root, true), fail),
    ] {
        same(what, margin, margin_by_levels(&tree, predicates, recording))?;
        if let Some(scale) = one_scale(&recording.scales) {
            let before = margin_before_scales(&tree, predicates, recording);
            same(&format!("{what}, and {scale} times what it was"), margin, scaled(before, scale))?;
        }
    }
    ensure(hold <= accepted.margin, || "hold above the margin".to_string())?;
    ensure(fail <= -accepted.margin, || "fail above the negated margin".to_string())?;
    let shown = match accepted.judgement.verdict {
        Verdict::Holds => accepted.margin > 0,
        Verdict::Fails => accepted.margin < 0,
        Verdict::NotShown => true,
    };
    ensure(shown, || "the verdict contradicts the samples".to_string())
}

/// The scale of all channels, where it is the same.
fn one_scale(scales: &[u64]) -> Option<i64> {
    scales.iter().all(|scale| *scale == scales[0]).then_some(scales[0] as i64)
}

/// "With all scales 1 only TOP differs from before"; with another scale of all channels, every
/// margin that is neither TOP nor −TOP is so many times what it was.
fn scaled(before: i64, scale: i64) -> i64 {
    match before {
        TOP_BEFORE_SCALES => TOP,
        other if other == -TOP_BEFORE_SCALES => -TOP,
        other => scale * other,
    }
}

/// What trying histories came to.
pub enum Tried {
    /// Every history there is, so many, asked about these claims.
    All(u128, Vec<Claim>),
    /// Some of them.
    Some,
    /// The span is too long.
    None,
}

const LONGEST_SPAN: i64 = 60;
const MOST_HISTORIES: u128 = 2_500;
const DRAWN_HISTORIES: usize = 24;

/// Demand 3, asked of all histories where they are few, else of some drawn at random.
pub fn histories(accepted: &Answer, rng: &mut Prng) -> Result<Tried, String> {
    let recording = &accepted.recording;
    if recording.time(recording.rows() - 1) - recording.time(0) > LONGEST_SPAN {
        return Ok(Tried::None);
    }
    let claims = work_claims(accepted)?;
    let courses = Courses::of(recording, accepted.step, accepted.drift);
    let count = courses.count();
    let mut found = None;
    let mut ask = |history: &History| {
        if found.is_none() {
            found = contradicted(&claims, &accepted.predicates, history, accepted.step)
                .map(|(claim, second)| format!("{claim:?} at second {second} of {history:?}"));
        }
    };
    if count <= MOST_HISTORIES {
        courses.each(&mut ask);
    } else {
        for _ in 0..DRAWN_HISTORIES {
            ask(&drawn(&courses, rng));
        }
    }
    match found {
        Some(contradiction) => Err(format!("a history contradicts {contradiction}")),
        None if count <= MOST_HISTORIES => Ok(Tried::All(count, claims)),
        None => Ok(Tried::Some),
    }
}

/// The claims of the requirement's own verdict.
pub fn work_claims(accepted: &Answer) -> Result<Vec<Claim>, String> {
    let (table, recording) = (&accepted.table, &accepted.recording);
    let mut work = vec![0; 2 * table.count() * recording.rows()];
    let (step, drift) = (accepted.step, accepted.drift);
    let judgement = verdict(table, &accepted.predicates, recording, step, drift, &mut work)
        .map_err(|refusal| format!("accepted, then refused: {refusal:?}"))?;
    let claims = claims(table, recording, drift, &work);
    // The verdict itself is the claim on the root at the first sample.
    let root = table.count() - 1;
    let first = |truth| {
        claims.iter().any(|c| c.node == root && c.time == recording.time(0) && c.truth == truth)
    };
    ensure(first(true) == (judgement.verdict == Verdict::Holds), || "holds".to_string())?;
    ensure(first(false) == (judgement.verdict == Verdict::Fails), || "fails".to_string())?;
    Ok(claims)
}

/// One history: mostly the ends of what is allowed, where contradictions are likeliest.
fn drawn(courses: &Courses, rng: &mut Prng) -> History {
    let ends_only = rng.once_in(2);
    courses.history(|choice| match rng.below(if ends_only { 2 } else { 3 }) {
        0 => choice.least,
        1 => choice.most,
        _ => rng.between(choice.least, choice.most),
    })
}
