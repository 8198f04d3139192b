//! Sheets and calls with scales: numbers worked out by hand.

use crate::answer::answer;
use crate::between::{claims, contradicted};
use crate::grammar::read_requirement;
use crate::history::{Courses, History};
use crate::limits::TOP;
use crate::margin::margin;
use crate::predicate::{distance, judged_distance, Predicate, Predicates, Range, UNSET};
use crate::recording::Recording;
use crate::refusal::Refusal;
use crate::sheet::read_sheet;
use crate::table::Table;
use crate::verdict::{verdict, Judgement, Verdict};

/// Power in hundredths of a decibel, pump current in tenths of a milliampere: one of these weighs as
/// much as ten of those. The power's distances are 31, 33 and 30, the current's 8, 7 and 9.
const CARD: &str = "chan=2\nc=0 scale=1\nc=1 scale=10\n\
    p=0 ch=0 lo=-150 hi=*\np=1 ch=1 lo=* hi=312\nstep=1\ndrift=20\nreq=G[0,*](p0&p1)\n\
    t=0 src=m v0=-120 v1=305\nt=1 src=m v0=-118 v1=306\nt=2 src=m v0=-121 v1=304\n";

/// The card with one part of its text exchanged, which must stand there once.
fn with(old: &str, new: &str) -> String {
    assert_eq!(CARD.matches(old).count(), 1, "{old:?}");
    CARD.replace(old, new)
}

fn says(text: &str, line: &str) {
    assert_eq!(String::from_utf8(answer(text.as_bytes())).unwrap(), format!("{line}\n"), "{text}");
}

/// What a requirement prints whose margin is its hold too, and minus its fail.
fn shows(text: &str, margin: i64, verdict: &str) {
    let fail = -margin;
    let line = format!("margin={margin} hold={margin} fail={fail} verdict={verdict}");
    says(text, &format!("rows=3 filled=0 {line}"));
}

fn refuses(text: &str, number: u64) {
    says(text, &format!("refused={number}"));
}

#[test]
fn a_margin_over_two_units() {
    // The smaller of 30 and 70.
    shows(CARD, 30, "holds");
    // Unscaled, the current's 7 is the smallest, and shows nothing.
    shows(&with("scale=10", "scale=1"), 7, "unshown");
    // 30 and 28; 60 and 70; 390 and 70.
    shows(&with("scale=10", "scale=4"), 28, "holds");
    shows(&with("c=0 scale=1", "c=0 scale=2"), 60, "holds");
    shows(&with("c=0 scale=1", "c=0 scale=13"), 70, "holds");
    // The larger of 30 and 70, and minus the current's smallest.
    shows(&with("p0&p1", "p0|p1"), 70, "holds");
    shows(&with("G[0,*](p0&p1)", "F[0,*]!p1"), -70, "fails");
}

#[test]
fn a_verdict_in_the_scaled_unit() {
    for (drift, verdict) in [(29, "holds"), (30, "unshown")] {
        shows(&with("drift=20", &format!("drift={drift}")), 30, verdict);
    }
    // The current's 8 alone.
    let current = |drift| with("G[0,*](p0&p1)", "p1").replace("drift=20", drift);
    shows(&current("drift=79"), 80, "holds");
    shows(&current("drift=80"), 80, "unshown");
    shows(&current("drift=80").replace("p1\nt", "!p1\nt"), -80, "unshown");
    shows(&current("drift=79").replace("p1\nt", "!p1\nt"), -80, "fails");
}

#[test]
fn a_jump_in_the_scaled_unit() {
    // From 306 to 302 is 40 and twice the drift; to 301 is 50, and 5 where nothing is scaled.
    shows(&with("v1=304", "v1=302"), 30, "holds");
    refuses(&with("v1=304", "v1=301"), 11);
    shows(&with("v1=304", "v1=301").replace("scale=10", "scale=1"), 7, "unshown");
    // The power's 3 is 39, then 42, which a predicate need not concern.
    refuses(&with("c=0 scale=1", "c=0 scale=14"), 11);
    refuses(&with("c=0 scale=1", "c=0 scale=14").replace("p0&p1", "p1"), 11);
    // Each channel has its own: the current's 2 is 40, the power's 3 is 3.
    shows(&with("scale=10", "scale=20"), 30, "holds");
    refuses(&with("scale=10", "scale=21"), 11);
}

#[test]
fn what_has_no_distance_is_not_scaled() {
    for text in ["T", "G[9,9]p1", "p1|T", "p2"] {
        let free = with("hi=312\n", "hi=312\np=2 ch=1 lo=* hi=*\n");
        let answered = answer(free.replace("G[0,*](p0&p1)", text).as_bytes());
        let margin = format!(" margin={TOP} hold=");
        assert!(String::from_utf8(answered).unwrap().contains(&margin), "{text}");
    }
    for scale in [1, 2, 1_000] {
        assert_eq!(distance(Range::Free, scale, 7), TOP);
        assert_eq!(distance(Range::Unset, scale, 7), TOP);
    }
}

#[test]
fn distances_by_scale() {
    let between = Range::Between(3, 8);
    for (value, wanted) in [(2, -10), (3, 10), (8, 10), (9, -10), (5, 30), (-7, -100)] {
        assert_eq!(distance(between, 10, value), wanted);
    }
    let big = 1_000_000_000;
    assert_eq!(distance(Range::AtLeast(-big), 1_000, big), 2_000_000_001_000);
    assert_eq!(distance(Range::AtMost(big), 1_000, -big), 2_000_000_001_000);
    assert_eq!(distance(Range::AtLeast(big), 1_000, -big), -2_000_000_000_000);
    assert_eq!(distance(Range::AtMost(-big), 1_000, big), -2_000_000_000_000);
    assert_eq!(TOP, 4_000_000_000_000);
}

#[test]
fn refusals_of_a_distance() {
    let good = Predicate { channel: 7, range: Range::AtLeast(5) };
    let bad = Predicate { channel: 8, ..good };
    let beyond = 1_000_000_001;
    assert_eq!(judged_distance(&good, 1_000, 10), Ok(6_000));
    for scale in [0, 1_001, 4_294_967_295, u64::MAX] {
        assert_eq!(judged_distance(&good, scale, 10), Err(Refusal::Scales));
        assert_eq!(judged_distance(&good, scale, beyond), Err(Refusal::Scales));
        assert_eq!(judged_distance(&bad, scale, beyond), Err(Refusal::Predicates));
    }
    assert_eq!(judged_distance(&good, 1, beyond), Err(Refusal::Values));
    assert_eq!(judged_distance(&bad, 1, beyond), Err(Refusal::Predicates));
}

/// One channel: 5 and, a second later, 6. With a step of 1 every second is near both.
fn two_samples(scales: &[u64]) -> Recording {
    Recording { channels: 1, scales: scales.to_vec(), times: vec![0, 1], values: vec![5, 6] }
}

fn at_least(lo: i64) -> Predicates {
    let mut predicates = [UNSET; 16];
    predicates[0] = Predicate { channel: 0, range: Range::AtLeast(lo) };
    predicates
}

#[test]
fn histories_in_the_scaled_unit() {
    for (scale, drift, histories) in [
        // From −14 to 25, from 4 to 7, 5 and 6; the last ones' samples leave no number.
        (1, 20, 1_600),
        (10, 20, 16),
        (10, 19, 4),
        (10, 10, 4),
        (20, 20, 4),
        (21, 20, 0),
        (10, 9, 0),
        (1_000, 1_000, 4),
        (1_000, 999, 0),
    ] {
        let recording = two_samples(&[scale]);
        assert!(!recording.has_jump(drift));
        assert_eq!(Courses::of(&recording, 1, drift).count(), histories, "{scale} {drift}");
    }
    // Each channel by its own scale: 21 numbers about 5, and 6 with its two neighbours.
    let two = Recording { channels: 2, scales: vec![1, 10], times: vec![0], values: vec![5, 6] };
    let mut numbers = [Vec::new(), Vec::new()];
    Courses::of(&two, 1, 10).each(|history| {
        (0..2).for_each(|channel| numbers[channel].push(history.number(0, channel as u64)));
    });
    assert_eq!(numbers[0].len(), 63);
    for (channel, wanted) in [(0, (-5..=15).collect::<Vec<i64>>()), (1, vec![5, 6, 7])] {
        numbers[channel].sort();
        numbers[channel].dedup();
        assert_eq!(numbers[channel], wanted);
    }
}

#[test]
fn a_history_that_only_the_scale_excludes() {
    let (predicates, recording) = (at_least(3), two_samples(&[10]));
    let table = read_requirement(b"G[0,*]p0").unwrap();
    let mut work = [0; 8];
    let judged = verdict(&table, &predicates, &recording, 1, 20, &mut work);
    assert_eq!(judged, Ok(Judgement { verdict: Verdict::Holds, hold: 30, fail: -30 }));
    let claims = claims(&table, &recording, 20, &work);
    let courses = |scale| Courses::of(&two_samples(&[scale]), 1, 20);
    courses(10).each(|history| {
        assert!(contradicted(&claims, &predicates, history, 1).is_none());
    });
    // 2 is out of range. It is 3 from the first sample: 30 with the scale, more than the drift.
    let low = History { first: 0, channels: 1, numbers: vec![2, 5] };
    assert!(contradicted(&claims, &predicates, &low, 1).is_some());
    let listed = |scale| {
        let mut found = false;
        courses(scale).each(|history| found |= *history == low);
        found
    };
    assert!(listed(1) && !listed(10));
    // So that nothing is shown where the scale is 1.
    let plain = verdict(&table, &predicates, &two_samples(&[1]), 1, 20, &mut work);
    assert_eq!(plain, Ok(Judgement { verdict: Verdict::NotShown, hold: 3, fail: -3 }));
}

#[test]
fn counts_of_scales() {
    let (predicates, table) = (at_least(3), read_requirement(b"p0").unwrap());
    let many = |last| [vec![1; 4_999], vec![last]].concat();
    let nine = |last| [vec![1; 8], vec![last]].concat();
    for (scales, number) in [
        (vec![1], 0),
        (vec![1_000], 0),
        (vec![], 5),
        (vec![1, 1], 5),
        (nine(1), 5),
        (many(1), 5),
        (vec![0], 13),
        (vec![1_001], 13),
        (vec![u64::MAX], 13),
        // Each that is passed is judged, whatever their count.
        (vec![1, 0], 13),
        (vec![0, 1], 13),
        (nine(0), 13),
        (nine(u64::MAX), 13),
        (many(1_001), 13),
    ] {
        let recording = two_samples(&scales);
        let of = |table: &Table, recording: &Recording| {
            let plain = margin(table, &predicates, recording, &mut [0; 2]).err();
            let judged = verdict(table, &predicates, recording, 1, 1_000, &mut [0; 4]).err();
            assert_eq!(plain, judged);
            plain.map_or(0, Refusal::number)
        };
        assert_eq!(of(&table, &recording), number, "{scales:?}");
        // 3 and 4 come first; 5 has other reasons too, and comes before 6 and 7.
        assert_eq!(of(&Table::default(), &recording), 3);
        assert_eq!(of(&table, &Recording { channels: 0, ..recording.clone() }), 4);
        let fifth = if number == 13 { 13 } else { 5 };
        assert_eq!(of(&table, &Recording { times: vec![], ..recording.clone() }), fifth);
        let later = if number == 0 { 6 } else { number };
        assert_eq!(of(&table, &Recording { times: vec![1, 1], ..recording.clone() }), later);
        let later = if number == 0 { 7 } else { number };
        assert_eq!(of(&table, &Recording { values: vec![5, 1 << 40], ..recording }), later);
    }
}

#[test]
fn the_sheet_reader() {
    let scales = |text: &str| read_sheet(text.as_bytes()).map(|sheet| sheet.scales);
    assert_eq!(scales(CARD), Ok(vec![1, 10]));
    // Any number of the text's range is read; whether it is a scale is another question.
    assert_eq!(scales(&with("scale=10", "scale=0")), Ok(vec![1, 0]));
    assert_eq!(scales(&with("scale=10", "scale=4294967295")), Ok(vec![1, 4_294_967_295]));
    assert_eq!(scales(&with("scale=10", "scale=4294967296")), Err(Refusal::Text));
    let eight: String =
        (0..8).map(|channel| format!("c={channel} scale={}\n", 8 - channel)).collect();
    let front =
        |channels: u64, lines: &str| format!("chan={channels}\n{lines}step=1\ndrift=0\nreq=T\n");
    assert_eq!(scales(&front(8, &eight)), Ok(vec![8, 7, 6, 5, 4, 3, 2, 1]));
    for channels in [0, 9, 4_294_967_295] {
        assert_eq!(scales(&front(channels, "")), Ok(vec![]));
        assert_eq!(scales(&front(channels, &eight)), Err(Refusal::Text));
        refuses(&front(channels, ""), 4);
        refuses(&front(channels, "c=0 scale=1\n"), 1);
    }
    for channels in [1, 7] {
        assert_eq!(scales(&front(channels, &eight)), Err(Refusal::Text));
        assert_eq!(scales(&front(channels, "")), Err(Refusal::Text));
    }
}
