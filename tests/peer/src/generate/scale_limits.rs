//! Sheets about scales: at and one past their limits, with `c=` lines that are not what is due,
//! with other refusals beside, and with the largest products.

use super::draft::Draft;
use super::limits::{draft, each, holds, limit, refused, several, sixty_four, Limit};
use crate::rows::Row;

pub fn limits() -> Vec<Limit> {
    [scales(), scale_lines(), scales_among_others(), largest_products()]
        .into_iter()
        .flatten()
        .collect()
}

/// The line of a requirement whose margin is also its hold and minus its fail.
fn shown(rows: usize, margin: i64, verdict: &str) -> String {
    let fail = -margin;
    format!("rows={rows} filled=0 margin={margin} hold={margin} fail={fail} verdict={verdict}\n")
}

fn scaled(scales: &[u64], requirement: &str) -> Draft {
    Draft { scales: scales.to_vec(), ..draft(scales.len() as u64, 3, requirement) }
}

/// "Scale 1 to 1,000", of every channel; predicate 0, of the first, has distance 1.
fn scales() -> Vec<Limit> {
    let holding = |margin| shown(3, margin, "holds");
    let mut limits = vec![
        limit("scale 1", scaled(&[1], "p0"), holding(1)),
        limit("scale 2", scaled(&[2], "p0"), holding(2)),
        limit("scale 1,000", scaled(&[1_000], "p0"), holding(1_000)),
        limit("scale 0", scaled(&[0], "p0"), refused(13)),
        limit("scale 1,001", scaled(&[1_001], "p0"), refused(13)),
        limit("scale 4,294,967,295", scaled(&[4_294_967_295], "p0"), refused(13)),
        limit("scale 4,294,967,296", scaled(&[4_294_967_296], "p0"), refused(1)),
        limit("scale 10,000,000,000", scaled(&[10_000_000_000], "p0"), refused(1)),
        limit("8 scales", scaled(&[7, 2, 3, 4, 5, 6, 1_000, 1], "p0"), holding(7)),
        limit("true has no scale", scaled(&[1_000], "T"), holding(4_000_000_000_000)),
    ];
    for channel in 1..8 {
        let mut scales = [1; 8];
        scales[channel] = 0;
        limits.push(limit(&format!("scale 0 of {channel}"), scaled(&scales, "p0"), refused(13)));
        scales[channel] = 1_001;
        limits.push(limit(
            &format!("scale 1,001 of {channel}"),
            scaled(&scales, "p0"),
            refused(13),
        ));
    }
    let mut free = scaled(&[1_000], "p0");
    free.predicates[0].lo = None;
    limits.push(limit("free has no scale", free, holding(4_000_000_000_000)));
    limits
}

/// "One per channel in order; none is due when chan isn't 1 to 8": whatever stands in their place.
fn scale_lines() -> Vec<Limit> {
    let sheet = |channels: u64, lines: &str, printed: String| {
        let whole = String::from_utf8(draft(channels, 2, "p0").text()).expect("text");
        let own: String = (0..channels).map(|c| format!("c={c} scale=1\n")).collect();
        let name = format!("{channels} channels, {}", lines.replace('\n', ", "));
        Limit { name, text: whole.replacen(&own, lines, 1).into_bytes(), printed }
    };
    let unread = |channels: u64, lines: &str, printed: String| {
        let text = format!("chan={channels}\n{lines}step=1\ndrift=0\nreq=T\n").into_bytes();
        Limit { name: format!("{channels} channels, {lines:?}"), text, printed }
    };
    let mut limits = vec![
        sheet(1, "c=0 scale=1\n", holds(2, 0)),
        sheet(2, "c=0 scale=1\nc=1 scale=9\n", holds(2, 0)),
    ];
    for (channels, lines) in [
        (1, ""),
        (1, "c=1 scale=1\n"),
        (1, "c=0 scale=1\nc=0 scale=1\n"),
        (1, "c=0 scale=1\nc=1 scale=1\n"),
        (1, "c=00 scale=1\n"),
        (1, "c=0 scale=01\n"),
        (1, "c=0 scale=-1\n"),
        (1, "c=0 scale=*\n"),
        (1, "c=0 scale=\n"),
        (1, "c=0\n"),
        (1, "scale=1\n"),
        (1, "scale=1 c=0\n"),
        (1, "c=0 scale=1 \n"),
        (1, "c=0  scale=1\n"),
        (1, "c=0 scale=1\r\n"),
        (1, "ch=0 scale=1\n"),
        (1, "c=0 scale=1"),
        (1, "\nc=0 scale=1\n"),
        (1, "c=4294967296 scale=1\n"),
        (2, "c=0 scale=1\n"),
        (2, "c=1 scale=1\n"),
        (2, "c=1 scale=1\nc=0 scale=1\n"),
        (2, "c=0 scale=1\nc=0 scale=1\n"),
        (2, "c=1 scale=1\nc=1 scale=1\n"),
        (2, "c=0 scale=1\nc=2 scale=1\n"),
        (2, "c=0 scale=1\nc=1 scale=1\nc=2 scale=1\n"),
        (2, "c=0 scale=1\nc=1 scale=1\nc=1 scale=1\n"),
    ] {
        limits.push(sheet(channels, lines, refused(1)));
    }
    let lines = |count| (0..count).map(|c| format!("c={c} scale=1\n")).collect::<String>();
    for count in [0, 7, 9] {
        limits.push(sheet(8, &lines(count), refused(1)));
    }
    for channels in [0, 9, 4_294_967_295] {
        limits.push(unread(channels, "", refused(4)));
        for count in [1, 8, 9] {
            limits.push(unread(channels, &lines(count), refused(1)));
        }
    }
    limits
}

/// 13 comes after 1, 12, 2, 3 and 4, and before 5 and all others.
fn scales_among_others() -> Vec<Limit> {
    let bad = |requirement: &str| scaled(&[1, 0], requirement);
    let edited = |edit: fn(&mut Draft)| {
        let mut draft = bad("p0");
        edit(&mut draft);
        draft
    };
    let mut broken_row = bad("p0").text();
    broken_row.extend(b"t=9 src=m\n");
    let mut three = several(3, &["", "p1", "p0"]);
    three.scales[0] = 1_001;
    let each = each(3, |k| refused([2, 3, 13][k]));
    vec![
        Limit { name: "13 after a broken row".into(), text: broken_row, printed: refused(1) },
        limit(
            "13 after 12",
            edited(|draft| draft.requirements = vec![b"p0".to_vec(); 17]),
            refused(12),
        ),
        limit("13 after 2", bad(""), refused(2)),
        limit("13 after 3", bad("p1"), refused(3)),
        limit("13 after 4, a channel", edited(|draft| draft.predicates[0].channel = 2), refused(4)),
        limit("13 after 4, an end", edited(|draft| draft.predicates[0].hi = Some(-1)), refused(4)),
        limit("13 of each requirement", three, each),
        limit("13 before 5, no row", edited(|draft| draft.rows.clear()), refused(13)),
        limit(
            "13 before 5, 2,049 rows",
            Draft { scales: vec![0], ..draft(1, 2_049, "p0") },
            refused(13),
        ),
        limit("13 before 6", edited(|draft| draft.rows[1].time = 0), refused(13)),
        limit("13 before 7", edited(|draft| draft.rows[1].values[1] = 1 << 30), refused(13)),
        limit(
            "13 before 8",
            Draft { scales: vec![1_001], ..draft(1, 65, &sixty_four()) },
            refused(13),
        ),
        limit("13 before 9", edited(|draft| draft.step = 0), refused(13)),
        limit("13 before 10", edited(|draft| draft.rows[2].time = 9), refused(13)),
        limit("13 before 11", edited(|draft| draft.rows[1].values[0] = 5), refused(13)),
    ]
}

/// Values, ends and scales at their limits. The drift at its own is no limit of a distance.
fn largest_products() -> Vec<Limit> {
    let big = 1_000_000_000;
    let with_drift = |scale, values: &[i64], drift, lo, hi| {
        let row = |(time, &value): (usize, &i64)| Row {
            time: time as u64,
            measured: true,
            values: vec![value],
        };
        let mut draft = scaled(&[scale], "p0");
        draft.rows = values.iter().enumerate().map(row).collect();
        (draft.predicates[0].lo, draft.predicates[0].hi, draft.drift) = (lo, hi, drift);
        draft
    };
    let of = |scale, value, lo, hi| with_drift(scale, &[value], big as u64, lo, hi);
    vec![
        limit(
            "the largest distance",
            of(1_000, big, Some(-big), None),
            shown(1, 2_000_000_001_000, "holds"),
        ),
        limit(
            "the largest distance below",
            of(1_000, -big, None, Some(big)),
            shown(1, 2_000_000_001_000, "holds"),
        ),
        limit(
            "the least distance",
            of(1_000, -big, Some(big), None),
            shown(1, -2_000_000_000_000, "fails"),
        ),
        limit(
            "the least distance above",
            of(1_000, big, None, Some(-big)),
            shown(1, -2_000_000_000_000, "fails"),
        ),
        limit(
            "half way between the limits",
            of(1_000, 0, Some(-big), Some(big)),
            shown(1, 1_000_000_001_000, "holds"),
        ),
        // The drift's own range is not scaled: 999,999 and 1,000,000 numbers inside.
        limit(
            "a margin of the largest drift",
            of(1_000, 999_999, Some(0), None),
            shown(1, 1_000_000_000, "unshown"),
        ),
        limit(
            "a margin past the largest drift",
            of(1_000, 1_000_000, Some(0), None),
            shown(1, 1_000_001_000, "holds"),
        ),
        limit(
            "a jump of twice the largest drift",
            with_drift(1_000, &[0, 2_000_000], big as u64, Some(0), None),
            shown(2, 1_000, "unshown"),
        ),
        limit(
            "a jump past twice the largest drift",
            with_drift(1_000, &[0, 2_000_001], big as u64, Some(0), None),
            refused(11),
        ),
        limit(
            "the largest jump",
            with_drift(1, &[-big, big], big as u64, Some(-big), None),
            shown(2, 1, "unshown"),
        ),
        limit(
            "the largest jump, scaled",
            with_drift(1_000, &[big, -big], big as u64, Some(0), None),
            refused(11),
        ),
        limit(
            "the largest jump, scale 2",
            with_drift(2, &[-big, big], big as u64, Some(0), None),
            refused(11),
        ),
        limit(
            "a drift past its limit",
            with_drift(1_000, &[0], big as u64 + 1, Some(0), None),
            refused(9),
        ),
    ]
}
