//! Sheets with several requirements: the lines that they print, worked out by hand.

use crate::answer::answer;
use crate::refusal::Refusal;
use crate::sheet::read_sheet;

/// The rows of document 01's example: p0 is at least 5, the values are 10, 11, 10, 9, 10.
const ROWS: &str =
    "t=0 src=m v0=10\nt=1 src=m v0=11\nt=2 src=m v0=10\nt=3 src=m v0=9\nt=4 src=m v0=10\n";

/// What a requirement of that recording prints, by its text.
const G: (&str, &str) = ("G[0,2]p0", "rows=5 filled=0 margin=6 hold=5 fail=-6 verdict=holds");
const F: (&str, &str) = ("F[1,3]p0", "rows=5 filled=0 margin=7 hold=6 fail=-7 verdict=holds");
const NOT: (&str, &str) = ("!p0", "rows=5 filled=0 margin=-6 hold=-6 fail=6 verdict=fails");
const P: (&str, &str) = ("p0", "rows=5 filled=0 margin=6 hold=6 fail=-6 verdict=holds");
const T: (&str, &str) = (
    "T",
    "rows=5 filled=0 margin=4000000000000 hold=4000000000000 fail=-4000000000000 verdict=holds",
);

/// All that stands before the rows. Every channel has scale 1.
fn front(channels: u64, requirements: &[&str]) -> String {
    let due = if channels <= 8 { channels } else { 0 };
    let scales: String = (0..due).map(|channel| format!("c={channel} scale=1\n")).collect();
    let lines: String = requirements.iter().map(|text| format!("req={text}\n")).collect();
    format!("chan={channels}\n{scales}p=0 ch=0 lo=5 hi=*\nstep=1\ndrift=2\n{lines}")
}

fn sheet(requirements: &[&str]) -> String {
    front(1, requirements) + ROWS
}

fn says(text: &str, lines: &[&str]) {
    let wanted: String = lines.iter().map(|line| format!("{line}\n")).collect();
    assert_eq!(String::from_utf8(answer(text.as_bytes())).unwrap(), wanted, "{text}");
}

/// Each of the requirements is refused by the number that stands at its place.
fn refuses_each(text: &str, numbers: &[u64]) {
    let line = |(k, number): (usize, &u64)| format!("req={k} refused={number}");
    let lines: Vec<String> = numbers.iter().enumerate().map(line).collect();
    says(text, &lines.iter().map(String::as_str).collect::<Vec<_>>());
}

fn refuses(text: &str, number: u64) {
    says(text, &[&format!("refused={number}")]);
}

#[test]
fn one_requirement_keeps_the_old_form() {
    for (text, line) in [G, F, NOT, P, T] {
        says(&sheet(&[text]), &[line]);
    }
    refuses(&sheet(&[""]), 2);
    refuses(&sheet(&["p1"]), 3);
    refuses(&front(1, &["p0"]), 5);
}

#[test]
fn lines_come_by_rising_margin() {
    let wanted = [
        format!("req=2 {}", NOT.1),
        format!("req=0 {}", G.1),
        format!("req=1 {}", F.1),
        format!("req=3 {}", T.1),
    ];
    says(&sheet(&[G.0, F.0, NOT.0, T.0]), &wanted.each_ref().map(String::as_str));
    let two = [format!("req=0 {}", G.1), format!("req=1 {}", F.1)];
    says(&sheet(&[G.0, F.0]), &two.each_ref().map(String::as_str));
    let turned = [format!("req=1 {}", G.1), format!("req=0 {}", F.1)];
    says(&sheet(&[F.0, G.0]), &turned.each_ref().map(String::as_str));
}

#[test]
fn equal_margins_stand_in_sheet_order() {
    // Their holds differ, and the smaller one is in front or behind, as the sheet has it.
    let wanted = [format!("req=0 {}", G.1), format!("req=1 {}", P.1)];
    says(&sheet(&[G.0, P.0]), &wanted.each_ref().map(String::as_str));
    let wanted = [format!("req=0 {}", P.1), format!("req=1 {}", G.1)];
    says(&sheet(&[P.0, G.0]), &wanted.each_ref().map(String::as_str));
    let wanted = [
        format!("req=1 {}", NOT.1),
        format!("req=4 {}", NOT.1),
        format!("req=0 {}", P.1),
        format!("req=2 {}", G.1),
        format!("req=3 {}", P.1),
    ];
    let mixed = sheet(&[P.0, NOT.0, G.0, P.0, NOT.0]);
    says(&mixed, &wanted.each_ref().map(String::as_str));
}

#[test]
fn refused_requirements_follow_in_sheet_order() {
    // 3 in front of 2: not by their numbers.
    let wanted = [
        format!("req=3 {}", NOT.1),
        format!("req=1 {}", G.1),
        "req=0 refused=3".to_string(),
        "req=2 refused=2".to_string(),
        "req=4 refused=3".to_string(),
    ];
    let mixed = sheet(&["p1", G.0, "p0 ", NOT.0, "T|p15"]);
    says(&mixed, &wanted.each_ref().map(String::as_str));
    refuses_each(&sheet(&["", "p1", "p16"]), &[2, 3, 2]);
}

#[test]
fn sixteen_and_seventeen() {
    let lines: Vec<String> = (0..16).map(|k| format!("req={k} {}", P.1)).collect();
    says(&sheet(&["p0"; 16]), &lines.iter().map(String::as_str).collect::<Vec<_>>());
    refuses(&sheet(&["p0"; 17]), 12);
    refuses(&sheet(&["p0"; 18]), 12);
    refuses(&sheet(&["p0"; 300]), 12);
    // 12 comes before 2 and before all that a recording may be refused for.
    refuses(&sheet(&[""; 17]), 12);
    let mut one_bad = ["p0"; 17];
    one_bad[3] = "p1";
    refuses(&sheet(&one_bad), 12);
    refuses(&sheet(&["p0"; 17]).replace("step=1", "step=0"), 12);
    refuses(&front(1, &["p0"; 17]), 12);
    // A tenth number has two digits: 10 stands behind 9 and not behind 1.
    let mut last = ["p0"; 16];
    last[10] = "!p0";
    let first = format!("req=10 {}\nreq=0 ", NOT.1);
    assert!(answer(sheet(&last).as_bytes()).starts_with(first.as_bytes()));
}

#[test]
fn refusal_1_comes_before_12() {
    let broken = |requirements: &[&str], row: &str| sheet(requirements) + row;
    for row in ["t=9 src=m\n", "\n", "junk\n", "t=9 src=m v0=10", "req=p0\n", "t=9 src=f v0=-0\n"] {
        for count in [1, 16, 17, 18] {
            refuses(&broken(&vec!["p0"; count], row), 1);
        }
    }
    let long: String = "t=0 src=f v0=10\n".repeat(4_096);
    refuses(&(sheet(&["p0"; 17]) + &long), 1);
    refuses(&sheet(&["p0"; 17]).replace("step=1", "step=01"), 1);
}

#[test]
fn where_the_requirements_begin_and_end() {
    refuses(&sheet(&[]), 1);
    refuses(&front(1, &[]), 1);
    // A row in front, or between: the rows have begun.
    refuses(&(front(1, &[]) + "t=0 src=m v0=10\nreq=p0\n"), 1);
    refuses(&(front(1, &["p0"]) + "t=0 src=m v0=10\nreq=p0\nt=1 src=m v0=10\n"), 1);
    refuses(&(front(1, &["p0"]) + "\nreq=p0\n" + ROWS), 1);
    // A key that is another, or cut short, is no requirement.
    for line in ["req\n", "re=p0\n", "Req=p0\n", " req=p0\n", "req =p0\n"] {
        refuses(&(front(1, &["p0"]) + line + ROWS), 1);
    }
    // What follows the equals sign is the requirement, a key and the rest included.
    refuses_each(&(front(1, &["req=p0", "p0\r", "chan=1"]) + ROWS), &[2, 2, 2]);
}

#[test]
fn a_requirement_without_its_line_feed() {
    for channels in [0, 1, 8, 9] {
        for requirements in [&["p0"][..], &["p0", "T"], &["T"; 16], &["T"; 17], &["T", ""]] {
            let text = front(channels, requirements);
            refuses(text.strip_suffix('\n').unwrap(), 1);
        }
    }
    // Cut in the key it is a row, unread or broken.
    refuses_each(&(front(0, &["T", "p1"]) + "req"), &[4, 3]);
    refuses(&(front(1, &["T", "p1"]) + "req"), 1);
}

#[test]
fn rows_of_no_width_are_unread() {
    let junk = "junk\r\nreq=p0\n\0 no line feed";
    for channels in [0, 9, 4_294_967_295] {
        refuses_each(&(front(channels, &["T", "p1", "", "p0"]) + junk), &[4, 3, 2, 4]);
        refuses(&(front(channels, &["T"]) + junk), 4);
        refuses(&(front(channels, &["T"; 17]) + junk), 12);
        refuses(&(front(channels, &[]) + junk), 1);
        refuses_each(&(front(channels, &["T"; 16]) + "\n" + &"req=T\n".repeat(3)), &[4; 16]);
    }
}

#[test]
fn faults_of_the_recording_refuse_each_requirement() {
    let requirements = ["p0", "p1", "", "T"];
    for (old, new, number) in [
        ("ch=0", "ch=1", 4),
        ("scale=1", "scale=0", 13),
        ("scale=1", "scale=1001", 13),
        ("src=m", "src=f", 5),
        ("t=3", "t=2", 6),
        ("v0=11", "v0=1000000001", 7),
        ("step=1\n", "step=0\n", 9),
        ("drift=2", "drift=1000000001", 9),
        ("t=2 src=m", "t=2 src=f", 10),
        ("v0=11", "v0=15", 11),
    ] {
        refuses_each(&sheet(&requirements).replace(old, new), &[number, 3, 2, number]);
    }
}

#[test]
fn cells_are_counted_for_each_requirement() {
    // Its margin alone would fit, but it has no verdict: among the refused, wherever it stands.
    let rows: String = (0..1_366).map(|t| format!("t={t} src=m v0=10\n")).collect();
    let line = "rows=1366 filled=0 margin=6 hold=6 fail=-6 verdict=holds";
    let wanted = [format!("req=1 {line}"), format!("req=3 {line}"), "req=0 refused=8".to_string()];
    let text = front(1, &["!p0|!p0", "p0", "p1", "p0"]) + &rows;
    let with_3 = [&wanted[0][..], &wanted[1], &wanted[2], "req=2 refused=3"];
    says(&text, &with_3);
    // 8 comes before 9, 10 and 11, which refuse the others.
    for (old, new, number) in
        [("step=1\n", "step=0\n", 9), ("t=7 src=m", "t=7 src=f", 10), ("v0=10", "v0=1000", 11)]
    {
        let text = text.replacen(old, new, 1);
        refuses_each(&text, &[8, number, 3, number]);
    }
}

#[test]
fn the_sheet_reader() {
    let text = sheet(&["p0", "", "G[0,2]p0"]);
    let read = read_sheet(text.as_bytes()).unwrap();
    let texts: Vec<&str> = read.requirements.iter().map(|places| &text[places.clone()]).collect();
    assert_eq!(texts, ["p0", "", "G[0,2]p0"]);
    assert_eq!(&text[read.rows_from..], ROWS);
    assert_eq!(read_sheet(sheet(&["p0"; 17]).as_bytes()), Err(Refusal::TooManyRequirements));
    assert_eq!(read_sheet(sheet(&[""; 16]).as_bytes()).unwrap().requirements.len(), 16);
    assert_eq!(read_sheet(front(0, &["p0"; 17]).as_bytes()), Err(Refusal::TooManyRequirements));
}
