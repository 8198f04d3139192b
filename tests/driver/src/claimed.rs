//! What claims on until and eventually are about: where the window starts, which ends it excludes, and
//! where the samples lie that show the claim. Counted, so that a run fails in which histories are not
//! asked about each.

use crate::marked::{form, forms};
use peer::answer::Answer;
use peer::between::Claim;
use peer::margin::Margins;
use peer::strengthen::Strengthening;
use peer::tree::{atom, Atom, Tree};
use peer::window::Window;
use std::rc::Rc;

const LETTERS: [char; 2] = ['U', 'F'];
/// The low end as it is read.
const STARTS: [&str; 4] =
    ["from now", "from below the step", "from the step", "from past the step"];
/// Some second that is asked about comes after every sample that shows the claim.
const EARLIER: &str = "shown by earlier samples alone";

/// Everything that is to be counted.
pub fn all() -> Vec<String> {
    let each =
        |letter| STARTS.into_iter().chain([EARLIER]).map(move |what| format!("{letter} {what}"));
    LETTERS.into_iter().flat_map(each).chain(forms(&LETTERS)).collect()
}

/// What the claim is about, if it is one on until or eventually once "not" is pushed down.
pub fn about(claim: &Claim, accepted: &Answer) -> Vec<String> {
    let (recording, step) = (&accepted.recording, accepted.step as i64);
    let mut strengthening = Strengthening::by(accepted.step);
    let pushed = strengthening.push(&claim.tree, !claim.truth);
    let (letter, left, window, right) = match pushed.as_ref() {
        Tree::Until(left, window, right) => (LETTERS[0], left.clone(), *window, right.clone()),
        Tree::Eventually(window, left) => (LETTERS[1], atom(Atom::True), *window, left.clone()),
        _ => return Vec::new(),
    };
    let start = match window.as_read().lo {
        0 => STARTS[0],
        lo if lo < step => STARTS[1],
        lo if lo == step => STARTS[2],
        _ => STARTS[3],
    };
    let mut about = vec![format!("{letter} {start}"), format!("{letter} {}", form(window))];
    // The claim again, by those samples alone that are not before the last second asked about.
    let last = recording.time(recording.rows() - 1).min(claim.time + step);
    let contracted = window.contracted(step);
    let later = Window { lo: contracted.lo.max(last - claim.time), ..contracted };
    let until = Tree::Until(strengthening.windows(&left), later, strengthening.windows(&right));
    let margins = Margins::over(&accepted.predicates, recording).of(&Rc::new(until));
    if margins[claim.sample] <= accepted.drift as i64 {
        about.push(format!("{letter} {EARLIER}"));
    }
    about
}

#[cfg(test)]
mod tests {
    use super::*;
    use crate::checks::work_claims;
    use peer::answer::judge_sheet;

    /// What the claims on the requirement are about, by their samples: those at 0 and 5 seconds are
    /// inside p0 by more than the drift, those at 2 and 3 are outside.
    fn claimed(requirement: &str) -> Vec<(usize, String)> {
        let text = format!(
            "chan=1\nc=0 scale=1\np=0 ch=0 lo=5 hi=*\nstep=2\ndrift=1\nreq={requirement}\n\
             t=0 src=m v0=6\nt=2 src=m v0=4\nt=3 src=m v0=4\nt=5 src=m v0=6\n"
        );
        let entries = judge_sheet(text.as_bytes()).unwrap();
        let accepted = entries[0].as_ref().unwrap();
        let claims = work_claims(accepted).unwrap();
        let root = claims.iter().filter(|claim| claim.node == accepted.table.count() - 1);
        root.map(|claim| (claim.sample, about(claim, accepted).join(", ")))
            .filter(|(_, about)| !about.is_empty())
            .collect()
    }

    #[test]
    fn starts_and_samples() {
        for (requirement, wanted) in [
            (
                "TU[1,*]p0",
                &[(0, "U from below the step, U [,*]"), (1, "U from below the step, U [,*]")][..],
            ),
            ("TU[2,*]p0", &[(0, "U from the step, U [,*]")]),
            ("!TR[2,*]!p0", &[(0, "U from the step, U [,*]")]),
            ("TU[3,*]p0", &[(0, "U from past the step, U [,*]")]),
            // The first sample says it of the seconds 1 and 2 too.
            (
                "F[0,4]p0",
                &[
                    (0, "F from now, F [,], F shown by earlier samples alone"),
                    (2, "F from now, F [,]"),
                    (3, "F from now, F [,]"),
                ],
            ),
            (
                "TU[0,5)p0",
                &[
                    (0, "U from now, U [,), U shown by earlier samples alone"),
                    (2, "U from now, U [,)"),
                    (3, "U from now, U [,)"),
                ],
            ),
            // From 0 without 0 is from 1.
            (
                "F(0,*]p0",
                &[(0, "F from below the step, F (,*]"), (1, "F from below the step, F (,*]")],
            ),
            // The last sample claims it, and an always is not counted.
            ("G[0,1]p0", &[]),
            // Nothing is left of the window, so nothing is claimed.
            ("F[0,1]p0", &[]),
        ] {
            let wanted: Vec<(usize, String)> =
                wanted.iter().map(|&(sample, about)| (sample, about.to_string())).collect();
            assert_eq!(claimed(requirement), wanted, "{requirement}");
        }
    }
}
