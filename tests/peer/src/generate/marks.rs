//! Marks of excluded ends: windows that are drawn with them, windows that are refused for them, and a
//! list in which every pair of marks comes with every short window, at the limits too.

use super::prng::Prng;
use crate::limits::{LARGEST_END, NO_END};
use crate::table::{kind, Node};
use crate::window::Window;

pub(super) const LARGEST: i64 = LARGEST_END as i64;

/// Any marks on a window without.
pub fn marked(rng: &mut Prng, window: Window) -> Window {
    opened(window, rng.once_in(2), rng.once_in(2))
}

/// A window without marks, with these: an end that is excluded stands one second further out, so that
/// the window is read as before. An end at its limit stays as it is.
pub fn opened(window: Window, low: bool, high: bool) -> Window {
    let open_lo = low && window.lo > 0;
    let open_hi = high && window.hi.is_some_and(|hi| hi < LARGEST);
    let lo = window.lo - i64::from(open_lo);
    let hi = window.hi.map(|hi| hi + i64::from(open_hi));
    Window { lo, hi, open_lo, open_hi }
}

/// Ends at their limits. Where there is no high end, the low one may be excluded at its limit too.
pub fn at_limits(rng: &mut Prng) -> Window {
    let ends = [0, 1, LARGEST - 1, LARGEST];
    let (one, other) = (rng.pick(&ends), rng.pick(&ends));
    if rng.once_in(4) {
        return Window { open_lo: rng.once_in(2), ..Window::closed(one, None) };
    }
    marked(rng, Window::closed(one.min(other), Some(one.max(other))))
}

/// A window that is refused for its marks alone: no second is left, or there is no end to exclude.
pub fn refused(rng: &mut Prng) -> Window {
    let lo = rng.pick(&[0, 0, 1, 5, LARGEST - 1]);
    let (hi, (open_lo, open_hi)) = match rng.below(4) {
        0 => (None, (rng.once_in(2), true)),
        1 => (Some(lo + 1), (true, true)),
        _ => (Some(lo), rng.pick(&[(true, false), (false, true), (true, true)])),
    };
    Window { lo, hi, open_lo, open_hi }
}

/// The seconds that a node's window leaves, as a window with both ends counted: the first and the last
/// one, once those that are excluded are taken out. None where there is none, or a rule is broken.
pub fn seconds_left(node: &Node) -> Option<Window> {
    let &Node { lo, hi, open_lo, open_hi, .. } = node;
    let endless = hi == NO_END;
    let past = lo > LARGEST_END || (hi > LARGEST_END && !endless);
    if past || open_lo > 1 || open_hi > 1 || (endless && open_hi == 1) {
        return None;
    }
    let behind = if endless { lo + 2 } else { hi + 1 };
    let excluded = |second| (open_lo == 1 && second == lo) || (open_hi == 1 && second == hi);
    let mut left = (lo..behind).filter(|&second| !excluded(second));
    let first = left.next()? as i64;
    let last = left.last().map_or(first, |second| second as i64);
    Some(Window::closed(first, (!endless).then_some(last)))
}

/// What a mark may be, and what not.
const MARKS: [u64; 4] = [0, 1, 2, u64::MAX];

/// The node with every pair of marks.
fn every_marks(node: Node) -> impl Iterator<Item = Node> {
    let both = move |open_lo| MARKS.map(|open_hi| Node { open_lo, open_hi, ..node });
    MARKS.into_iter().flat_map(both)
}

/// Every pair of marks with windows of 0, 1, 2 and 5 seconds and without end, from now, a little later,
/// and at the limits and past them: nodes that have nothing else.
pub fn every_window() -> Vec<Node> {
    let starts = [0, 1, 5, LARGEST_END - 2, LARGEST_END - 1, LARGEST_END, LARGEST_END + 1];
    let ends = |lo| [lo, lo + 1, lo + 2, lo + 5, LARGEST_END + 1, NO_END, NO_END + 1];
    let windows = |lo| ends(lo).map(|hi| Node { lo, hi, ..Node::default() });
    starts.into_iter().flat_map(windows).flat_map(every_marks).collect()
}

/// Marks on the kinds without a window: nodes that are good but for them, behind a node of number 0.
pub fn out_of_place() -> Vec<Node> {
    let nodes = (kind::TRUE..=kind::OR).map(|kind| Node { kind, ..Node::default() });
    nodes.flat_map(every_marks).filter(|node| (node.open_lo, node.open_hi) != (0, 0)).collect()
}
