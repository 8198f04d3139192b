//! What watches and their rows are about, counted from the numbers themselves, and slices that hold no
//! watch.

use crate::marked;
use crate::play::State;
use peer::generate::prng::Prng;
use peer::generate::tables::{children, uses};
use peer::generate::watches::{below, is_temporal, Offer, Watching};
use peer::limits::{LARGEST_VALUE, LAST_TIME};
use peer::table::{kind, Table};

const ABOVE: &str = "not, and, or above a temporal operator";
const BELOW: &str = "not, and, or below a temporal operator";
const SHARED: &str = "a node inside and outside a temporal operator";
const UNREACHED: &str = "a temporal operator unreached";

const NESTED_REACHED: &str = "16 where the root reaches";
const NESTED_UNREACHED: &str = "16 where the root does not reach alone";
const NESTED_AT_ONCE: &str = "16 at once";
const NESTED_DEEP: &str = "16 under not, and, or alone";
const NESTED_LEFT: &str = "16 by left alone";
const NESTED_RIGHT: &str = "16 by right alone";

const NO_VALUE: &str = "a row without values";
const ONE_LESS: &str = "a row with one value less";
const ONE_MORE: &str = "a row with one value more";
const EQUAL_TIME: &str = "a row at the last one's time";
const EARLIER: &str = "an earlier row";
const PAST_TIME: &str = "a row past the last time";
const BAD_VALUE: &str = "a row with a bad value";
const FIVE_SIX: &str = "a row refused by 5 and 6";
const FIVE_SEVEN: &str = "a row refused by 5 and 7";
const SIX_SEVEN: &str = "a row refused by 6 and 7";
const AT_ZERO: &str = "a first row at 0";
const AT_LAST: &str = "a row at the last time";
const OVERTAKEN: &str = "an accepted row not later than a refused one";

/// What a watch and its rows may be about, and every kind of slices without a watch.
pub fn all() -> Vec<String> {
    let others = [
        ABOVE, BELOW, SHARED, UNREACHED, NESTED_REACHED, NESTED_UNREACHED, NESTED_AT_ONCE,
        NESTED_DEEP, NESTED_LEFT, NESTED_RIGHT, NO_VALUE, ONE_LESS, ONE_MORE, EQUAL_TIME, EARLIER,
        PAST_TIME, BAD_VALUE, FIVE_SIX, FIVE_SEVEN, SIX_SEVEN, AT_ZERO, AT_LAST, OVERTAKEN,
    ];
    let others = others.into_iter().chain(NO_WATCHES).map(str::to_string);
    marked::all().into_iter().chain(others).collect()
}

/// What the watch and its rows are about.
pub fn about(watching: &Watching) -> Vec<String> {
    let (letters, others) = match watching.number {
        0 => {
            let others = [about_table(&watching.table), about_rows(watching)].concat();
            (marked::reached(&watching.table), others)
        }
        16 => (Vec::new(), about_nested(&watching.table)),
        _ => (Vec::new(), Vec::new()),
    };
    letters.into_iter().chain(others.into_iter().map(str::to_string)).collect()
}

/// Those of these that there are.
fn found<const N: usize>(kinds: [(&'static str, bool); N]) -> Vec<&'static str> {
    kinds.into_iter().filter(|(_, is)| *is).map(|(what, _)| what).collect()
}

fn is_boolean(kind: u64) -> bool {
    matches!(kind, kind::NOT | kind::AND | kind::OR)
}

/// Of a table that no making refuses.
fn about_table(table: &Table) -> Vec<&'static str> {
    let uses = uses(table);
    let reached: Vec<usize> = (0..table.count()).filter(|&k| uses[k] > 0).collect();
    let temporal = |k: usize| is_temporal(&table.nodes[k]);
    let (mut inside, mut outside) = (Vec::new(), vec![table.count() - 1]);
    for &k in reached.iter().rev() {
        let own = children(&table.nodes[k]);
        if temporal(k) {
            inside.extend(own.iter().flat_map(|&child| below(table, child)));
        } else if outside.contains(&k) {
            outside.extend(own.iter().map(|&child| child as usize));
        }
    }
    let boolean = |k: usize| is_boolean(table.nodes[k].kind);
    found([
        (
            ABOVE,
            reached.iter().any(|&k| boolean(k) && below(table, k as u64).into_iter().any(temporal)),
        ),
        (BELOW, inside.iter().any(|&k| boolean(k))),
        (SHARED, inside.iter().any(|k| outside.contains(k))),
        (UNREACHED, (0..table.count()).any(|k| temporal(k) && uses[k] == 0)),
    ])
}

/// Of a table in which a temporal operator stands inside another, and that breaks no rule.
fn about_nested(table: &Table) -> Vec<&'static str> {
    let uses = uses(table);
    let temporal = |k: usize| is_temporal(&table.nodes[k]);
    let has = |child: u64| below(table, child).into_iter().any(temporal);
    let operands = |k: usize| children(&table.nodes[k]);
    let outer: Vec<usize> =
        (0..table.count()).filter(|&k| temporal(k) && operands(k).into_iter().any(has)).collect();
    let at_once = |&k: &usize| operands(k).iter().any(|&child| temporal(child as usize));
    let sided = |side: usize| {
        outer.iter().all(|&k| {
            let operands = operands(k);
            operands.len() == 2 && has(operands[side]) && !has(operands[1 - side])
        })
    };
    found([
        (NESTED_REACHED, outer.iter().any(|&k| uses[k] > 0)),
        (NESTED_UNREACHED, outer.iter().all(|&k| uses[k] == 0)),
        (NESTED_AT_ONCE, outer.iter().any(at_once)),
        (NESTED_DEEP, !outer.iter().any(at_once)),
        (NESTED_LEFT, sided(0)),
        (NESTED_RIGHT, sided(1)),
    ])
}

/// Of rows that are offered to a watch which no making refused.
fn about_rows(watching: &Watching) -> Vec<&'static str> {
    let channels = watching.scales.len();
    let mut about = Vec::new();
    let (mut last, mut overtaken) = (None, 0);
    for offer in &watching.offers {
        about.extend(about_row(offer, channels, last));
        if offer.number == 0 {
            about.extend((last.is_some() && offer.time <= overtaken).then_some(OVERTAKEN));
            (last, overtaken) = (Some(offer.time), 0);
        } else if offer.number != 6 {
            overtaken = overtaken.max(offer.time);
        }
    }
    about
}

fn about_row(offer: &Offer, channels: usize, last: Option<u64>) -> Vec<&'static str> {
    let (time, count) = (offer.time, offer.values.len());
    let bad = |value: &i64| !(-LARGEST_VALUE..=LARGEST_VALUE).contains(value);
    let (five, seven) = (count != channels, offer.values.iter().any(bad));
    let past = time > LAST_TIME;
    let six = past || last.is_some_and(|last| time <= last);
    found([
        (NO_VALUE, count == 0),
        (ONE_LESS, count + 1 == channels),
        (ONE_MORE, count == channels + 1),
        (EQUAL_TIME, last == Some(time)),
        (EARLIER, last.is_some_and(|last| time < last)),
        (PAST_TIME, past),
        (BAD_VALUE, seven),
        (FIVE_SIX, five && six),
        (FIVE_SEVEN, five && seven),
        (SIX_SEVEN, six && seven && !five),
        (AT_ZERO, last.is_none() && time == 0 && offer.number == 0),
        (AT_LAST, time == LAST_TIME && offer.number == 0),
    ])
}

/// Words of any size, and watches in which many small words, or a few of any size, stand for what was
/// there.
pub const NOISE: &str = "noise for a watch";
const SMALL_WORDS: &str = "small words in a watch";
const FEW_WORDS: &str = "few words in a watch";

pub const NO_WATCHES: [&str; 3] = [NOISE, SMALL_WORDS, FEW_WORDS];

/// Puts such words into the slices.
pub fn spoil(state: &mut State, kind: &str, rng: &mut Prng) {
    let lent = state.lent;
    match kind {
        SMALL_WORDS => {
            for place in 0..lent[0] {
                if rng.once_in(3) {
                    state.numbers[place] = rng.below(70) as u64;
                }
            }
            for place in 0..lent[1] {
                state.cells[place] = rng.between(-9, 9);
            }
        }
        FEW_WORDS => {
            for _ in 0..1 + rng.below(4) {
                let word = rng.pick(&[0, 1, 7, 64, 65, 1 << 32, u64::MAX]);
                state.numbers[rng.below(lent[0])] = word;
                state.cells[rng.below(lent[1])] = word as i64;
            }
        }
        _ => {}
    }
}

#[cfg(test)]
mod tests {
    use super::*;
    use peer::grammar::read_requirement;
    use peer::predicate::UNSET;
    use peer::table::Node;

    fn of(text: &str) -> Table {
        read_requirement(text.as_bytes()).unwrap()
    }

    /// The same with one node more, which alone is then reached.
    fn unreached(text: &str) -> Table {
        let mut table = of(text);
        table.nodes.push(Node::default());
        table
    }

    #[test]
    fn tables_are_told_apart() {
        assert!(marked::reached(&unreached("F[0,1]p0")).is_empty());
        assert_eq!(about_table(&of("F[0,1]p0&G[0,*]p0")), [ABOVE]);
        assert_eq!(about_table(&of("!p0R[0,1]p1")), [BELOW]);
        assert!(about_table(&of("F[0,1]p0")).is_empty());
        assert_eq!(about_table(&unreached("F[0,1]!p0")), [UNREACHED]);
        // The first predicate is both what is always so and what is so now.
        let mut shared = of("G[0,1]p0");
        shared.nodes.push(Node { kind: kind::AND, left: 0, right: 1, ..Node::default() });
        assert_eq!(about_table(&shared), [ABOVE, SHARED]);
    }

    #[test]
    fn nestings_are_told_apart() {
        let reached = |text: &str| about_nested(&of(text));
        assert_eq!(reached("F[0,1]G[0,1]p0"), [NESTED_REACHED, NESTED_AT_ONCE]);
        assert_eq!(reached("F[0,1]!!G[0,1]p0"), [NESTED_REACHED, NESTED_DEEP]);
        let left = [NESTED_REACHED, NESTED_AT_ONCE, NESTED_LEFT];
        assert_eq!(reached("(p0U[0,1]p0)U[0,1]p0"), left);
        let right = [NESTED_REACHED, NESTED_DEEP, NESTED_RIGHT];
        assert_eq!(reached("p0R[0,1](p0|F[0,1]p0)|p1"), right);
        let both = [NESTED_REACHED, NESTED_AT_ONCE];
        assert_eq!(reached("(F[0,1]p0)R[0,1]F[0,1]p0"), both);
        let alone = about_nested(&unreached("F[0,1]G[0,1]p0"));
        assert_eq!(alone, [NESTED_UNREACHED, NESTED_AT_ONCE]);
    }

    #[test]
    fn rows_are_told_apart() {
        let offer = |time, count, number| Offer { time, values: vec![0; count], number };
        let bad = Offer { time: 9, values: vec![0, i64::MIN], number: 7 };
        let offers = vec![
            offer(0, 2, 0),
            offer(0, 1, 5),
            offer(LAST_TIME + 1, 2, 6),
            bad,
            offer(9, 2, 0),
            offer(8, 3, 5),
            offer(8, 0, 5),
            offer(LAST_TIME, 2, 0),
        ];
        let (table, predicates, scales) = (of("p0"), [UNSET; 16], vec![1; 2]);
        let watching = Watching { table, predicates, scales, number: 0, offers };
        let wanted = [
            &[AT_ZERO][..],
            &[ONE_LESS, EQUAL_TIME, FIVE_SIX],
            &[PAST_TIME, BAD_VALUE, OVERTAKEN],
            &[ONE_MORE, EARLIER, FIVE_SIX],
            &[NO_VALUE, EARLIER, FIVE_SIX],
            &[AT_LAST],
        ];
        assert_eq!(about_rows(&watching), wanted.concat());
    }
}
