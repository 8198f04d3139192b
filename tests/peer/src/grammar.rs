//! Requirement text, production by production.

use crate::limits::{LARGEST_END, MOST_ENCLOSINGS, MOST_NODES, PREDICATES};
use crate::refusal::Refusal;
use crate::table::Table;
use crate::tree::{atom, predicate, Atom, Shared, Tree};
use crate::window::Window;
use std::rc::Rc;

/// The text outside the grammar or its limits; where doesn't matter.
struct Outside;
type Read<T> = Result<T, Outside>;

struct Reader<'a> {
    rest: &'a [u8],
    nodes: usize,
}

/// Entry point: the table of the text, or refusal 2.
pub fn read_requirement(text: &[u8]) -> Result<Table, Refusal> {
    read_tree(text).map(|tree| Table::of_tree(&tree))
}

pub fn read_tree(text: &[u8]) -> Result<Shared, Refusal> {
    let mut reader = Reader { rest: text, nodes: 0 };
    match reader.alternative(0) {
        Ok(tree) if reader.rest.is_empty() => Ok(tree),
        _ => Err(Refusal::Requirement),
    }
}

impl Reader<'_> {
    /// Takes the byte if it is next.
    fn take(&mut self, byte: u8) -> bool {
        let next = self.rest.first() == Some(&byte);
        if next {
            self.rest = &self.rest[1..];
        }
        next
    }

    fn due(&mut self, byte: u8) -> Read<()> {
        if self.take(byte) {
            Ok(())
        } else {
            Err(Outside)
        }
    }

    /// Counts a node, so that no text makes more than 64, nor a tree too deep for this reader.
    fn node(&mut self, tree: Tree) -> Read<Shared> {
        self.nodes += 1;
        if self.nodes > MOST_NODES {
            return Err(Outside);
        }
        Ok(Rc::new(tree))
    }

    /// alternative = conjunction, then any count of `|` conjunction, grouped to the left.
    fn alternative(&mut self, enclosings: usize) -> Read<Shared> {
        let mut left = self.conjunction(enclosings)?;
        while self.take(b'|') {
            let right = self.conjunction(enclosings)?;
            left = self.node(Tree::Or(left, right))?;
        }
        Ok(left)
    }

    /// conjunction = bind, then any count of `&` bind, grouped to the left.
    fn conjunction(&mut self, enclosings: usize) -> Read<Shared> {
        let mut left = self.bind(enclosings)?;
        while self.take(b'&') {
            let right = self.bind(enclosings)?;
            left = self.node(Tree::And(left, right))?;
        }
        Ok(left)
    }

    /// bind = unary, optionally followed by `U` or `R`, a window and a unary.
    fn bind(&mut self, enclosings: usize) -> Read<Shared> {
        let left = self.unary(enclosings)?;
        if self.take(b'U') {
            let (window, right) = self.timed(enclosings)?;
            self.node(Tree::Until(left, window, right))
        } else if self.take(b'R') {
            let (window, right) = self.timed(enclosings)?;
            self.node(Tree::Release(left, window, right))
        } else {
            Ok(left)
        }
    }

    /// unary = `!` unary, `G` or `F` window unary, `T`, `p` with 0 to 15, or a parenthesised
    /// alternative.
    fn unary(&mut self, enclosings: usize) -> Read<Shared> {
        if self.take(b'T') {
            self.node(atom(Atom::True).as_ref().clone())
        } else if self.take(b'p') {
            let number = self.number(PREDICATES as u64 - 1)?;
            self.node(predicate(number as usize).as_ref().clone())
        } else {
            self.enclosing(enclosings + 1)
        }
    }

    /// One of `!`, `G`, `F` and `(`: "at most 32 enclose one another".
    fn enclosing(&mut self, enclosings: usize) -> Read<Shared> {
        if enclosings > MOST_ENCLOSINGS {
            return Err(Outside);
        }
        if self.take(b'!') {
            let left = self.unary(enclosings)?;
            self.node(Tree::Not(left))
        } else if self.take(b'G') {
            let (window, left) = self.timed(enclosings)?;
            self.node(Tree::Always(window, left))
        } else if self.take(b'F') {
            let (window, left) = self.timed(enclosings)?;
            self.node(Tree::Eventually(window, left))
        } else {
            self.due(b'(')?;
            let inner = self.alternative(enclosings)?;
            self.due(b')')?;
            Ok(inner)
        }
    }

    /// A window and a unary. A window's "`(` is no enclosing".
    fn timed(&mut self, enclosings: usize) -> Read<(Window, Shared)> {
        let window = self.window()?;
        Ok((window, self.unary(enclosings)?))
    }

    /// `[lo,hi]`, hi perhaps `*`; `(` for `[` and `)` for `]` where that end is excluded.
    fn window(&mut self) -> Read<Window> {
        let open_lo = self.bracket(b'[', b'(')?;
        let lo = self.number(LARGEST_END)? as i64;
        self.due(b',')?;
        let hi = if self.take(b'*') { None } else { Some(self.number(LARGEST_END)? as i64) };
        let open_hi = self.bracket(b']', b')')?;
        let window = Window { lo, hi, open_lo, open_hi };
        if window.is_refused() {
            return Err(Outside);
        }
        Ok(window)
    }

    /// Whether an end is excluded: one of the two brackets is due.
    fn bracket(&mut self, counted: u8, excluded: u8) -> Read<bool> {
        if self.take(excluded) {
            return Ok(true);
        }
        self.due(counted).map(|()| false)
    }

    /// All digits that stand there; no leading zero, and at most the largest.
    fn number(&mut self, largest: u64) -> Read<u64> {
        let length = self.rest.iter().take_while(|byte| byte.is_ascii_digit()).count();
        let (digits, rest) = self.rest.split_at(length);
        self.rest = rest;
        if digits.is_empty() || (length > 1 && digits[0] == b'0') {
            return Err(Outside);
        }
        let value = digits.iter().fold(0u64, |value, digit| {
            value.saturating_mul(10).saturating_add(u64::from(digit - b'0'))
        });
        if value > largest {
            return Err(Outside);
        }
        Ok(value)
    }
}
