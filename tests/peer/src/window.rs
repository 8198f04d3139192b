//! Windows, as document 01 and Changes 3 and 8 of document 02 write and read them.

/// A window as it is written: two ends, and for each whether it is excluded. All that a window means
/// is what it means as it is read.
#[derive(Clone, Copy, PartialEq, Eq, Debug)]
pub struct Window {
    pub lo: i64,
    /// `None` is a window without end.
    pub hi: Option<i64>,
    /// "Low end excluded."
    pub open_lo: bool,
    /// "High end excluded."
    pub open_hi: bool,
}

impl Window {
    /// With both ends counted. An end below `lo`, perhaps below 0, makes an empty window.
    pub const fn closed(lo: i64, hi: Option<i64>) -> Window {
        Window { lo, hi, open_lo: false, open_hi: false }
    }

    /// "An excluded low end reads as lo + 1, an excluded high end as hi − 1": these are counted.
    pub fn as_read(self) -> Window {
        let lo = self.lo + i64::from(self.open_lo);
        let hi = self.hi.map(|hi| hi - i64::from(self.open_hi));
        Window::closed(lo, hi)
    }

    /// "A window left empty, or a high mark without an end, is refused." lo > hi is empty too.
    pub fn is_refused(self) -> bool {
        let Window { lo, hi, .. } = self.as_read();
        hi.map_or(self.open_hi, |hi| lo > hi)
    }

    /// "Sample j is in the window of i when time j − time i is from lo to hi, both counted."
    pub fn contains(self, difference: i64) -> bool {
        let Window { lo, hi, .. } = self.as_read();
        lo <= difference && hi.is_none_or(|hi| difference <= hi)
    }

    /// For until and eventually: "a window with lo 0 contracts to 0 up to hi − step"; "a lo above 0
    /// contracts as before", to "lo + step to hi − step, perhaps empty". An end below 0 stays there.
    /// "Change 3 looks at the low end so read."
    pub fn contracted(self, step: i64) -> Window {
        let Window { lo, hi, .. } = self.as_read();
        let lo = if lo == 0 { 0 } else { lo + step };
        Window::closed(lo, hi.map(|hi| hi - step))
    }

    /// For release and always: "lo − step (not below 0) to hi + step".
    pub fn expanded(self, step: i64) -> Window {
        let Window { lo, hi, .. } = self.as_read();
        Window::closed((lo - step).max(0), hi.map(|hi| hi + step))
    }
}
