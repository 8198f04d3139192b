//! The proved static library, through the C names as the Rust wrapper declares them.

use crate::library::Library;
use crate::names::{self, Call, Making, Sheet, Written};

pub struct Proved;

impl Library for Proved {
    fn answer(&self, text: &[u8], lines: &mut [u8]) -> usize {
        names::answer(text, lines)
    }

    fn sheet(&self, text: &[u8], sheet: Sheet) -> u64 {
        names::sheet(text, sheet)
    }

    fn requirement(&self, text: &[u8], nodes: &mut [u64], count: &mut [u64]) -> u64 {
        names::requirement(text, nodes, count)
    }

    fn write(&self, nodes: &[u64], count: u64, text: &mut [u8]) -> Written {
        names::write(nodes, count, text)
    }

    fn rows(
        &self,
        text: &[u8],
        channels: u64,
        times: &mut [u64],
        values: &mut [i64],
        counts: &mut [u64],
    ) -> u64 {
        names::rows(text, channels, times, values, counts)
    }

    fn distance(
        &self,
        predicate: (u64, u64, i64, i64),
        scale: u64,
        value: i64,
        result: &mut [i64],
    ) -> u64 {
        names::distance(predicate, scale, value, result)
    }

    fn margin(&self, call: &Call, work: &mut [i64], result: &mut [i64]) -> u64 {
        names::margin(call, work, result)
    }

    fn verdict(
        &self,
        call: &Call,
        step: u64,
        drift: u64,
        work: &mut [i64],
        result: &mut [i64],
    ) -> u64 {
        names::verdict(call, step, drift, work, result)
    }

    fn watch_fresh(&self, making: &Making, numbers: &mut [u64], cells: &mut [i64]) -> u64 {
        names::watch_fresh(making, numbers, cells)
    }

    fn watch_row(&self, numbers: &mut [u64], cells: &mut [i64], time: u64, values: &[i64]) -> u64 {
        names::watch_row(numbers, cells, time, values)
    }

    fn watch_margin(&self, numbers: &[u64], cells: &[i64], result: &mut [i64]) -> u64 {
        names::watch_margin(numbers, cells, result)
    }
}
