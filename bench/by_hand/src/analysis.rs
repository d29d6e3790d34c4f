//! The script's results, by threads that take clusters of entries, and their lines.
use crate::table::Table;
use std::fmt::Write;
use std::ops::Range;
use std::sync::atomic::{AtomicUsize, Ordering};
use std::thread;

const EDGES: [i64; 3] = [0, 500, 1000];
const CELLS: [&str; 4] = ["under", "[0,500)", "[500,1000)", "over"];
/// Nominal, then the variations.
const LABELS: [&str; 3] = ["", "[c0:down]", "[c0:up]"];
const SHIFTS: [i64; 3] = [0, -100, 100];

/// What the results hold after some clusters.
#[derive(Default)]
pub struct Totals {
    entries: u64,
    counts: [u64; 3],
    sums: [i128; 3],
    cells: [u64; 4],
    greatest: Option<i64>,
}

pub fn run(table: &Table, threads: usize, cluster: usize) -> Totals {
    let next = AtomicUsize::new(0);
    let clusters = table.entries().div_ceil(cluster);
    let work = || {
        let mut totals = Totals::default();
        loop {
            let number = next.fetch_add(1, Ordering::Relaxed);
            if number >= clusters {
                return totals;
            }
            let begin = number * cluster;
            totals.add(table, begin..table.entries().min(begin + cluster));
        }
    };
    thread::scope(|scope| {
        let workers: Vec<_> = (0..threads).map(|_| scope.spawn(work)).collect();
        let parts = workers
            .into_iter()
            .map(|worker| worker.join().expect("a worker failed"));
        parts.reduce(Totals::joined).unwrap_or_default()
    })
}

impl Totals {
    fn add(&mut self, table: &Table, entries: Range<usize>) {
        let [c0, _, _, c3] = &table.ints;
        for entry in entries {
            self.entries += 1;
            for (pass, shift) in SHIFTS.into_iter().enumerate() {
                let value = c0[entry].checked_add(shift).expect("c0 leaves 64 bits");
                if value > 499 {
                    self.counts[pass] += 1;
                    self.sums[pass] += i128::from(value);
                }
            }
            for element in table.vector(entry) {
                self.cells[EDGES.partition_point(|edge| edge <= element)] += 1;
            }
            self.greatest = self.greatest.max(Some(c3[entry]));
        }
    }

    fn joined(mut self, other: Self) -> Self {
        self.entries += other.entries;
        for pass in 0..3 {
            self.counts[pass] += other.counts[pass];
            self.sums[pass] += other.sums[pass];
        }
        for cell in 0..4 {
            self.cells[cell] += other.cells[cell];
        }
        self.greatest = self.greatest.max(other.greatest);
        self
    }

    pub fn lines(&self) -> String {
        let mut text = String::new();
        for (label, count) in LABELS.iter().zip(self.counts) {
            writeln!(text, "n{label} = {count}").unwrap();
        }
        for (label, sum) in LABELS.iter().zip(self.sums) {
            writeln!(text, "s{label} = {sum}").unwrap();
        }
        text.push_str("h = histo1d 4\n");
        for (cell, count) in CELLS.iter().zip(self.cells) {
            // each weight is 1, and so is its square
            writeln!(text, "  {cell} {count} {count}").unwrap();
        }
        let greatest = self
            .greatest
            .map_or("none".to_string(), |value| value.to_string());
        writeln!(text, "m = {greatest}").unwrap();
        let (pass, all) = (self.counts[0], self.entries);
        let share = share(pass, all);
        writeln!(
            text,
            "r: high pass={pass} all={all} eff={share} cumulative={share}"
        )
        .unwrap();
        text
    }
}

/// A part in percent with two decimals, cut off.
fn share(part: u64, all: u64) -> String {
    match (part * 10_000).checked_div(all) {
        Some(hundredths) => format!("{}.{:02}", hundredths / 100, hundredths % 100),
        None => "none".to_string(),
    }
}
