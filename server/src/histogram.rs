//! How long things took, counted by how long.
//!
//! `metrics` has one of the messages that were answered, and tells it as a histogram of Prometheus.
//!
//! ```text
//! note(30 us)  note(400 us)     le="0.00005" 1   le="0.0005" 2   le="+Inf" 2   sum 0.00043
//! ```
//!
//! 1. `counts[i]` is how many took at most `BOUNDS[i]` and more than the bound before; the last one counts all others.

use std::fmt::{self, Write};
use std::sync::atomic::{AtomicU64, Ordering::Relaxed};
use std::time::Duration;

/// The bounds in seconds, as they are told, and in microseconds.
const BOUNDS: [(&str, u64); 16] = [
    ("0.00001", 10),
    ("0.00002", 20),
    ("0.00005", 50),
    ("0.0001", 100),
    ("0.0002", 200),
    ("0.0005", 500),
    ("0.001", 1_000),
    ("0.002", 2_000),
    ("0.005", 5_000),
    ("0.01", 10_000),
    ("0.02", 20_000),
    ("0.05", 50_000),
    ("0.1", 100_000),
    ("0.5", 500_000),
    ("1", 1_000_000),
    ("10", 10_000_000),
];

/// See the module.
#[derive(Debug, Default)]
pub struct Histogram {
    counts: [AtomicU64; BOUNDS.len() + 1],
    nanoseconds: AtomicU64,
}

impl Histogram {
    pub fn note(&self, took: Duration) {
        let place = BOUNDS.partition_point(|(_, bound)| Duration::from_micros(*bound) < took);
        self.counts[place].fetch_add(1, Relaxed);
        self.nanoseconds.fetch_add(u64::try_from(took.as_nanos()).unwrap_or(u64::MAX), Relaxed);
    }

    /// The samples of a family of this name.
    pub fn write(&self, out: &mut String, name: &str) -> fmt::Result {
        let mut count = 0;
        for (bound, counted) in BOUNDS.iter().map(|(told, _)| *told).chain(["+Inf"]).zip(&self.counts) {
            count += counted.load(Relaxed);
            writeln!(out, "{name}_bucket{{le=\"{bound}\"}} {count}")?;
        }
        let sum = Duration::from_nanos(self.nanoseconds.load(Relaxed));
        writeln!(out, "{name}_sum {}\n{name}_count {count}", sum.as_secs_f64())
    }
}

#[cfg(test)]
mod tests {
    use super::*;

    #[test]
    fn each_bucket_counts_all_up_to_its_bound() {
        let histogram = Histogram::default();
        for microseconds in [10, 11, 30, 400, 11_000_000] {
            histogram.note(Duration::from_micros(microseconds));
        }
        let mut text = String::new();
        histogram.write(&mut text, "x_seconds").expect("a string takes what is written");
        for line in [
            "x_seconds_bucket{le=\"0.00001\"} 1",
            "x_seconds_bucket{le=\"0.00002\"} 2",
            "x_seconds_bucket{le=\"0.00005\"} 3",
            "x_seconds_bucket{le=\"0.0002\"} 3",
            "x_seconds_bucket{le=\"0.0005\"} 4",
            "x_seconds_bucket{le=\"10\"} 4",
            "x_seconds_bucket{le=\"+Inf\"} 5",
            "x_seconds_sum 11.000451",
            "x_seconds_count 5",
        ] {
            assert!(text.lines().any(|it| it == line), "{line}\n{text}");
        }
        assert_eq!(text.lines().count(), BOUNDS.len() + 3);
    }

    #[test]
    fn bounds_rise_and_are_told_as_they_are() {
        assert!(BOUNDS.windows(2).all(|pair| pair[0].1 < pair[1].1));
        for (told, bound) in BOUNDS {
            assert_eq!(told.parse::<f64>().map(|seconds| (seconds * 1e6).round() as u64), Ok(bound));
        }
    }
}
