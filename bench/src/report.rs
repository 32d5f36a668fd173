//! The table as it is printed.

use crate::common::turns::{by_turns, Work};
use std::time::Duration;
use xcoff::Format;

pub struct Report {
    pub time: Duration,
}

impl Report {
    pub fn new(time: Duration) -> Report {
        let cores = std::thread::available_parallelism().map_or(0, usize::from);
        println!(
            "{}, {cores} cores; fastest time, turns of {} s; ratio: ours / peer",
            std::env::consts::ARCH,
            time.as_secs_f64()
        );
        Report { time }
    }

    /// The head of a group of rows against one peer.
    pub fn against(&mut self, peer: &str) {
        println!(
            "\n{:<60}{:>10}{:>10}{:>8}",
            format!("against {peer}"),
            "ours",
            "peer",
            "ratio"
        );
    }

    pub fn left_out(&mut self, why: &str) {
        println!("  left out: {why}");
    }

    pub fn row(&mut self, what: &str, ours: f64, peer: f64) {
        let ratio = match ours / peer {
            small if small < 0.1 => format!("{small:.4}"),
            large => format!("{large:.2}"),
        };
        println!("  {what:<58}{:>10}{:>10}{ratio:>8}", time(ours), time(peer));
    }

    /// Both measured by turns, on one state.
    pub fn versus<S>(&mut self, what: &str, state: &mut S, ours: Work<S>, peer: Work<S>) {
        let [ours, peer] = by_turns(self.time, state, [ours, peer]);
        self.row(what, ours, peer);
    }

    /// The head of a group of rows that show how a cost grows with a size.
    pub fn growth(&mut self, what: &str, sizes: &[String]) {
        print!("\n{what:<60}");
        for size in sizes {
            print!("{size:>10}");
        }
        println!();
    }

    /// Times of each size, divided by the size.
    pub fn grown(&mut self, what: &str, times: &[f64], sizes: &[f64]) {
        print!("  {what:<58}");
        for (all, size) in times.iter().zip(sizes) {
            print!("{:>10}", time(all / size));
        }
        println!();
    }
}

/// Nanoseconds with three digits and a unit.
fn time(ns: f64) -> String {
    let (number, unit) = match ns {
        _ if ns < 1e3 => (ns, "ns"),
        _ if ns < 1e6 => (ns / 1e3, "us"),
        _ => (ns / 1e6, "ms"),
    };
    match number {
        _ if number < 10.0 => format!("{number:.2} {unit}"),
        _ if number < 100.0 => format!("{number:.1} {unit}"),
        _ => format!("{number:.0} {unit}"),
    }
}

pub fn name(format: Format) -> &'static str {
    match format {
        Format::Xcoff32 => "XCOFF32",
        Format::Xcoff64 => "XCOFF64",
    }
}
