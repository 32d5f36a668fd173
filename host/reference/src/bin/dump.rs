//! `dump FIRST COUNT`: writes cases and their answers as plain text, for
//! comparing with another program. Per case:
//!
//! ```text
//! case SEED LABEL
//! file HEX ZEROS            (HEX, then that many zero bytes)
//! op WORD ARGUMENTS
//! answer TEXT
//! ```
//!
//! Addresses are hex, indexes decimal, a plan is TEXT,DATA,[LIST]. Buffers over
//! 4,096 bytes are shown by length and sum only.
#![forbid(unsafe_code)]

use reference::answer::{arguments, run};
use reference::generate::case;

fn file_text(file: &[u8]) -> String {
    let zeros = file.iter().rev().take_while(|&&byte| byte == 0).count();
    let mut text = String::new();
    for byte in &file[..file.len() - zeros] {
        text += &format!("{byte:02x}");
    }
    if text.is_empty() {
        text.push('-');
    }
    format!("{text} {zeros}")
}

fn main() {
    let mut arguments_given = std::env::args().skip(1);
    let mut read = || -> u64 {
        let text = arguments_given.next().expect("FIRST COUNT");
        text.parse().expect("a number")
    };
    let (first, count) = (read(), read());
    for seed in first..first + count {
        let case = case(seed);
        println!("case {seed} {}", case.label);
        println!("file {}", file_text(&case.file));
        for op in &case.ops {
            println!("op {} {}", op.word(), arguments(op));
            println!("answer {}", run(&case.file, op).text);
        }
    }
}
