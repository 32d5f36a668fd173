//! Document 01, "Header lister"; a refusal's offset is request 4.

use crate::opening::{kind_word, open};
use crate::Refusal;

/// What the lister prints for this input.
pub fn list_headers(input: &[u8]) -> String {
    if input.len() > 65_536 {
        return "too long\n".to_string();
    }
    let summary = match open(input) {
        Ok(summary) => summary,
        Err(refusal) => return refused(&refusal),
    };
    let mut text = format!(
        "XCOFF{} {} {}\n",
        summary.bits,
        summary.sections.len(),
        summary.symbols
    );
    let digits = summary.bits as usize / 4;
    for (i, section) in summary.sections.iter().enumerate() {
        text += &format!(
            "{} {} {:0digits$x} {}\n",
            i + 1,
            kind_word(section.flags),
            section.paddr,
            section.size
        );
    }
    text
}

fn refused(refusal: &Refusal) -> String {
    let Refusal {
        number,
        item,
        offset,
    } = refusal;
    format!("refused {number} {item} {offset}\n")
}
