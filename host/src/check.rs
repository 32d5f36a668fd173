//! Images compared with those of a plan, and a move that looks before it moves.

use crate::{build_images, module, move_images, Image, Plan, Reached, Refusal};
use std::collections::BTreeSet;
use std::fmt;

/// How two images stand to those of a plan.
#[derive(Clone, Copy, Debug, PartialEq, Eq)]
pub enum Comparison {
    /// They are exactly these.
    Equal,
    /// The relocated fields are the plan's; so many other bytes are not, as where a card's program wrote.
    OtherBytes(u64),
    /// So many relocated fields are not the plan's: the images are for another one.
    OtherFields(u64),
}

/// Why images were not moved; they are as they were.
#[derive(Clone, Copy, Debug, PartialEq, Eq)]
pub enum NotMoved {
    Refused(Refusal),
    /// They are not those of the plan that they were to be moved from.
    NotFrom(Comparison),
}

/// Compares two images with those that the module in `file` has for a plan. The images' lengths are judged too, as those
/// of buffers for them.
pub fn check_images(
    file: &[u8],
    plan: &Plan,
    text: &[u8],
    data: &[u8],
) -> Result<Comparison, Refusal> {
    // A move to the same plan changes nothing and judges everything, the lengths too.
    let mut own = (text.to_vec(), data.to_vec());
    move_images(file, plan, plan, &mut own.0, &mut own.1)?;
    let m = module(file)?;
    let mut built = (vec![0; m.text.size as usize], vec![0; m.image as usize]);
    build_images(file, plan, &mut built.0, &mut built.1)?;
    let entries = m.relocation_table(file)?;
    let fields: BTreeSet<(Image, u64, u64)> = entries
        .iter()
        .map(|entry| (entry.image, entry.offset, entry.width))
        .collect();
    let mut wrong = 0;
    for &(image, offset, width) in &fields {
        let range = offset as usize..(offset + width) as usize;
        let (found, expected) = match image {
            Image::Text => (&text[range.clone()], &mut built.0[range]),
            Image::Data => (&data[range.clone()], &mut built.1[range]),
        };
        wrong += u64::from(found != expected);
        // What differs after this is no field.
        expected.copy_from_slice(found);
    }
    let differ = |a: &[u8], b: &[u8]| a.iter().zip(b).filter(|(a, b)| a != b).count() as u64;
    Ok(
        match (wrong, differ(text, &built.0) + differ(data, &built.1)) {
            (0, 0) => Comparison::Equal,
            (0, bytes) => Comparison::OtherBytes(bytes),
            (fields, _) => Comparison::OtherFields(fields),
        },
    )
}

/// Moves images from one plan to another if they are exactly those of the first, as the command `xcoff move` does: images
/// that are moved twice, or from a plan that they are not for, are wrong without a sign of it.
pub fn move_images_checked(
    file: &[u8],
    from: &Plan,
    to: &Plan,
    text: &mut [u8],
    data: &mut [u8],
) -> Result<Reached, NotMoved> {
    match check_images(file, from, text, data).map_err(NotMoved::Refused)? {
        Comparison::Equal => move_images(file, from, to, text, data).map_err(NotMoved::Refused),
        other => Err(NotMoved::NotFrom(other)),
    }
}

impl fmt::Display for NotMoved {
    fn fmt(&self, f: &mut fmt::Formatter<'_>) -> fmt::Result {
        match self {
            NotMoved::Refused(refusal) => write!(f, "{refusal}"),
            NotMoved::NotFrom(Comparison::OtherFields(n)) => write!(
                f,
                "the images are for another plan than they were to be moved from: {n} relocated fields differ"
            ),
            NotMoved::NotFrom(Comparison::OtherBytes(n)) => write!(
                f,
                "the relocated fields are those of the plan that the images were to be moved from, but {n} other bytes are not the module's"
            ),
            NotMoved::NotFrom(Comparison::Equal) => write!(f, "the images are the plan's"),
        }
    }
}

impl std::error::Error for NotMoved {}
