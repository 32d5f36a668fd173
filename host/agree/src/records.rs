//! S-records: answers and buffers afterwards; what is written is read back, and what is read is written again.

use crate::compare::{answers, same, whole, Agreement, Difference};
use crate::images::plan;
use crate::lent::Lent;
use reference::Plan;

pub fn length(file: &[u8], p: &Plan) -> Agreement {
    whole(
        xcoff::records_length(file, &plan(p)),
        reference::records_length(file, p),
    )
}

pub fn write(file: &[u8], p: &Plan, images: (&[u8], &[u8]), records: &[u8]) -> Agreement {
    let (mut text, mut data) = (Lent::new(images.0, 0xC7), Lent::new(images.1, 0x3B));
    let mut ours = Lent::new(records, 0x6D);
    let mut theirs = records.to_vec();
    let agreed = whole(
        xcoff::write_records_into(file, &plan(p), text.slice(), data.slice(), ours.slice()),
        reference::write_records(file, p, images.0, images.1, &mut theirs),
    )?;
    ours.holds("records", &theirs)?;
    text.holds("text that is only read", images.0)?;
    data.holds("data that is only read", images.1)?;
    written(file, p, images)?;
    if agreed.refusals.is_empty() {
        same(
            "length of the records",
            &xcoff::records_length(file, &plan(p)).ok(),
            &Some(theirs.len() as u64),
        )?;
        read_back(file, p, &theirs, images)?;
    }
    Ok(agreed)
}

/// The records in a buffer that the library takes itself.
fn written(file: &[u8], p: &Plan, images: (&[u8], &[u8])) -> Result<(), Difference> {
    let theirs = reference::records_length(file, p).and_then(|length| {
        let mut records = vec![0; length as usize];
        reference::write_records(file, p, images.0, images.1, &mut records)?;
        Ok(records)
    });
    let ours = xcoff::write_records(file, &plan(p), images.0, images.1);
    answers("records written whole", ours, theirs)?;
    Ok(())
}

/// Reading what was written gives the same images.
fn read_back(
    file: &[u8],
    p: &Plan,
    records: &[u8],
    images: (&[u8], &[u8]),
) -> Result<(), Difference> {
    let mut text = Lent::new(&vec![0x99; images.0.len()], 0xC7);
    let mut data = Lent::new(&vec![0x99; images.1.len()], 0x3B);
    let read = xcoff::read_records(file, &plan(p), records, text.slice(), data.slice());
    answers("records read back", read, Ok(()))?;
    text.holds("text read back", images.0)?;
    data.holds("data read back", images.1)
}

pub fn read(file: &[u8], p: &Plan, records: &[u8], images: (&[u8], &[u8])) -> Agreement {
    let mut lent = Lent::new(records, 0x6D);
    let (mut text, mut data) = (Lent::new(images.0, 0xC7), Lent::new(images.1, 0x3B));
    let (mut their_text, mut their_data) = (images.0.to_vec(), images.1.to_vec());
    let agreed = whole(
        xcoff::read_records(file, &plan(p), lent.slice(), text.slice(), data.slice()),
        reference::read_records(file, p, records, &mut their_text, &mut their_data),
    )?;
    text.holds("text", &their_text)?;
    data.holds("data", &their_data)?;
    lent.holds("records that are only read", records)?;
    if agreed.refusals.is_empty() {
        let again = xcoff::write_records(file, &plan(p), &their_text, &their_data);
        answers("records written again", again, Ok(records.to_vec()))?;
    }
    Ok(agreed)
}
