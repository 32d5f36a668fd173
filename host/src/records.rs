//! The images of an XCOFF32 module as S-records, for a PROM programmer.

use crate::{accepted, ffi, Plan, Refusal};

/// How long the record text of the module's images for a plan is.
pub fn records_length(file: &[u8], plan: &Plan) -> Result<u64, Refusal> {
    let answer = ffi::records_length(file, (plan.text, plan.data), &plan.list);
    accepted(answer.head)?;
    Ok(answer.length)
}

/// Writes two images, as they are, as S-records for a plan into a buffer of exactly [`records_length`] bytes. A refusal
/// leaves the buffer as it was.
pub fn write_records_into(
    file: &[u8],
    plan: &Plan,
    text: &[u8],
    data: &[u8],
    records: &mut [u8],
) -> Result<(), Refusal> {
    let at = (plan.text, plan.data);
    let written = ffi::write_records(file, at, &plan.list, text, data, records);
    accepted(written)
}

/// The S-records of two images, as they are, for a plan.
pub fn write_records(
    file: &[u8],
    plan: &Plan,
    text: &[u8],
    data: &[u8],
) -> Result<Vec<u8>, Refusal> {
    let mut records = vec![0; records_length(file, plan)? as usize];
    write_records_into(file, plan, text, data, &mut records)?;
    Ok(records)
}

/// Reads S-records for a plan into two image buffers. A refusal changes no byte of them.
pub fn read_records(
    file: &[u8],
    plan: &Plan,
    records: &[u8],
    text: &mut [u8],
    data: &mut [u8],
) -> Result<(), Refusal> {
    let at = (plan.text, plan.data);
    let read = ffi::read_records(file, at, &plan.list, records, text, data);
    accepted(read)
}
