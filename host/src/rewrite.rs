//! Moved modules as files: a module written back for a plan.

use crate::{accepted, ffi, module, Plan, Refusal};

/// Writes the module in `file` for a plan into a buffer of exactly the file's length. A refusal changes no byte of it.
pub fn write_module_into(file: &[u8], plan: &Plan, output: &mut [u8]) -> Result<(), Refusal> {
    let written = ffi::write_module(file, (plan.text, plan.data), &plan.list, output);
    accepted(written)
}

/// The module for a plan, as a file of the same length.
pub fn write_module(file: &[u8], plan: &Plan) -> Result<Vec<u8>, Refusal> {
    let mut output = vec![0; file.len()];
    write_module_into(file, plan, &mut output)?;
    Ok(output)
}

/// The addresses that a module's own file records: written for this plan it is the file itself.
pub fn recorded_plan(file: &[u8]) -> Result<Plan, Refusal> {
    let module = module(file)?;
    let symbols = module.loader_symbol_table(file)?;
    Ok(Plan {
        text: module.text.address,
        data: module.data.address,
        list: symbols.iter().map(|row| row.symbol.value).collect(),
    })
}
