//! The fields of the file header and of the auxiliary header, as the file has them. They are for showing and for warnings
//! alone: nothing is judged by them, and any bytes are taken.

use crate::{FieldValue, Value};

/// The fields that lie whole in the header, in its order. Of an auxiliary header that is short there are fewer.
#[derive(Clone, Debug, PartialEq, Eq)]
pub struct HeaderFields {
    pub file: Vec<FieldValue>,
    pub auxiliary: Vec<FieldValue>,
}

impl HeaderFields {
    /// The value of a field, by its name in the public XCOFF description.
    pub fn value(&self, name: &str) -> Option<u64> {
        let fields = self.file.iter().chain(&self.auxiliary);
        let found = fields.clone().find(|field| field.name == name)?;
        Some(match found.value {
            Value::Hex(value, _) | Value::Number(value) => value,
            Value::Signed(value) => value as u64,
        })
    }
}

/// Whether a number is shown in hexadecimal.
#[derive(Clone, Copy)]
enum Form {
    Hex,
    Number,
}

use Form::{Hex, Number};

/// Name, form, and offset and length in XCOFF32 and in XCOFF64; of length 0 where a format does not have the field.
type Field = (&'static str, Form, [(usize, usize); 2]);

const NOT_THERE: (usize, usize) = (0, 0);

const FILE: [Field; 7] = [
    ("f_magic", Hex, [(0, 2), (0, 2)]),
    ("f_nscns", Number, [(2, 2), (2, 2)]),
    ("f_timdat", Number, [(4, 4), (4, 4)]),
    ("f_symptr", Number, [(8, 4), (8, 8)]),
    ("f_nsyms", Number, [(12, 4), (20, 4)]),
    ("f_opthdr", Number, [(16, 2), (16, 2)]),
    ("f_flags", Hex, [(18, 2), (18, 2)]),
];

const AUXILIARY: [Field; 31] = [
    ("o_mflag", Hex, [(0, 2), (0, 2)]),
    ("o_vstamp", Number, [(2, 2), (2, 2)]),
    ("o_tsize", Number, [(4, 4), (56, 8)]),
    ("o_dsize", Number, [(8, 4), (64, 8)]),
    ("o_bsize", Number, [(12, 4), (72, 8)]),
    ("o_entry", Hex, [(16, 4), (80, 8)]),
    ("o_text_start", Hex, [(20, 4), (8, 8)]),
    ("o_data_start", Hex, [(24, 4), (16, 8)]),
    ("o_toc", Hex, [(28, 4), (24, 8)]),
    ("o_snentry", Number, [(32, 2), (32, 2)]),
    ("o_sntext", Number, [(34, 2), (34, 2)]),
    ("o_sndata", Number, [(36, 2), (36, 2)]),
    ("o_sntoc", Number, [(38, 2), (38, 2)]),
    ("o_snloader", Number, [(40, 2), (40, 2)]),
    ("o_snbss", Number, [(42, 2), (42, 2)]),
    ("o_algntext", Number, [(44, 2), (44, 2)]),
    ("o_algndata", Number, [(46, 2), (46, 2)]),
    ("o_modtype", Hex, [(48, 2), (48, 2)]),
    ("o_cpuflag", Hex, [(50, 1), (50, 1)]),
    ("o_cputype", Number, [(51, 1), (51, 1)]),
    ("o_maxstack", Number, [(52, 4), (88, 8)]),
    ("o_maxdata", Number, [(56, 4), (96, 8)]),
    ("o_debugger", Number, [(60, 4), (4, 4)]),
    ("o_textpsize", Number, [(64, 1), (52, 1)]),
    ("o_datapsize", Number, [(65, 1), (53, 1)]),
    ("o_stackpsize", Number, [(66, 1), (54, 1)]),
    ("o_flags", Hex, [(67, 1), (55, 1)]),
    ("o_sntdata", Number, [(68, 2), (104, 2)]),
    ("o_sntbss", Number, [(70, 2), (106, 2)]),
    ("o_x64flags", Hex, [NOT_THERE, (108, 2)]),
    ("o_shmpsize", Number, [NOT_THERE, (110, 1)]),
];

/// Bytes of the file header in each format.
const LENGTHS: [usize; 2] = [20, 24];

/// None where the file begins as no XCOFF file does.
pub fn header_fields(file: &[u8]) -> Option<HeaderFields> {
    let format = match file {
        [0x01, 0xDF, ..] => 0,
        [0x01, 0xF7, ..] => 1,
        _ => return None,
    };
    let length = LENGTHS[format];
    let header = &file[..file.len().min(length)];
    let auxiliary = number(header, (16, 2)).unwrap_or(0) as usize;
    let auxiliary = &file[header.len()..file.len().min(length + auxiliary)];
    Some(HeaderFields {
        file: fields(&FILE, header, 0, format),
        auxiliary: fields(&AUXILIARY, auxiliary, length, format),
    })
}

fn fields(layout: &[Field], bytes: &[u8], start: usize, format: usize) -> Vec<FieldValue> {
    let read = |(name, form, places): &Field| {
        let (at, length) = places[format];
        let value = number(bytes, (at, length))?;
        Some(FieldValue {
            name,
            offset: (start + at) as u64,
            value: match form {
                Hex => Value::Hex(value, 2 * length),
                Number => Value::Number(value),
            },
        })
    };
    let mut found: Vec<FieldValue> = layout.iter().filter_map(read).collect();
    found.sort_by_key(|field| field.offset);
    found
}

/// None where it is not there whole.
fn number(bytes: &[u8], (at, length): (usize, usize)) -> Option<u64> {
    let own = bytes.get(at..at + length).filter(|own| !own.is_empty())?;
    Some(own.iter().fold(0, |n, &byte| n << 8 | u64::from(byte)))
}
