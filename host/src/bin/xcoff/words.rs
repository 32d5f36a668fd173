//! Words for numbers of the format, as the public XCOFF description has them.

use xcoff::{Kind, Visibility};

pub fn kind_word(kind: Kind) -> &'static str {
    match kind {
        Kind::Pad => "pad",
        Kind::Dwarf => "dwarf",
        Kind::Text => "text",
        Kind::Data => "data",
        Kind::Bss => "bss",
        Kind::Except => "except",
        Kind::Info => "info",
        Kind::Tdata => "tdata",
        Kind::Tbss => "tbss",
        Kind::Loader => "loader",
        Kind::Debug => "debug",
        Kind::Typchk => "typchk",
        Kind::Ovrflo => "ovrflo",
        Kind::Deleted => "deleted",
    }
}

/// Section numbers of symbols that name no section.
pub fn section_word(scnum: i64) -> Option<&'static str> {
    match scnum {
        0 => Some("undef"),
        -1 => Some("abs"),
        -2 => Some("debug"),
        _ => None,
    }
}

pub fn visibility_word(visibility: Visibility) -> &'static str {
    match visibility {
        Visibility::None => "none",
        Visibility::Internal => "internal",
        Visibility::Hidden => "hidden",
        Visibility::Protected => "protected",
        Visibility::Exported => "exported",
    }
}

/// Storage classes, without their `C_`. 110 is INFO: the description's table has 100, which is BLOCK.
pub fn class_word(class: u64) -> Option<&'static str> {
    Some(match class {
        0 => "NULL",
        2 => "EXT",
        3 => "STAT",
        100 => "BLOCK",
        101 => "FCN",
        103 => "FILE",
        107 => "HIDEXT",
        108 => "BINCL",
        109 => "EINCL",
        110 => "INFO",
        111 => "WEAKEXT",
        112 => "DWARF",
        128 => "GSYM",
        129 => "LSYM",
        130 => "PSYM",
        131 => "RSYM",
        132 => "RPSYM",
        133 => "STSYM",
        134 => "TCSYM",
        135 => "BCOMM",
        136 => "ECOML",
        137 => "ECOMM",
        140 => "DECL",
        141 => "ENTRY",
        142 => "FUN",
        143 => "BSTAT",
        144 => "ESTAT",
        145 => "GTLS",
        146 => "STTLS",
        _ => return None,
    })
}

/// Storage mapping classes, without their `XMC_`.
pub fn mapping_word(class: u64) -> Option<&'static str> {
    Some(match class {
        0 => "PR",
        1 => "RO",
        2 => "DB",
        3 => "TC",
        4 => "UA",
        5 => "RW",
        6 => "GL",
        7 => "XO",
        8 => "SV",
        9 => "BS",
        10 => "DS",
        11 => "UC",
        12 => "TI",
        13 => "TB",
        15 => "TC0",
        16 => "TD",
        17 => "SV64",
        18 => "SV3264",
        20 => "TL",
        21 => "UL",
        22 => "TE",
        _ => return None,
    })
}

/// Types of relocation entries in sections' own tables, without their `R_`.
pub fn entry_word(rtype: u64) -> Option<&'static str> {
    Some(match rtype {
        0x00 => "POS",
        0x01 => "NEG",
        0x08 => "BA",
        0x0A => "BR",
        0x0C => "RL",
        0x0D => "RLA",
        0x0F => "REF",
        0x18 => "RBA",
        0x1A => "RBR",
        _ => return None,
    })
}
