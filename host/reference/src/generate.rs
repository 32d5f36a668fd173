//! Test cases from a seed: a file and operations on it. The same seed gives
//! the same case.

pub mod benches;
mod changed;
pub mod damage;
pub mod debug;
mod edges;
pub mod lines;
pub mod make;
pub mod objects;
pub mod offsets;
mod operations;
pub mod plans;
pub mod records;
pub mod rewrites;
pub mod rng;
pub mod salvages;
pub mod sizes;
pub mod visibility;

use crate::{Call, ObjectCall, Plan, Refusal, TableCall};
use damage::{count, lines_count, symbols_count, Hurt};
use make::{Made, Wish};
use rng::Rng;
use std::ops::Range;

/// One operation, with all its arguments and what the lent buffers hold.
#[derive(Clone, Debug, PartialEq, Eq)]
pub enum Op {
    Open,
    Section(u64),
    SectionName(u64),
    Symbol(u64),
    SymbolName(u64),
    Walk,
    Csect(u64),
    /// Every entry that the walk visits.
    Symbols,
    Module,
    Relocations,
    /// Every loader symbol.
    LoaderSymbols,
    /// The strings of every import id.
    ImportIds,
    LoaderSymbol(u64),
    LoaderSymbolName(u64),
    ImportPath(u64),
    ImportBase(u64),
    ImportMember(u64),
    Build {
        plan: Plan,
        text: Vec<u8>,
        data: Vec<u8>,
    },
    Move {
        from: Plan,
        to: Plan,
        text: Vec<u8>,
        data: Vec<u8>,
    },
    /// A list on one pair of buffers.
    Calls {
        calls: Vec<Call>,
        text: Vec<u8>,
        data: Vec<u8>,
    },
    ReadSheet {
        sheet: Vec<u8>,
        list: Vec<u64>,
    },
    WriteSheet {
        text: u64,
        data: u64,
        list: Vec<u64>,
        sheet: Vec<u8>,
    },
    List,
    /// How long the record text is.
    RecordsLength(Plan),
    WriteRecords {
        plan: Plan,
        text: Vec<u8>,
        data: Vec<u8>,
        records: Vec<u8>,
    },
    ReadRecords {
        plan: Plan,
        records: Vec<u8>,
        text: Vec<u8>,
        data: Vec<u8>,
    },
    /// An object file's sections and entries.
    Object,
    ObjectBuild {
        list: Vec<u64>,
        buffer: Vec<u8>,
    },
    ObjectMove {
        from: Vec<u64>,
        to: Vec<u64>,
        buffer: Vec<u8>,
    },
    /// A list on one buffer.
    ObjectCalls {
        calls: Vec<ObjectCall>,
        buffer: Vec<u8>,
    },
    FindLine {
        section: u64,
        address: u64,
    },
    /// A list of calls on an address table that starts empty; fills take the file.
    Table(Vec<TableCall>),
    WriteModule {
        plan: Plan,
        out: Vec<u8>,
    },
    Salvage {
        copy: Vec<u8>,
        report: Vec<u8>,
    },
}

impl Op {
    /// The operation's word.
    pub fn word(&self) -> &'static str {
        match self {
            Op::Open => "open",
            Op::Section(_) => "section",
            Op::SectionName(_) => "section_name",
            Op::Symbol(_) => "symbol",
            Op::SymbolName(_) => "symbol_name",
            Op::Walk => "walk",
            Op::Csect(_) => "csect",
            Op::Symbols => "symbols",
            Op::Module => "module",
            Op::Relocations => "relocations",
            Op::LoaderSymbols => "loader_symbols",
            Op::ImportIds => "import_ids",
            Op::LoaderSymbol(_) => "loader_symbol",
            Op::LoaderSymbolName(_) => "loader_symbol_name",
            Op::ImportPath(_) => "import_path",
            Op::ImportBase(_) => "import_base",
            Op::ImportMember(_) => "import_member",
            Op::Build { .. } => "build",
            Op::Move { .. } => "move",
            Op::Calls { .. } => "calls",
            Op::ReadSheet { .. } => "read_sheet",
            Op::WriteSheet { .. } => "write_sheet",
            Op::List => "list",
            Op::RecordsLength(_) => "records_length",
            Op::WriteRecords { .. } => "write_records",
            Op::ReadRecords { .. } => "read_records",
            Op::Object => "object",
            Op::ObjectBuild { .. } => "object_build",
            Op::ObjectMove { .. } => "object_move",
            Op::ObjectCalls { .. } => "object_calls",
            Op::FindLine { .. } => "find_line",
            Op::Table(_) => "table",
            Op::WriteModule { .. } => "write_module",
            Op::Salvage { .. } => "salvage",
        }
    }
}

/// A refusal that one of the operations must give.
#[derive(Clone, Debug, PartialEq, Eq)]
pub struct Expected {
    /// Which of `ops`.
    pub op: usize,
    pub refusal: Refusal,
}

#[derive(Clone, Debug)]
pub struct Case {
    pub seed: u64,
    pub label: String,
    pub file: Vec<u8>,
    pub ops: Vec<Op>,
    /// For aimed damages.
    pub expected: Option<Expected>,
}

/// The case of a seed. Every eighth is aimed at request 2, another eighth at
/// requests 1, 9 and 4, another one at requests 10, 5 and 7, and another one
/// at requests 6, 8 and 12; what belongs to a request is drawn by itself, so that the
/// other cases stay as they are.
pub fn case(seed: u64) -> Case {
    let rng = &mut Rng::new(seed);
    let later = &mut Rng::new(!seed);
    let drawn = match seed % 8 {
        7 => records_file(later),
        3 => symbols_file(later),
        5 => {
            let edges = [sizes::EDGES, objects::EDGES, lines::EDGES];
            in_turn(later, seed / 8, symbols_count()..lines_count(), &edges)
        }
        1 => {
            let edges = [benches::EDGES, rewrites::EDGES, salvages::EDGES];
            in_turn(later, seed / 8, lines_count()..count(), &edges)
        }
        _ => any_file(rng),
    };
    let mut ops = operations::some_ops(rng, &drawn.made);
    ops.extend(drawn.more);
    let mut expected = None;
    if let Some((op, refusal)) = drawn.aimed {
        let at = rng.below(ops.len() as u64 + 1) as usize;
        ops.insert(at, op);
        expected = Some(Expected { op: at, refusal });
    }
    ops.extend(records::some_op(later, &drawn.made));
    ops.extend(sizes::some_op(later));
    ops.extend(objects::some_op(later, &drawn.made));
    ops.extend(lines::some_op(later, &drawn.made));
    ops.extend(benches::some_op(later, &drawn.made));
    ops.extend(rewrites::some_op(later, &drawn.made));
    ops.extend(salvages::some_op(later, &drawn.made));
    Case {
        seed,
        label: drawn.label,
        file: drawn.made.bytes,
        ops,
        expected,
    }
}

/// A file before its operations are chosen.
struct Drawn {
    label: String,
    made: Made,
    /// For aimed damages: the operation and its refusal.
    aimed: Option<(Op, Refusal)>,
    /// Operations that look at what is special in the file.
    more: Vec<Op>,
}

impl Drawn {
    fn plain(label: &str, made: Made) -> Drawn {
        Drawn {
            label: label.to_string(),
            made,
            aimed: None,
            more: Vec::new(),
        }
    }

    fn aimed(label: String, hurt: Hurt) -> Drawn {
        Drawn {
            label,
            made: hurt.made,
            aimed: Some((hurt.op, hurt.refusal)),
            more: Vec::new(),
        }
    }
}

fn any_file(rng: &mut Rng) -> Drawn {
    match rng.below(1000) {
        0..=179 => Drawn::plain("module", make::module(rng, &Wish::default())),
        180..=229 => Drawn::plain("object", make::object(rng, &Wish::default())),
        230..=629 => {
            let which = rng.below(damage::base_count() as u64) as usize;
            let (name, hurt) = damage::single(rng, which);
            Drawn::aimed(format!("aimed: {name}"), hurt)
        }
        630..=709 => {
            let (name, hurt) = damage::pair(rng);
            Drawn::aimed(format!("order: {name}"), hurt)
        }
        710..=809 => Drawn::plain("numbers", changed::odd_numbers(rng)),
        810..=864 => Drawn::plain("flips", changed::flips(rng)),
        865..=899 => Drawn::plain("cut", changed::cut(rng)),
        900..=914 => Drawn::plain("longer", changed::longer(rng)),
        915..=924 => Drawn::plain("noise", changed::noise(rng)),
        _ => {
            let mut more = Vec::new();
            let (label, made) = edges::edge(rng, &mut more);
            Drawn {
                more,
                ..Drawn::plain(&label, made)
            }
        }
    }
}

/// A damage of S-records, and an operation without one.
fn records_file(rng: &mut Rng) -> Drawn {
    let last = damage::records_count() as u64 - 1;
    let which = rng.between(damage::base_count() as u64, last);
    let (name, hurt) = damage::single(rng, which as usize);
    let more = vec![records::good_op(rng, &hurt.made)];
    Drawn {
        more,
        ..Drawn::aimed(format!("aimed: {name}"), hurt)
    }
}

/// A damage of debugger names, visibilities or offsets, or an accepted edge of the
/// first two.
fn symbols_file(rng: &mut Rng) -> Drawn {
    if rng.chance(40) {
        let mut more = Vec::new();
        let edge = rng.pick(&[debug::edge, visibility::edge]);
        let (label, made) = edge(rng, &mut more);
        return Drawn {
            more,
            ..Drawn::plain(&label, made)
        };
    }
    let first = damage::records_count() as u64;
    let which = rng.between(first, symbols_count() as u64 - 1);
    let (name, hurt) = damage::single(rng, which as usize);
    Drawn::aimed(format!("aimed: {name}"), hurt)
}

/// An accepted edge: a file, and the operations that look at it; none where the
/// file didn't suit.
pub type Edge = (&'static str, fn(&mut Rng) -> Option<(Made, Vec<Op>)>);

/// One of these damages and edges, each in its turn: in one round in XCOFF32, in the
/// next one in XCOFF64, where it has both.
fn in_turn(rng: &mut Rng, turn: u64, damages: Range<usize>, edges: &[&[Edge]]) -> Drawn {
    let edges = edges.concat();
    let count = (damages.len() + edges.len()) as u64;
    let which = (turn % count) as usize;
    let bits = if turn / count % 2 == 0 { 32 } else { 64 };
    for _ in 0..20 {
        let drawn = match edges.get(which.wrapping_sub(damages.len())) {
            Some(edge) => at_edge(rng, edge),
            None => {
                let (name, hurt) = damage::single(rng, damages.start + which);
                Drawn::aimed(format!("aimed: {name}"), hurt)
            }
        };
        if drawn.made.bits == bits {
            return drawn;
        }
    }
    in_turn(rng, turn + count, damages, &[&edges])
}

fn at_edge(rng: &mut Rng, (label, make): &Edge) -> Drawn {
    loop {
        if let Some((made, more)) = make(rng) {
            return Drawn {
                more,
                ..Drawn::plain(&format!("edge: {label}"), made)
            };
        }
    }
}

/// A module or, more rarely, an object.
fn either(rng: &mut Rng) -> Made {
    let wish = Wish {
        rich: rng.chance(50),
        ..Wish::default()
    };
    if rng.chance(75) {
        make::module(rng, &wish)
    } else {
        make::object(rng, &wish)
    }
}
