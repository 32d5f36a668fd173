//! The commands: their arguments and their help.

use crate::args::Arguments;
use crate::problem::Problem;
use crate::{
    check, dump, images, line, lined, lists, map, object, place, plans, records, rewrite, salvage,
    symbols, table,
};

pub struct Command {
    pub name: &'static str,
    /// Arguments as the usage line shows them.
    pub usage: &'static str,
    /// Arguments that must be given, in order.
    pub operands: &'static [&'static str],
    /// How many more may follow.
    pub optional: usize,
    pub options: &'static [Flag],
    pub summary: &'static str,
    pub help: &'static str,
    pub run: fn(&Arguments) -> Result<(), Problem>,
}

pub struct Flag {
    pub name: &'static str,
    pub values: &'static [&'static str],
    pub required: bool,
    pub repeated: bool,
}

const fn flag(name: &'static str, values: &'static [&'static str]) -> Flag {
    Flag {
        name,
        values,
        required: false,
        repeated: false,
    }
}

const fn required(name: &'static str, values: &'static [&'static str]) -> Flag {
    Flag {
        required: true,
        ..flag(name, values)
    }
}

const fn repeated(name: &'static str, values: &'static [&'static str]) -> Flag {
    Flag {
        repeated: true,
        ..flag(name, values)
    }
}

static JSON: [Flag; 1] = [flag("--json", &[])];

/// Options of the commands that write: to end at once where another command is at work, to replace a file of another kind.
const NO_WAIT: Flag = flag("--no-wait", &[]);
const FORCE: Flag = flag("--force", &[]);

/// A command that lists a file.
const fn lister(
    name: &'static str,
    summary: &'static str,
    help: &'static str,
    run: fn(&Arguments) -> Result<(), Problem>,
) -> Command {
    Command {
        name,
        usage: "FILE... [--json]",
        operands: &["FILE"],
        optional: usize::MAX,
        options: &JSON,
        summary,
        help,
        run,
    }
}

pub static COMMANDS: [Command; 22] = [
    lister(
        "headers",
        "the file header and the sections",
        HEADERS,
        lists::headers,
    ),
    Command {
        usage: "FILE... [--name PATTERN] [--sort value|name|index] [--json]",
        options: &[
            flag("--name", &["PATTERN"]),
            flag("--sort", &["value|name|index"]),
            flag("--json", &[]),
        ],
        ..lister(
            "symbols",
            "the symbol table, with csects",
            SYMBOLS,
            symbols::symbols,
        )
    },
    lister(
        "module",
        "a loadable module and its loader symbols",
        MODULE,
        lists::module,
    ),
    lister(
        "imports",
        "what a module imports, and from where",
        IMPORTS,
        lists::imports,
    ),
    Command {
        usage: "FILE... [--follows text|data|IMPORT] [--json]",
        options: &[
            flag("--follows", &["text|data|IMPORT"]),
            flag("--json", &[]),
        ],
        ..lister(
            "relocations",
            "the fields that a move changes",
            RELOCATIONS,
            lists::relocations,
        )
    },
    Command {
        usage: "FILE... [--section N] [--json]",
        options: &[flag("--section", &["N"]), flag("--json", &[])],
        ..lister("lines", "the line number tables", LINES, lined::lines)
    },
    Command {
        usage: "FILE... [--section N] [--json]",
        options: &[flag("--section", &["N"]), flag("--json", &[])],
        ..lister(
            "object",
            "the relocation tables of an object file",
            OBJECT,
            object::object,
        )
    },
    Command {
        name: "line",
        usage: "FILE [--sheet SHEET] [--section N] [--json] ADDRESS...",
        operands: &["FILE", "ADDRESS"],
        optional: usize::MAX,
        options: &[
            flag("--sheet", &["SHEET"]),
            flag("--section", &["N"]),
            flag("--json", &[]),
        ],
        summary: "the line of an address",
        help: LINE,
        run: line::line,
    },
    Command {
        name: "plan",
        usage: "FILE [--text HEX] [--data HEX] [--import NAME=HEX]... [--imports IMPORTS] [--from OLD | --table TABLE --bench N] [--recorded] -o SHEET [--force] [--no-wait]",
        operands: &["FILE"],
        optional: 0,
        options: &[
            flag("--text", &["HEX"]),
            flag("--data", &["HEX"]),
            repeated("--import", &["NAME=HEX"]),
            flag("--imports", &["IMPORTS"]),
            flag("--from", &["OLD"]),
            flag("--table", &["TABLE"]),
            flag("--bench", &["N"]),
            flag("--recorded", &[]),
            required("-o", &["SHEET"]),
            FORCE,
            NO_WAIT,
        ],
        summary: "writes a plan sheet: the addresses of one card",
        help: PLAN,
        run: plans::plan,
    },
    Command {
        name: "table",
        usage: "TABLE {new|add|remove|find|list|fill} [BENCH [ID NAME [HEX] | FILE]] [--text HEX] [--data HEX] [-o SHEET] [--json] [--force] [--no-wait]",
        operands: &["TABLE", "ACTION"],
        optional: 4,
        options: &[
            flag("--text", &["HEX"]),
            flag("--data", &["HEX"]),
            flag("-o", &["SHEET"]),
            flag("--json", &[]),
            FORCE,
            NO_WAIT,
        ],
        summary: "the benches' table of addresses of imports",
        help: TABLE,
        run: table::table,
    },
    Command {
        name: "sheet",
        usage: "SHEET [FILE] [--json]",
        operands: &["SHEET"],
        optional: 1,
        options: &JSON,
        summary: "prints a plan sheet",
        help: SHEET,
        run: plans::sheet,
    },
    Command {
        name: "build",
        usage: "FILE SHEET -o TEXT DATA [--force] [--no-wait] [--json]",
        operands: &["FILE", "SHEET"],
        optional: 0,
        options: &[
            required("-o", &["TEXT", "DATA"]),
            FORCE,
            NO_WAIT,
            flag("--json", &[]),
        ],
        summary: "builds the text and data images for a sheet",
        help: BUILD,
        run: images::build,
    },
    Command {
        name: "move",
        usage: "FILE FROM TO TEXT DATA [-o TEXT2 DATA2] [--keep-changes | --unchecked] [--force] [--no-wait] [--json]",
        operands: &["FILE", "FROM", "TO", "TEXT", "DATA"],
        optional: 0,
        options: &[
            flag("-o", &["TEXT2", "DATA2"]),
            flag("--keep-changes", &[]),
            flag("--unchecked", &[]),
            FORCE,
            NO_WAIT,
            flag("--json", &[]),
        ],
        summary: "moves images from one sheet to another",
        help: MOVE,
        run: images::move_images,
    },
    Command {
        name: "check",
        usage: "FILE SHEET {TEXT DATA | --records RECORDS} [--or SHEET]... [--no-wait] [--json]",
        operands: &["FILE", "SHEET"],
        optional: 2,
        options: &[
            flag("--records", &["RECORDS"]),
            repeated("--or", &["SHEET"]),
            NO_WAIT,
            flag("--json", &[]),
        ],
        summary: "says whether images or records are those of a sheet",
        help: CHECK,
        run: check::check,
    },
    Command {
        name: "records",
        usage: "FILE SHEET [--images TEXT DATA [--keep-changes | --unchecked]] -o RECORDS [--force] [--no-wait]",
        operands: &["FILE", "SHEET"],
        optional: 0,
        options: &[
            flag("--images", &["TEXT", "DATA"]),
            flag("--keep-changes", &[]),
            flag("--unchecked", &[]),
            required("-o", &["RECORDS"]),
            FORCE,
            NO_WAIT,
        ],
        summary: "writes images as S-records for a PROM programmer",
        help: RECORDS,
        run: records::records,
    },
    Command {
        name: "images",
        usage: "FILE SHEET RECORDS [--keep-changes | --unchecked] -o TEXT DATA [--force] [--no-wait] [--json]",
        operands: &["FILE", "SHEET", "RECORDS"],
        optional: 0,
        options: &[
            flag("--keep-changes", &[]),
            flag("--unchecked", &[]),
            required("-o", &["TEXT", "DATA"]),
            FORCE,
            NO_WAIT,
            flag("--json", &[]),
        ],
        summary: "reads S-records back into images",
        help: IMAGES,
        run: records::images,
    },
    Command {
        name: "dump",
        usage: "FILE SHEET [TEXT DATA]",
        operands: &["FILE", "SHEET"],
        optional: 2,
        options: &[NO_WAIT],
        summary: "prints images in hexadecimal, with the card's addresses",
        help: DUMP,
        run: dump::dump,
    },
    Command {
        name: "map",
        usage: "FILE SHEET [--svg PICTURE [--force] [--no-wait]] [--json]",
        operands: &["FILE", "SHEET"],
        optional: 0,
        options: &[
            flag("--svg", &["PICTURE"]),
            FORCE,
            NO_WAIT,
            flag("--json", &[]),
        ],
        summary: "draws where everything lies on the card",
        help: MAP,
        run: map::map,
    },
    Command {
        name: "place",
        usage: "FILE --at N=HEX... [--recorded] -o IMAGE [--force] [--no-wait] [--json]",
        operands: &["FILE"],
        optional: 0,
        options: &[
            repeated("--at", &["N=HEX"]),
            flag("--recorded", &[]),
            required("-o", &["IMAGE"]),
            FORCE,
            NO_WAIT,
            flag("--json", &[]),
        ],
        summary: "places the sections of an object file",
        help: PLACE,
        run: place::place,
    },
    Command {
        name: "place-move",
        usage: "FILE --from N=HEX... --to N=HEX... IMAGE [-o IMAGE2] [--recorded] [--keep-changes | --unchecked] [--force] [--no-wait] [--json]",
        operands: &["FILE", "IMAGE"],
        optional: 0,
        options: &[
            repeated("--from", &["N=HEX"]),
            repeated("--to", &["N=HEX"]),
            flag("--recorded", &[]),
            flag("-o", &["IMAGE2"]),
            flag("--keep-changes", &[]),
            flag("--unchecked", &[]),
            FORCE,
            NO_WAIT,
            flag("--json", &[]),
        ],
        summary: "moves a placed object file to other addresses",
        help: PLACE_MOVE,
        run: place::place_move,
    },
    Command {
        name: "rewrite",
        usage: "FILE SHEET -o FILE2 [--force] [--no-wait]",
        operands: &["FILE", "SHEET"],
        optional: 0,
        options: &[required("-o", &["FILE2"]), FORCE, NO_WAIT],
        summary: "writes a module back as a file for a sheet",
        help: REWRITE,
        run: rewrite::rewrite,
    },
    Command {
        name: "salvage",
        usage: "FILE -o COPY [--report REPORT] [--force] [--no-wait] [--json]",
        operands: &["FILE"],
        optional: 0,
        options: &[
            required("-o", &["COPY"]),
            flag("--report", &["REPORT"]),
            FORCE,
            NO_WAIT,
            flag("--json", &[]),
        ],
        summary: "copies a file and mends its damaged symbols",
        help: SALVAGE,
        run: salvage::salvage,
    },
];

impl Command {
    pub fn named(name: &std::ffi::OsStr) -> Option<&'static Command> {
        COMMANDS.iter().find(|command| name == command.name)
    }

    pub fn help_text(&self) -> String {
        format!("{}\n\n{}", self.usage_lines(), self.help)
    }

    /// Broken before an option where a line gets long.
    fn usage_lines(&self) -> String {
        let mut lines = format!("usage: xcoff {}", self.name);
        let mut width = lines.len();
        for part in self.usage.split(" [") {
            let part = match part == self.usage.split(" [").next().unwrap_or("") {
                true => part.to_string(),
                false => format!("[{part}"),
            };
            if width + 1 + part.len() > 84 {
                lines.push_str("\n            ");
                width = 12;
            }
            lines.push(' ');
            lines.push_str(&part);
            width += 1 + part.len();
        }
        lines
    }
}

/// Help for the tool as a whole.
pub fn overview() -> String {
    let mut text = String::from(OVERVIEW_START);
    for command in &COMMANDS {
        text.push_str(&format!("  {:<13}{}\n", command.name, command.summary));
    }
    text.push_str(OVERVIEW_END);
    text
}

/// What the numbers mean that a command ends with.
pub fn exit_status() -> &'static str {
    let paragraphs = OVERVIEW_END.split("\n\n");
    let mut own = paragraphs.filter_map(|words| words.strip_prefix("Exit status: "));
    own.next().expect("the overview has them")
}

const OVERVIEW_START: &str = "\
usage: xcoff COMMAND ARGUMENT...

Reads XCOFF modules, builds their text and data images for the addresses of one
card, moves images when a memory board is swapped, and writes and reads them as
S-records for a PROM programmer. Object files are placed without linking them.

";

const OVERVIEW_END: &str = "
  xcoff help COMMAND     says more about a command, with an example
  xcoff version          prints the version

Exit status: 0 done; 1 refused by a rule, or something given that is not what it
should be, as images that are not the plan's; 2 a command line that makes no sense;
3 refused by the system (a file that is missing or unreadable, a full disk, a closed
pipe, a folder in which another xcoff writes).

A refusal is a line on standard error with 'refused N I O': the number of the
rule, the item it names and that item's offset in the file, 0 where it is not in
the file; then the rule's name and what it means. Below it stand the bytes of the
header or entry that is named, as a hex dump has them, and the values that the
rule speaks of.

In listings, addresses, types and flags are hexadecimal, sizes, offsets and
counts decimal. Names are bytes of the file: a blank, a quote or a byte that
does not print is \\xNN, a backslash \\\\, the empty name \"\"; a name over 256
bytes is cut and ends in \\... instead. Of several files each is listed under its
name. With --json each row is one object, and so is a refusal, after the rows.
";

const HEADERS: &str = "\
Lists the file header (its sections, the entries of its symbol table, the bytes
of its auxiliary header, its flags and when it was made, '-' where it does not say)
and every section header: the section's number, its kind, its physical and virtual
address, its size in bytes, where its raw data lies in the file and whether there is
any, where its relocation table and its line number table lie and how many entries
each has ('relptr', 'nreloc', 'lnnoptr', 'nlnno'), and its name; then the fields of
the auxiliary header, as far as there are any. The counts are those of the header:
65535 of an XCOFF32 file may stand for the count in an overflow header ('ovrflo').

  xcoff headers diag.xcoff

--json  one object a line
";

const SYMBOLS: &str = "\
Lists the symbols in the order of the table. Symbols of class EXT, HIDEXT and
WEAKEXT have a csect: its type (ER external, SD section, LD label, CM common),
the log 2 of its alignment, its mapping class, its length in bytes, or of a label
the index of the csect it lies within. 'bad' is a csect that is refused
(12 CSECT). In an XCOFF32 file of auxiliary version 2 the type of such a symbol
has a visibility: none, internal, hidden, protected or exported; '-' where no
visibility is claimed. 'in' is the name of the symbol's section, 'source' that of the
source file that a symbol of class FILE tells of. Where an entry is refused, those
before it are listed and the refusal follows, with exit status 1.

  xcoff symbols diag.xcoff
  xcoff symbols diag.xcoff --name '.get*' --sort value

--name PATTERN  only symbols whose name, as it is shown, is as the pattern says: *
                stands for any characters, ? for one
--sort ORDER    by value, by name, or by index, which is the table's own order
--json          one object a line; 'visibility' is a number, 0 to 4, or null
";

const MODULE: &str = "\
Judges a file as a loadable module, down to its last relocation entry, and lists
its parts ('image' is the data image: data, zeros up to bss, bss), its entry
and TOC, and its loader symbols. Of these a plan gives an address to each that is
used as 'import'; 'deferred' imports and 'defined' symbols need none. 'type' and
'parm' are as the file has them; an import's type has bit 40. An object file (.o)
is no module before it is linked: refused 13.

  xcoff module diag.xcoff

--json  one object a line
";

const IMPORTS: &str = "\
Lists the import ids (path, base name and archive member of a file that something
is imported from) and the imported symbols with their recorded values. Id 0 of
a symbol means a deferred import, which no plan gives an address.

  xcoff imports diag.xcoff

--json  one object a line
";

const RELOCATIONS: &str = "\
Lists the relocation entries in the order of the table: the field's recorded
address, the image and the offset in it, its bits, whether what the symbol moves
by is added or subtracted, the type, and the symbol (0 text, 1 data, 2 bss, from
3 a loader symbol). Only these fields depend on a plan.

  xcoff relocations diag.xcoff
  xcoff relocations diag.xcoff --follows puts

--follows text    only the fields that the text address alone can change: every
                  entry of each field with at least one that names text or a
                  symbol defined in text
--follows data    the same of the data address: data, bss or a symbol defined in
                  either
--follows IMPORT  the same of an import's address: its name as listings show it, or
                  @INDEX where two imports have one name, or one is named text or
                  data
--json            one object a line
";

const LINES: &str = "\
Lists the line number tables of the text sections whole. An entry with line 0 begins
a function: 'symbol' is the index of its symbol, 'function' its name. Every other has
the address where the code of a line begins, and the line, 'relative' to the start of
the function as the table has it. 'absolute' is the line in the source file, where
the function's .bf symbol says in which line the function starts, else '-'.

  xcoff lines diag.o

--section N  only the table of text section N
--json       one object a line; what is 'relative' is 'line' there
";

const LINE: &str = "\
Finds the line of each address: the entry of the line number table with the greatest
address not above it, the first such in the table. 'asked' is the address as given,
'address' where the entry's code begins in the file's own addresses, 'relative' the
line as the table has it, counted from the start of the function. 'absolute' is the
line in the source file, where the function's .bf symbol says in which line the
function starts; 'source' is that file, where a .file symbol names it; else '-'.

  xcoff line diag.xcoff --sheet card7.sheet 10010 1004c
  xcoff line diag.o 1c

The table is that of the text section that holds the address. An address in no text
section, or below the first line, has no line: exit status 1. Of several addresses
each has a row, empty where there is no line, and the reasons are on standard error.

-              for ADDRESS: an address on each line of standard input; each is
               answered as it comes
--sheet SHEET  the addresses are those of the card that the sheet is for; without
               it they are the file's own
--section N    the table of text section N, wherever the address lies
--json         one object a line; what is 'relative' is 'line' there
";

const PLAN: &str = "\
Writes a plan sheet for a module: where its text, its data and its imports are in
one card's memory. What is not given is as recorded in the file. An import that
would be at address 0 because nobody gave it is most likely forgotten: such imports
are listed, no sheet is written and the exit status is 1. 'xcoff imports FILE' lists
all, 'xcoff sheet SHEET FILE' shows what each got. A sheet that a build would refuse
is not written. Images that overlap on the card, and addresses that are not aligned
as the module's own, are warned of.

  xcoff plan diag.xcoff --text 10000 --data 80000 --import puts=fff01200 -o card7.sheet
  xcoff plan diag.xcoff --from card7.sheet --data c0000 -o card9.sheet

--text HEX           the text image's address, with or without 0x before it
--data HEX           the data image's address; bss moves with it
--import NAME=HEX    the address of an import, its name as listings show it
--import @INDEX=HEX  the same by the index that listings show, where two imports
                     have one name
--imports IMPORTS    a file with addresses of imports, each on a line of its own:
                     NAME HEX or @INDEX HEX. Lines that are empty or begin with #
                     are left out. An import may be given once, here or there
--from OLD           an older sheet of the module: what is not given is as there
--table TABLE        an address table ('xcoff table'): imports that are not given
--bench N            have the addresses of bench N's rows; those without a row have
                     their recorded address and are listed, also where that is 0
--recorded           leaves imports at address 0 where nobody gave another
-o SHEET             the sheet to write; an old one is replaced whole
--force              replaces an XCOFF file too
--no-wait            ends, with status 3, where another xcoff writes in the folder
";

const TABLE: &str = "\
Keeps addresses of imports in one file for both benches, 512 rows in all. A row has a
bench, 1 or 2, the id of the file that is imported from ('xcoff imports' lists ids),
a name of at most 32 bytes, as listings show it, and an address. Each bench adds,
removes, finds and lists its own rows; none of that shows or changes the other's.

  xcoff table share/imports.table new
  xcoff table share/imports.table add 1 2 puts fff01200
  xcoff table share/imports.table fill 1 diag.xcoff --text 10000 --data 80000 -o card7.sheet

new                     makes an empty table; a file that is there is not replaced
add BENCH ID NAME HEX   adds a row; one that is there gets the new address
remove BENCH ID NAME    removes a row
find BENCH ID NAME      lists one row
list BENCH              lists the bench's rows, by id and name
fill BENCH FILE         writes a plan sheet for FILE: imports have the addresses of
                        the bench's rows; those without a row have their recorded
                        address and are listed

A command that changes the table holds the lock of its folder while it reads, changes
and replaces the file, so that two benches lose nothing; another waits for it.

--text HEX, --data HEX  with fill, as in 'xcoff plan'
-o SHEET, --force       with fill, as in 'xcoff plan'
--json                  with find and list: one object a line
--no-wait               ends, with status 3, where another xcoff writes in the folder
";

const SHEET: &str = "\
Prints a plan sheet. With FILE, the module that it is for, also which loader symbol
each address belongs to; the places of symbols that take no address are shown as
'-'. A sheet that does not fit the module is refused. A sheet does not name its
module: one of another module with as many loader symbols fits, and is warned of
where what 'plan' writes into the places that are ignored is not this module's.
Old sheets, with counts of 2 bytes, are read as well as those that plan writes.

  xcoff sheet card7.sheet diag.xcoff

--json  one object a line
";

const BUILD: &str = "\
Builds a module's text and data images for a plan sheet and writes them to TEXT
and DATA. Both files are written beside, synced and then renamed, so that neither
is ever seen half-written; old files are replaced. A symbolic link is followed. The
line printed has the addresses at which the images are to be written on the card.
Images that overlap, addresses that are not aligned as the module's own, and a sheet
that was probably made for another module are warned of.

  xcoff build diag.xcoff card7.sheet -o card7.text card7.data

-o TEXT DATA  the files to write
--force       replaces an XCOFF file or a sheet too
--no-wait     ends, with status 3, where another xcoff writes in the folder
--json        prints one object a line
";

const MOVE: &str = "\
Moves the images in TEXT and DATA from the plan of the sheet FROM to that of TO, in
place or, with -o, into other files. FROM must be the sheet that they are for:
moving images a second time makes wrong ones. So they are compared with those of
FROM first, byte for byte; where they differ the command says how and which of the
two sheets they are for, changes nothing and exits with 1. 'xcoff check' with --or
finds the sheet that images are for, 'xcoff build' makes them anew. Another xcoff
that writes in the folder is waited for.

  xcoff move diag.xcoff card7.sheet card9.sheet card7.text card7.data -o card9.text card9.data

-o TEXT2 DATA2  the files to write; without it TEXT and DATA are replaced
--keep-changes  bytes outside the relocated fields may differ, as where the card's
                program wrote; they are kept, with a warning that says where
--unchecked     moves the images whatever they hold
--force         replaces an XCOFF file or a sheet too
--no-wait       ends, with status 3, where another xcoff writes in the folder
--json          prints one object a line
";

const CHECK: &str = "\
Compares images, or those that a file of S-records holds, with those of a plan.
Exit status 0: they are exactly the same. Otherwise 1, with the first address where
each image differs, and whether at least the relocated fields are the plan's. Where
they are not, and another text address, data address or address of one import would
make every one of them the plan's, it says so, with the address. An image of the
wrong length, or a record that is not as 'xcoff records' writes it, is refused.

  xcoff check diag.xcoff card7.sheet card7.text card7.data --or card9.sheet
  xcoff check diag.xcoff card7.sheet --records card7.srec

--records RECORDS  a file of S-records, instead of TEXT and DATA
--or SHEET         another plan that the images may be for; 0 is for any of them,
                   and the line printed says which
--no-wait          ends, with status 3, where another xcoff writes in the folder
--json             prints one object a line
";

const RECORDS: &str = "\
Builds the images of an XCOFF32 module for a plan sheet and writes them as Motorola
S-records: S3 lines of 32 bytes, the text image first, then the data image, and one
S7 line with the entry address, or 0 where there is none. Images that share an
address are refused. The file is written beside, synced and then renamed.

  xcoff records diag.xcoff card7.sheet -o card7.srec

With --images, images that were built before are written. They must be exactly the
sheet's, or the command says how they differ, writes nothing and exits with 1.

-o RECORDS          the file to write; an old one is replaced whole
--images TEXT DATA  the images, instead of a build
--keep-changes      with --images: bytes outside the relocated fields may differ;
                    they are written as they are, with a warning that says where
--unchecked         with --images: writes the images whatever they hold
--force             replaces an XCOFF file or a sheet too
--no-wait           ends, with status 3, where another xcoff writes in the folder
";

const IMAGES: &str = "\
Reads S-records into the two images of a module and writes these to TEXT and DATA.
The records must be exactly those that 'xcoff records' writes for the sheet, but for
the data bytes, which may be any: the first line that is not is refused (22 RECORD)
and shown as the file has it, beside that of the sheet's own images. The images must
be exactly the sheet's, or the command says how they differ, writes nothing and
exits with 1.

  xcoff images diag.xcoff card7.sheet card7.srec -o card7.text card7.data

-o TEXT DATA    the files to write; old ones are replaced whole
--keep-changes  bytes outside the relocated fields may differ, as where the card's
                program wrote; they are kept, with a warning that says where
--unchecked     writes the images whatever they hold
--force         replaces an XCOFF file or a sheet too
--no-wait       ends, with status 3, where another xcoff writes in the folder
--json          prints one object a line
";

const DUMP: &str = "\
Prints the text and data images of a module for a plan sheet in hexadecimal, 16
bytes a line with the address that they have on the card. Lines that are like the
one before are left out, and a * stands for them. With TEXT and DATA these files are
printed, whatever they hold; their lengths must be the images'.

  xcoff dump diag.xcoff card7.sheet
  xcoff dump diag.xcoff card7.sheet card7.text card7.data

--no-wait  ends, with status 3, where another xcoff writes in the folder
";

const MAP: &str = "\
Says where everything of a module lies on the card that a plan sheet is for: text,
data, the zeros up to bss, bss, the entry and the TOC, and the imports, each with how
many relocated fields it has or follow it; then draws both images, a character for
some bytes, with the fields by what they follow.

  xcoff map diag.xcoff card7.sheet
  xcoff map diag.xcoff card7.sheet --svg card7.svg

--svg PICTURE  writes the drawing as a picture (SVG) instead, to hang beside the card
--force        replaces an XCOFF file or a sheet too
--no-wait      ends, with status 3, where another xcoff writes in the folder
--json         one object a line, without the drawing
";

const OBJECT: &str = "\
Judges a file as an object file, down to its last relocation entry, and lists what
'xcoff place' works on: how many sections, relocation entries and bytes of image there
are; every section with its recorded address, its size, its offset in the image, where
its relocation table lies in the file, how many entries that has and the number of the
first ('-' of sections that are neither text nor data); then the entries by section.
Entries are numbered on from table to table. Of each: the address of its field, the
field's offset in the image and its bits, 26 of a branch, the size and type as the file
has them (POS, RL and RLA add, NEG subtracts, BA and RBA branch to an address, BR and
RBR by a distance, REF changes nothing), the index of its symbol, the section 'with'
which that moves ('-' for none), and its name. Any file that opens is taken.

  xcoff object diag.o

--section N  only the entries of text or data section N
--json       one object a line; 'type' is a number there
";

const PLACE: &str = "\
Places an object file without linking it: writes its text and data sections, end to end
in the order of the file, with their relocation entries applied for the addresses given.
'xcoff object FILE' lists the sections and their offsets in the image; bss has an
address and no bytes. Every text, data and bss section needs an address: those without
one are listed, nothing is written and the exit status is 1. A branch that would leave
its range is refused (25 RANGE), with its entry, its section and its address. Symbols in
no such section, as undefined ones, do not move. Sections that overlap are warned of.

  xcoff place diag.o --at 1=10000 --at 2=80000 --at 3=80400 -o card7.image

Sections may share bytes and tables of the file: where more than 64 MiB of memory are
needed, that is said before they are taken.

--at N=HEX  the address of section N, with or without 0x before it
--recorded  sections that are not given are at the address that the file records
-o IMAGE    the file to write; an old one is replaced whole
--force     replaces an XCOFF file or a sheet too
--no-wait   ends, with status 3, where another xcoff writes in the folder
--json      prints one object a line: the image, then each section that is placed
";

const PLACE_MOVE: &str = "\
Moves the image that 'xcoff place' wrote from some addresses of its sections to others,
in place or, with -o, into another file. --from must have the addresses that it is for:
moving an image a second time makes a wrong one. So it is compared with that of --from
first, byte for byte; where it differs the command says how and whether it is that of
--to, changes nothing and exits with 1. Another xcoff that writes in the folder is
waited for.

  xcoff place-move diag.o --from 1=10000 --from 2=80000 --from 3=80400 \\
                   --to 1=40000 --to 2=c0000 --to 3=c0400 card7.image -o card9.image

--from N=HEX    the address of section N that the image is for
--to N=HEX      its address after the move
--recorded      sections that are not given are at the address that the file records
-o IMAGE2       the file to write; without it IMAGE is replaced
--keep-changes  bytes outside the relocated fields may differ, as where the card's
                program wrote; they are kept, with a warning that says where
--unchecked     moves the image whatever it holds
--force         replaces an XCOFF file or a sheet too
--no-wait       ends, with status 3, where another xcoff writes in the folder
--json          prints one object a line
";

const REWRITE: &str = "\
Writes a module back as an XCOFF file of the same length for a plan sheet, for a
monitor that takes a file and no images. Raw text and data are as built; the section
headers, the auxiliary header, the loader section's values of defined symbols and
its relocation addresses are moved; imports have the sheet's addresses. Every other
byte is the file's, so values in the symbol table stay as they are. A file whose
parts share bytes is refused (29 SHARED).

What was written is read again and compared before FILE2 is replaced: its addresses
are the sheet's, its images are those of FILE for the sheet, and written back for the
addresses of FILE it is FILE, byte for byte. Images that overlap, addresses that are
not aligned as the module's own, and a sheet that was probably made for another module
are warned of. Another XCOFF file is replaced with --force only.

  xcoff rewrite diag.xcoff card7.sheet -o card7.xcoff

-o FILE2   the file to write
--force    replaces an XCOFF file or a sheet too
--no-wait  ends, with status 3, where another xcoff writes in the folder
";

const SALVAGE: &str = "\
Writes a copy of a file in which no symbol is refused any more, so that 'xcoff
symbols' lists all of them. A symbol that is refused for its name gets the empty
name, for its section section 0, for its auxiliary entries those that are left up
to the table's end, for its visibility none; one symbol may need several. Every
other bit of the copy is the file's. Each change is listed: the symbol's index, what
it was refused for, the field and its offset in the file, what stood there and what
stands there now. A file whose symbol table shares bytes with its headers or a debug
section is refused (29 SHARED): a change there would damage these.

The copy is opened and walked again before it is written. FILE itself is never
changed, and another XCOFF file is replaced with --force only.

  xcoff salvage card3.xcoff -o card3.mended

-o COPY          the copy to write
--report REPORT  a file for the changes, 8 bytes each: the symbol's index and the
                 number of the refusal (9 AUX, 10 NAME, 11 SECTION, 30 VISIBILITY)
--force          replaces an XCOFF file or a sheet too
--no-wait        ends, with status 3, where another xcoff writes in the folder
--json           one object a line: the copy, then each change; 'refused' is the number
";
