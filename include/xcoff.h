/*
 * XCOFF files read by a proved library. `rt lib` in the folder crates/xcoff_c makes it, as does the first run of
 * ./xcoff; it is for x86-64 and needs memcpy and memset of the C library. In the repository's root a program over it is compiled by
 *
 *     cc -Iinclude PROGRAM.c crates/xcoff_c/out/libxcoff_c.a -o PROGRAM
 *
 * examples/build_images.c, examples/move_images.c and examples/place_object.c are three. xcoff_inline.h has names for the numbers below, plans as
 * structs and tables by rows; xcoff_words.h the words of a refusal. Where all is installed, `pkg-config --cflags --libs
 * xcoff` says how to compile.
 *
 * Every function takes the whole file as a pointer and a length, judges it from the start and keeps nothing between
 * calls: nothing has to be opened, closed or checked beforehand, and any bytes are allowed. A file of length 0 may have
 * a null pointer. The library allocates nothing, has no global state and may be called from several threads at once.
 * A call takes less than 512 KiB of stack; xcoff_build_object, xcoff_move_object and xcoff_replay_object take less than 1 MiB.
 *
 * What you must see to: a pointer is good for its length, which counts bytes, or 64-bit numbers where it points to these,
 * and nobody else writes there during the call. Memory that is lent for writing must not overlap the file or other lent
 * memory. The proof takes this for granted; it is the one thing that it cannot check. No function changes a byte of the
 * file. What a function writes into is not `const`, and its comment says what it holds afterwards; a refusal leaves it
 * as it was. Lent memory of length 0 may have a null pointer.
 *
 * Every answer starts with `number`, `item` and `offset`. Number 0: accepted, with item 0 and offset 0. Otherwise the
 * call is refused, the number says why, the item what it is about, the offset where that is in the file (see below), and
 * every other field is 0, but for the counts of xcoff_replay, xcoff_table_replay and xcoff_replay_object.
 *
 *   number       why                                                       item
 *    1 SHORT     file or header area ends early                            0
 *    2 MAGIC     not 01DF (32 bits) or 01F7 (64 bits)                      0
 *    3 LIMIT     above a limit: 16,777,216 bytes of file; 32 sections;     0 file, 1 sections, 2 loader symbols or
 *                70,000 loader symbols or addresses in a sheet (4,096 in   addresses, 3 relocation entries,
 *                one that begins 0002); 100,000 relocation entries;        4 data image, 5 salvage report
 *                16,777,216 bytes of data image; a salvage report that is
 *                longer than the memory lent for it
 *    4 KIND      section flags not allowed                                 section
 *    5 BOUNDS    raw data, symbol or string table past the file's end;     section, or 0
 *                a section's relocation or line table past it, or its
 *                overflow header not there exactly once
 *    6 ADDRESS   a section's addresses differ or pass the address space;   section
 *                a module's bss below the end of its data
 *    7 STRINGS   string table length 1 to 3                                0
 *    8 INDEX     no such section, symbol, loader symbol or import id; no   the number asked for
 *                such text section, of an object file text or data
 *                section; a bench that is not 1 or 2
 *    9 AUX       a symbol's auxiliary entries pass the table's end         index
 *   10 NAME      bad name offset, into the string table or, for a class    index
 *                with bit 80 hex, into the one debug section
 *   11 SECTION   the symbol's section number names no section              index
 *   12 CSECT     no valid csect entry                                      index
 *   13 MODULE    not loadable                                              0 short auxiliary header; 1 not one text,
 *                                                                          data, bss, loader each; 2 auxiliary header
 *                                                                          and section headers differ; 3 no raw data;
 *                                                                          4 section of entry or TOC
 *   14 THREAD    tdata or tbss section; relocation by symbol -1 or -2      section, or relocation entry
 *   15 LOADER    loader header or table bad                                0 short; 1 version; past the section:
 *                                                                          2 symbols, 3 relocations, 4 import ids,
 *                                                                          5 strings
 *   16 LSYM      type, section, import id or name of a loader symbol bad   its index, from 3
 *   17 LREL      type, section, address or symbol of a relocation entry    entry, from 0; of an object file numbered on
 *                bad                                                       from table to table
 *   18 OVERLAP   field shares bytes with an earlier one that is not the    the later entry
 *                same
 *   19 PLAN      an image passes the end of the address space, or an       0 text, 1 data, or the import's index; of an
 *                address of XCOFF32 has more than 32 bits                  object file the section
 *   20 ROOM      lent memory not exactly as long as needed                 0 text, an object file's buffer, sheet, rows,
 *                                                                          records or a file's copy; 1 data; 2 list
 *   21 SHEET     not a plan sheet, or one of the wrong length              0
 *   22 RECORD    a line of the record text is not as it must be, is        the line, from 1
 *                missing, or is one too many
 *   23 FORM      S-records of an XCOFF64 module                            0
 *   24 CLASH     the text and data images share an address                 0
 *   25 RANGE     an object file's branch would leave -33,554,432 to        the lowest entry of such a branch
 *                33,554,428, or be off a step of 4
 *   26 FULL      all 512 rows of an address table are taken, and the row   0
 *                is new
 *   27 ABSENT    the bench has no such row                                 0
 *   28 LONG      the name of a row is empty or has more than 32 bytes      0
 *   29 SHARED    parts of the file that must not do so share a byte        0
 *   30 VISIBILITY  a symbol's type claims a visibility of 5 to 7           index
 *   31 NOLINE    no line at or below the address asked for                 0
 *   32 GROUP     a line table has a line before any function               0
 *
 * The offset of a refusal is that of the first byte, in the file, of what its item names:
 *
 *   the section header       4 KIND, 6 ADDRESS; 5 BOUNDS and 14 THREAD with a section
 *   the symbol table entry   9 AUX, 10 NAME, 11 SECTION, 12 CSECT, 30 VISIBILITY
 *   the string table         7 STRINGS
 *   the loader section       15 LOADER; 3 LIMIT with item 2 or 3 of a module
 *   the loader symbol        16 LSYM
 *   the relocation entry     17 LREL, 18 OVERLAP, 25 RANGE; 14 THREAD with an entry
 *
 * and 0 for every other: BOUNDS with item 0, the other limits, what is about the module as a whole, a plan, a sheet, lent
 * memory, records, or a number asked for. A header or entry lies whole in the file. A loader section may be empty: its
 * offset is then at most the file's length, and 0 where it has no raw data.
 *
 * Sections are numbered from 1, symbols from 0, loader symbols from 3 (0, 1 and 2 stand for text, data and bss), import
 * ids from 0. An index may be any number: INDEX is the answer where there is no such thing.
 *
 * Names are not copied: the answer is the start and the length of the name in the file, without a closing zero. A name
 * may be empty, and it may hold any byte but zero. What follows it in the file need not be a zero.
 */
#ifndef XCOFF_H
#define XCOFF_H

#include <stddef.h>
#include <stdint.h>

#ifdef __cplusplus
extern "C" {
#endif

/* The version of this interface, and that of the archive: where the two differ, header and archive are not of one
   installation. It counts up with every change that a program over it could see. */
#define XCOFF_VERSION 1
uint64_t xcoff_version(void);

/* The file header. */
typedef struct xcoff_open_answer {
    uint64_t number;
    uint64_t item;
    uint64_t offset;
    uint64_t bits;      /* 32 or 64 */
    uint64_t sections;
    uint64_t symbols;   /* entries of the symbol table, auxiliary ones included */
    uint64_t opthdr;    /* bytes of the auxiliary header */
    uint64_t flags;
} xcoff_open_answer;

/* A section header. */
typedef struct xcoff_section_answer {
    uint64_t number;
    uint64_t item;
    uint64_t offset;
    uint64_t paddr;     /* addresses, of the card's memory */
    uint64_t vaddr;
    uint64_t size;
    uint64_t scnptr;    /* offset of the raw data in the file */
    uint64_t flag;      /* 8 pad, 10 dwarf, 20 text, 40 data, 80 bss, 100 except, 200 info, 400 tdata, 800 tbss,
                           1000 loader, 2000 debug, 4000 typchk, 8000 ovrflo (hex); FFFF deleted */
    uint64_t raw;       /* 1: there is raw data, all of it inside the file */
    uint64_t relptr;    /* where the section's relocation table lies in the file, and how many entries it has, */
    uint64_t nreloc;    /* both as the header has them: 65,535 of an XCOFF32 file is not replaced here */
    uint64_t lnnoptr;   /* the same of its line number table */
    uint64_t nlnno;
} xcoff_section_answer;

/* A name or string: file + start, length bytes, all of them inside the file. */
typedef struct xcoff_name_answer {
    uint64_t number;
    uint64_t item;
    uint64_t offset;    /* of a refusal, as in every answer */
    uint64_t start;     /* of the name */
    uint64_t length;
} xcoff_name_answer;

/* An entry of the symbol table. */
typedef struct xcoff_symbol_answer {
    uint64_t number;
    uint64_t item;
    uint64_t offset;
    uint64_t value;
    int64_t scnum;      /* section; 0 undefined, -1 absolute, -2 debugging */
    uint64_t type;      /* all of it, the bits of a visibility too */
    uint64_t sclass;    /* storage class */
    uint64_t numaux;    /* auxiliary entries that follow */
    uint64_t has_visibility;    /* 1: the type claims a visibility; 0: it is a plain number */
    uint64_t visibility;        /* 0 none, 1 internal, 2 hidden, 3 protected, 4 exported; 0 where none is claimed */
} xcoff_symbol_answer;

/* A refusal inside an answer; number 0: none. */
typedef struct xcoff_refusal {
    uint64_t number;
    uint64_t item;
    uint64_t offset;
} xcoff_refusal;

/* A walk over the symbol table. */
typedef struct xcoff_walk_answer {
    uint64_t number;
    uint64_t item;
    uint64_t offset;
    uint64_t visited;       /* symbols that were read */
    uint64_t end;           /* index where the walk ended */
    xcoff_refusal cause;    /* why the symbol there is refused; 0 at the table's end */
} xcoff_walk_answer;

/* The csect entry of a symbol. */
typedef struct xcoff_csect_answer {
    uint64_t number;
    uint64_t item;
    uint64_t offset;
    uint64_t type;      /* 0 ER, 1 SD, 2 LD, 3 CM */
    uint64_t align;     /* log 2 of the alignment */
    uint64_t smclas;    /* storage mapping class */
    uint64_t length;    /* bytes; of an LD the index of its csect */
} xcoff_csect_answer;

typedef struct xcoff_part {
    uint64_t number;    /* of the section, from 1 */
    uint64_t address;
    uint64_t size;
} xcoff_part;

typedef struct xcoff_anchor {
    uint64_t section;   /* 0: there is none, and the address means nothing */
    uint64_t address;
} xcoff_anchor;

/* A loadable module. */
typedef struct xcoff_module_answer {
    uint64_t number;
    uint64_t item;
    uint64_t offset;
    uint64_t bits;          /* 32 or 64 */
    xcoff_part text;
    xcoff_part data;
    xcoff_part bss;
    uint64_t loader;        /* number of the loader section */
    uint64_t image;         /* bytes of the data image: data, zeros up to bss, bss */
    uint64_t symbols;       /* loader symbols, with indexes 3 to symbols + 2 */
    uint64_t relocations;
    uint64_t ids;           /* import ids */
    xcoff_anchor entry;
    xcoff_anchor toc;
} xcoff_module_answer;

/* A loader symbol. */
typedef struct xcoff_loader_symbol_answer {
    uint64_t number;
    uint64_t item;
    uint64_t offset;
    uint64_t value;
    uint64_t scnum;     /* section; 0 for an import */
    uint64_t smtype;    /* bit 40 hex: imported */
    uint64_t smclas;    /* storage mapping class */
    uint64_t ifile;     /* import id; 0 for a deferred import, which no plan places */
    uint64_t parm;
} xcoff_loader_symbol_answer;

/* Opens a file: its headers, sections and symbol table are judged. */
xcoff_open_answer xcoff_open(const uint8_t *file, size_t length);

/* Section n, and its name. */
xcoff_section_answer xcoff_section(const uint8_t *file, size_t length, uint64_t n);
xcoff_name_answer xcoff_section_name(const uint8_t *file, size_t length, uint64_t n);

/* The symbol table entry i, and its name: in the entry, in the string table or, of a storage class with bit 80 hex, in
   the debug section. The entry after it is at i + 1 + numaux. The type has a visibility in its bits 7000 hex where the file
   is XCOFF32 with auxiliary version 2 (the two bytes at offset 2 of an auxiliary header of 4 bytes or more) and the class is
   2, 107 or 111. */
xcoff_symbol_answer xcoff_symbol(const uint8_t *file, size_t length, uint64_t i);
xcoff_name_answer xcoff_symbol_name(const uint8_t *file, size_t length, uint64_t i);

/* Reads every symbol in turn, up to the table's end or the first that is refused. */
xcoff_walk_answer xcoff_walk(const uint8_t *file, size_t length);

/* A count beside a verdict. */
typedef struct xcoff_count_answer {
    uint64_t number;
    uint64_t item;
    uint64_t offset;
    uint64_t count;
} xcoff_count_answer;

/*
 * A damaged symbol table salvaged: a copy of the file in which the walk reaches the table's end. Each symbol that the walk
 * visits is set right for every check that refuses it, in their order: 9 AUX, the auxiliary entries cut to what the table
 * has left; 11 SECTION, section 0; 10 NAME, the empty name, by offset 0; 30 VISIBILITY, none (bits 7000 hex of the type
 * cleared). Every other bit is the file's. The walk goes on by the auxiliary entries as cut.
 *
 * The report has 8 bytes for each change, in the walk's order and for one symbol in the order above: the symbol's index in
 * 4 bytes and the number of the refusal in 4, the most significant byte first. `count` is how many changes there are;
 * xcoff_salvage_count answers it beforehand.
 *
 * `copy` must have exactly the file's length, `report` at least 8 * count bytes; what is behind those stays as it was. The
 * order of refusals: those of xcoff_open; SHARED where the symbol table shares a byte with the header area or the raw data
 * of a debug section; ROOM 0 for the copy; LIMIT 5 for the report. A refusal leaves both as they were.
 */
xcoff_count_answer xcoff_salvage_count(const uint8_t *file, size_t length);
xcoff_count_answer xcoff_salvage(const uint8_t *file, size_t length, uint8_t *copy, size_t copy_length, uint8_t *report,
                                 size_t report_length);

/* The csect entry of symbol i. */
xcoff_csect_answer xcoff_csect(const uint8_t *file, size_t length, uint64_t i);

/* Judges a file as a loadable module, down to its last relocation entry. */
xcoff_module_answer xcoff_module(const uint8_t *file, size_t length);

/* Loader symbol i of a loadable module, and its name. Each call judges the whole module. */
xcoff_loader_symbol_answer xcoff_loader_symbol(const uint8_t *file, size_t length, uint64_t i);
xcoff_name_answer xcoff_loader_symbol_name(const uint8_t *file, size_t length, uint64_t i);

/* The path, base name and archive member of import id n. */
xcoff_name_answer xcoff_import_path(const uint8_t *file, size_t length, uint64_t n);
xcoff_name_answer xcoff_import_base(const uint8_t *file, size_t length, uint64_t n);
xcoff_name_answer xcoff_import_member(const uint8_t *file, size_t length, uint64_t n);

/* A plan sheet's text and data addresses, and how many addresses its list has. */
typedef struct xcoff_sheet_answer {
    uint64_t number;
    uint64_t item;
    uint64_t offset;
    uint64_t text;
    uint64_t data;
    uint64_t count;
} xcoff_sheet_answer;

typedef struct xcoff_verdict {
    uint64_t number;
    uint64_t item;
    uint64_t offset;
} xcoff_verdict;

/* The entry and TOC addresses in the plan that a call reached; has_entry and has_toc are 1 where there is one. */
typedef struct xcoff_call_answer {
    uint64_t number;
    uint64_t item;
    uint64_t offset;
    uint64_t has_entry;
    uint64_t entry;
    uint64_t has_toc;
    uint64_t toc;
} xcoff_call_answer;

/*
 * A sheet is a plan in a file, in one of two forms. Numbers are big-endian.
 *
 *   new     old
 *   4       2      bytes: 2, the number of addresses that follow: a new sheet begins 00000002 hex, an old one 0002
 *   8 + 8   8 + 8  the text address, the data address
 *   4       2      bytes: k, the number of addresses in the list, at most 70,000, in an old sheet 4,096
 *   8 * k   8 * k  the addresses
 *
 * So a new sheet has 24 + 8k bytes, an old one 20 + 8k. Both are read, the form by the first two bytes; new ones are
 * written. Reading an old sheet and writing what was read gives its new form.
 */

/* What a sheet says of itself: how many places its list needs. */
xcoff_sheet_answer xcoff_sheet_head(const uint8_t *sheet, size_t length);

/* Reads a sheet into a list of exactly as many places as it has addresses; a refusal leaves the list as it was. */
xcoff_sheet_answer xcoff_read_sheet(const uint8_t *sheet, size_t length, uint64_t *list, size_t places);

/* Writes the sheet of a plan into a buffer of exactly 24 + 8 * places bytes, in the new form; a refusal leaves the buffer as it was. */
xcoff_verdict xcoff_write_sheet(uint64_t text, uint64_t data, const uint64_t *list, size_t places, uint8_t *sheet, size_t length);

/*
 * A plan is a text address, a data address and a list with a place for each loader symbol (xcoff_module: symbols):
 * list[i - 3] is the address of loader symbol i. Only the places of imports whose ifile is not 0 are used; the others may
 * hold anything. The text buffer has exactly text.size bytes, the data buffer exactly image bytes, text.size and image
 * being those of xcoff_module. A refusal leaves both buffers as they were.
 *
 * xcoff_build writes the images for a plan. xcoff_move moves images from one plan to another and takes the buffers as
 * they are: moving images twice, or from a plan that they are not for, makes wrong images without a refusal.
 */
xcoff_call_answer xcoff_build(const uint8_t *file, size_t length, uint64_t text_address, uint64_t data_address,
                              const uint64_t *list, size_t places, uint8_t *text, size_t text_length, uint8_t *data,
                              size_t data_length);
xcoff_call_answer xcoff_move(const uint8_t *file, size_t length, uint64_t from_text, uint64_t from_data,
                             const uint64_t *from_list, size_t from_places, uint64_t to_text, uint64_t to_data,
                             const uint64_t *to_list, size_t to_places, uint8_t *text, size_t text_length, uint8_t *data,
                             size_t data_length);

/*
 * Runs a list of calls, encoded as numbers: 0 and a plan is a build, any other number and two plans a move; a plan is
 * its text address, its data address, how many addresses its list has, and those. What is cut short ends the list; a
 * call that is refused changes nothing and does not end it. The buffers hold what the calls leave.
 *
 * The answer is the last call's own, and how many calls were run and how many of those were accepted; a refusal of the
 * last call leaves the two counts as they are. If both are the number of calls that you encoded, every call was run and
 * accepted. Fewer calls: the list is cut short. Fewer accepted than calls: some were refused, also where number is 0,
 * which speaks of the last call alone. Where no call was run every field is 0.
 */
typedef struct xcoff_replay_answer {
    uint64_t number;
    uint64_t item;
    uint64_t offset;
    uint64_t has_entry;
    uint64_t entry;
    uint64_t has_toc;
    uint64_t toc;
    uint64_t calls;
    uint64_t accepted;
} xcoff_replay_answer;

xcoff_replay_answer xcoff_replay(const uint8_t *file, size_t length, const uint64_t *script, size_t numbers, uint8_t *text,
                                 size_t text_length, uint8_t *data, size_t data_length);

/*
 * The images of an XCOFF32 module as Motorola S-records: S3 lines of 32 data bytes, fewer only in an image's last line,
 * the text image first, then the data image, closed by an S7 line with the moved entry address, or 0 where there is none.
 * Upper-case hex digits, one newline a line. The plan and both images are as for xcoff_build.
 */
typedef struct xcoff_length_answer {
    uint64_t number;
    uint64_t item;
    uint64_t offset;
    uint64_t length;
} xcoff_length_answer;

/* How many bytes the record text of a module's images for a plan has. */
xcoff_length_answer xcoff_records_length(const uint8_t *file, size_t length, uint64_t text_address, uint64_t data_address,
                                         const uint64_t *list, size_t places);

/*
 * Writes the two images, as they are, into `records`, which has exactly that length. A refusal leaves `records` as it
 * was. The order of refusals: the module's, ROOM 2, PLAN, FORM, CLASH, ROOM 0 and 1 for the images, ROOM 0 for `records`.
 */
xcoff_verdict xcoff_write_records(const uint8_t *file, size_t length, uint64_t text_address, uint64_t data_address,
                                  const uint64_t *list, size_t places, const uint8_t *text, size_t text_length,
                                  const uint8_t *data, size_t data_length, uint8_t *records, size_t records_length);

/*
 * Reads records into two image buffers. Accepted are exactly the lines that xcoff_write_records would write, with any
 * data bytes; RECORD, the last refusal, names the first line that is not. A refusal leaves both buffers as they were.
 */
xcoff_verdict xcoff_read_records(const uint8_t *file, size_t length, uint64_t text_address, uint64_t data_address,
                                 const uint64_t *list, size_t places, const uint8_t *records, size_t records_length,
                                 uint8_t *text, size_t text_length, uint8_t *data, size_t data_length);

/*
 * Writes the module back as a file for a plan, into an output of exactly the file's length: raw text and data as
 * xcoff_build builds them; the new addresses of text, data and bss in the section headers and in the auxiliary header,
 * which has none of bss; entry and TOC moved, unless their section is 0; in the loader section the values of defined
 * symbols and the relocation addresses moved with their sections, and the values of imports whose ifile is not 0 set to the
 * plan's. Every other byte is the file's. So the output is a module whose recorded addresses are the plan's, and building
 * or moving its images gives what it gives of the file.
 *
 * A refusal leaves the output as it was. The order of refusals: the module's; ROOM 2; PLAN; SHARED where two of these share
 * a byte: header area, raw text, raw data, loader section, symbol table, string table (its four length bytes also where
 * they are 0), or inside the loader section its header, symbols, relocations, ids, strings; ROOM 0 for the output.
 */
xcoff_verdict xcoff_write_module(const uint8_t *file, size_t length, uint64_t text_address, uint64_t data_address,
                                 const uint64_t *list, size_t places, uint8_t *output, size_t output_length);

/*
 * Tables: one call lists all elements, a row of numbers for each, and judges the file once. `numbers` is how many 64-bit
 * numbers `rows` has room for, and must be exactly the rows' own: ROOM (20), item 0, is the last refusal. The counts are
 * those of xcoff_walk (visited) and xcoff_module (symbols, relocations, ids). A refusal leaves `rows` as it was; an
 * accepted call writes every number of it. Where there is no element, numbers is 0 and the pointer may be null.
 *
 * The numbers of a row are those that the calls for one element give, in the order of the structs below: an array of
 * them is lent as (uint64_t *).
 */

/* A symbol that the walk visits. Its name starts at file + name and ends at the first zero in `room` bytes, or after
   them; the length is not looked for, since many symbols may share one long string. The room is the entry's 8 bytes, all
   up to the string table's end, or as many as the length before a name of the debug section says. The csect numbers are 0
   where csect is not 0. */
typedef struct xcoff_symbol_row {
    uint64_t index;
    uint64_t value;
    int64_t scnum;          /* section; 0 undefined, -1 absolute, -2 debugging */
    uint64_t type;
    uint64_t sclass;
    uint64_t numaux;
    uint64_t has_visibility;    /* as in xcoff_symbol_answer */
    uint64_t visibility;
    uint64_t name;
    uint64_t room;
    uint64_t csect;         /* 0: the symbol has a csect entry; else the number of the refusal, 12 */
    uint64_t csect_type;    /* 0 ER, 1 SD, 2 LD, 3 CM */
    uint64_t align;
    uint64_t smclas;
    uint64_t length;        /* bytes; of an LD the index of its csect */
} xcoff_symbol_row;

/* A loader symbol: index from 3, its numbers, and its name as xcoff_loader_symbol_name gives it. */
typedef struct xcoff_loader_symbol_row {
    uint64_t index;
    uint64_t value;
    uint64_t scnum;
    uint64_t smtype;
    uint64_t smclas;
    uint64_t ifile;
    uint64_t parm;
    uint64_t name;          /* file + name, name_length bytes */
    uint64_t name_length;
} xcoff_loader_symbol_row;

/* A relocation entry as the file has it, and its field. */
typedef struct xcoff_relocation_row {
    uint64_t address;
    uint64_t symbol;
    uint64_t type;
    uint64_t scnum;
    uint64_t in_text;       /* 1: the field is in the text image, 0: in the data image */
    uint64_t offset;        /* in that image */
    uint64_t width;         /* 4 or 8 bytes */
    uint64_t subtracts;     /* 1: the symbol's displacement is subtracted, 0: added */
} xcoff_relocation_row;

/* An import id: offsets in the file and lengths, without the closing zeros. */
typedef struct xcoff_import_row {
    uint64_t path;
    uint64_t path_length;
    uint64_t base;
    uint64_t base_length;
    uint64_t member;
    uint64_t member_length;
} xcoff_import_row;

/* 15 numbers for each symbol visited: xcoff_symbol_row. The answer is that of xcoff_walk, or ROOM. */
xcoff_walk_answer xcoff_symbol_table(const uint8_t *file, size_t length, uint64_t *rows, size_t numbers);

/* 9 numbers for each loader symbol, 8 for each relocation entry, 6 for each import id, in the table's order. */
xcoff_verdict xcoff_loader_symbol_table(const uint8_t *file, size_t length, uint64_t *rows, size_t numbers);
xcoff_verdict xcoff_relocation_table(const uint8_t *file, size_t length, uint64_t *rows, size_t numbers);
xcoff_verdict xcoff_import_table(const uint8_t *file, size_t length, uint64_t *rows, size_t numbers);

/*
 * Line number tables of text sections. An entry with line 0 begins a function and has the index of its symbol; every other
 * has an address and a line, which most tables count from the start of the function. In XCOFF32 a count of 65,535 in the
 * section's header is replaced by that in the overflow header whose nreloc is the section's number. The refusals, after those
 * of opening: INDEX where section is no text section's number, BOUNDS with the section.
 */
typedef struct xcoff_line_answer {
    uint64_t number;
    uint64_t item;
    uint64_t offset;
    uint64_t entry;     /* from 0 in the section's table */
    uint64_t address;
    uint64_t line;
    uint64_t symbol;    /* index of the symbol that opened the entry's group; it is not checked */
} xcoff_line_answer;

/* The entry with the greatest address not above `address`, the first such in the table; it is not compared with the section's
   own addresses. GROUP, whatever address is asked for, comes before NOLINE, the last refusal. */
xcoff_line_answer xcoff_find_line(const uint8_t *file, size_t length, uint64_t section, uint64_t address);

/* An entry of a line table. */
typedef struct xcoff_line_row {
    uint64_t function;  /* 1: a function begins, value is its symbol's index; 0: value is an address */
    uint64_t value;
    uint64_t line;      /* 0 exactly where a function begins */
} xcoff_line_row;

/* How many entries a section's line table has, and these entries whole, 3 numbers each, as the tables above are listed. */
xcoff_count_answer xcoff_line_count(const uint8_t *file, size_t length, uint64_t section);
xcoff_verdict xcoff_line_table(const uint8_t *file, size_t length, uint64_t section, uint64_t *rows, size_t numbers);

/*
 * One table of resolved imports for two benches: 512 rows, each with a bench (1 or 2), a file id, a name of 1 to 32 bytes and
 * an address. The table is memory of exactly XCOFF_TABLE_NUMBERS numbers, all 0 where it is empty; any numbers are a table, and
 * where a row lies in them is the library's own. It is yours to keep: calls that get it one after another, each as the last one
 * left it, are calls on one table. A bench's answers depend on its own rows alone, but for FULL.
 *
 * The refusals: INDEX for the bench, LONG, then FULL of an addition and ABSENT of the others. A refusal leaves the table as it
 * was. A name may hold any bytes; one and the same with a zero after it are two names.
 */
#define XCOFF_TABLE_NUMBERS 4097

typedef struct xcoff_address_answer {
    uint64_t number;
    uint64_t item;
    uint64_t offset;
    uint64_t address;
} xcoff_address_answer;

/* Adds a row; one that is there gets this address. */
xcoff_verdict xcoff_table_add(uint64_t *table, uint64_t bench, uint64_t file_id, const uint8_t *name, size_t name_length,
                              uint64_t address);
/* Removes a row; its place is used again. */
xcoff_verdict xcoff_table_remove(uint64_t *table, uint64_t bench, uint64_t file_id, const uint8_t *name, size_t name_length);
/* The address of a row. */
xcoff_address_answer xcoff_table_find(const uint64_t *table, uint64_t bench, uint64_t file_id, const uint8_t *name,
                                      size_t name_length);

/* Writes a plan's list for the module: of each import with an ifile that is not 0 the address of the bench's row with that file
   id and the import's name, or its recorded value where there is none; 0 in every other place. The refusals: INDEX for the
   bench, the module's, ROOM 2; they leave the list as it was. */
xcoff_verdict xcoff_table_fill(const uint8_t *file, size_t length, const uint64_t *table, uint64_t bench, uint64_t *list,
                               size_t places);

/* A row of a bench. */
typedef struct xcoff_table_row {
    uint64_t file_id;
    uint64_t name_length;
    uint64_t name[4];       /* the name's bytes, big-endian, with zeros behind them */
    uint64_t address;
} xcoff_table_row;

/* How many rows a bench has, and these in the order of file id, then name, 7 numbers each: INDEX for the bench, ROOM 0. */
xcoff_count_answer xcoff_table_count(const uint64_t *table, uint64_t bench);
xcoff_verdict xcoff_table_rows(const uint64_t *table, uint64_t bench, uint64_t *rows, size_t numbers);

/*
 * Runs a list of calls on the table, each on the table that the last one left, encoded as numbers. A call begins with its kind, 0
 * an addition, 1 a removal, 2 a look-up, any other number a fill, and its bench. A fill has nothing more: it is of the module in
 * `file` and writes `list`. Any other call has a file id, how many bytes its name has, and these, a number each, of which the low
 * byte counts; an addition then has the address. What is cut short ends the list; a call that is refused changes nothing and does
 * not end it. From a table of zeros this is the whole history of a table.
 *
 * The answer is the last call's own, with the address that a look-up found, and the two counts as xcoff_replay has them. Where no
 * call was run every field is 0.
 */
typedef struct xcoff_table_replay_answer {
    uint64_t number;
    uint64_t item;
    uint64_t offset;
    uint64_t address;
    uint64_t calls;
    uint64_t accepted;
} xcoff_table_replay_answer;

xcoff_table_replay_answer xcoff_table_replay(const uint8_t *file, size_t length, const uint64_t *script, size_t numbers,
                                             uint64_t *table, uint64_t *list, size_t places);

/*
 * Object files before linking: any file that opens. Its image is one buffer that takes the text and data sections end to end,
 * in their order; bss adds none. The relocation entries are those of these sections' own tables, in XCOFF32 by the count in the
 * overflow header where 65,535 stands in the section's; they are numbered on from table to table. Types 00, 0C and 0D add the
 * symbol's move to a field of 32 or, in XCOFF64, 64 bits, 01 subtracts it; 08 and 18 add it to a branch, 0A and 1A the symbol's
 * move less the entry's own section's; 0F changes nothing. A branch is the word's 26 low bits, of which the bottom two stay.
 *
 * The refusals, after those of opening: for each text or data section MODULE 3, BOUNDS; then by entry LREL, also for a symbol
 * that cannot be read, and OVERLAP, also for a branch and another entry on one field. Sections may share bytes and tables: the
 * longest file has an image of 512 MiB and 38 million entries.
 */

/* What a host needs of an object file: how many addresses a plan has (one per section), how many entries there are, how long
   the buffer is. */
typedef struct xcoff_object_answer {
    uint64_t number;
    uint64_t item;
    uint64_t offset;
    uint64_t sections;
    uint64_t entries;
    uint64_t length;
} xcoff_object_answer;

xcoff_object_answer xcoff_object(const uint8_t *file, size_t length);

/* A section as it is placed. Of one that is neither text nor data size, table and entries are 0. */
typedef struct xcoff_object_section_row {
    uint64_t place;     /* in the buffer */
    uint64_t size;      /* in the buffer */
    uint64_t table;     /* file offset of its relocation table */
    uint64_t entries;
    uint64_t first;     /* the number of its first entry */
} xcoff_object_section_row;

/* 5 numbers for each section of the file, as the tables above are listed; ROOM 0 last. */
xcoff_verdict xcoff_object_sections(const uint8_t *file, size_t length, uint64_t *rows, size_t numbers);

/* A relocation entry as the file has it, and its field. */
typedef struct xcoff_object_entry_row {
    uint64_t address;
    uint64_t symbol;    /* index in the symbol table */
    uint64_t rsize;
    uint64_t rtype;
    uint64_t width;     /* in bits: 26, 32 or 64; 0 of type 0F */
    uint64_t place;     /* of the field in the buffer; 0 of type 0F */
} xcoff_object_entry_row;

/* 6 numbers for each entry of one section's table. INDEX where section is no text or data section's number, then ROOM 0. */
xcoff_verdict xcoff_object_entries(const uint8_t *file, size_t length, uint64_t section, uint64_t *rows, size_t numbers);

/*
 * Builds the buffer for a plan, or moves it from one plan to another, taking it as it is. A plan is a list of one address per
 * section, of which those of text, data and bss are used. A refusal leaves the buffer as it was. The order of refusals: the
 * object file's; ROOM 2 for each list; PLAN for each, with the first section that does not fit; ROOM 0; RANGE, judged of each
 * branch once, after the exact sum of all entries on its word.
 */
xcoff_verdict xcoff_build_object(const uint8_t *file, size_t length, const uint64_t *plan, size_t places, uint8_t *buffer,
                                 size_t size);
xcoff_verdict xcoff_move_object(const uint8_t *file, size_t length, const uint64_t *from, size_t from_places,
                                const uint64_t *to, size_t to_places, uint8_t *buffer, size_t size);

/* The last call's verdict, or 0, 0, 0 where no call was run. */
typedef struct xcoff_object_replay_answer {
    uint64_t number;
    uint64_t item;
    uint64_t offset;
    uint64_t calls;     /* calls run */
    uint64_t accepted;  /* those of them that were accepted */
} xcoff_object_replay_answer;

/* Runs a list of calls on the buffer, as numbers: 0 and a plan is a build, any other number and two plans a move; a plan is how
   many addresses it has, and those. What is cut short ends the list. A refused call changes nothing and does not end it. */
xcoff_object_replay_answer xcoff_replay_object(const uint8_t *file, size_t length, const uint64_t *script, size_t numbers,
                                               uint8_t *buffer, size_t size);

#ifdef __cplusplus
}
#endif

#endif
