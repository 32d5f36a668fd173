/*
 * Over xcoff.h: names for its numbers, plans and images as structs, tables by rows, and a move that looks before it
 * moves. All is inline and calls the exports of xcoff.h; nothing is added to the library. C99 and C++.
 *
 * Calls that judge the whole module: xcoff_module, xcoff_loader_symbol and its name, xcoff_import_*, xcoff_build,
 * xcoff_move, the records, and the tables of loader symbols, relocations and imports. Each does so every time: to look at
 * all loader symbols, take the table. Every function on an object file judges all of its entries. xcoff_open, xcoff_section, xcoff_symbol, xcoff_csect and their names judge the headers
 * and the tables' places; xcoff_walk and xcoff_symbol_table every symbol. Sheets are judged by themselves.
 */
#ifndef XCOFF_INLINE_H
#define XCOFF_INLINE_H

#include "xcoff.h"

#include <string.h>

#ifdef __cplusplus
extern "C" {
#endif

/* Why a call is refused: xcoff.h says what each means, xcoff_words.h has the words. */
enum xcoff_refused {
    XCOFF_ACCEPTED = 0,
    XCOFF_REFUSED_SHORT = 1,
    XCOFF_REFUSED_MAGIC = 2,
    XCOFF_REFUSED_LIMIT = 3,
    XCOFF_REFUSED_KIND = 4,
    XCOFF_REFUSED_BOUNDS = 5,
    XCOFF_REFUSED_ADDRESS = 6,
    XCOFF_REFUSED_STRINGS = 7,
    XCOFF_REFUSED_INDEX = 8,
    XCOFF_REFUSED_AUX = 9,
    XCOFF_REFUSED_NAME = 10,
    XCOFF_REFUSED_SECTION = 11,
    XCOFF_REFUSED_CSECT = 12,
    XCOFF_REFUSED_MODULE = 13,
    XCOFF_REFUSED_THREAD = 14,
    XCOFF_REFUSED_LOADER = 15,
    XCOFF_REFUSED_LSYM = 16,
    XCOFF_REFUSED_LREL = 17,
    XCOFF_REFUSED_OVERLAP = 18,
    XCOFF_REFUSED_PLAN = 19,
    XCOFF_REFUSED_ROOM = 20,
    XCOFF_REFUSED_SHEET = 21,
    XCOFF_REFUSED_RECORD = 22,
    XCOFF_REFUSED_FORM = 23,
    XCOFF_REFUSED_CLASH = 24,
    XCOFF_REFUSED_RANGE = 25,
    XCOFF_REFUSED_FULL = 26,
    XCOFF_REFUSED_ABSENT = 27,
    XCOFF_REFUSED_LONG = 28,
    XCOFF_REFUSED_SHARED = 29,
    XCOFF_REFUSED_VISIBILITY = 30,
    XCOFF_REFUSED_NOLINE = 31,
    XCOFF_REFUSED_GROUP = 32
};

/* Kinds of sections: `flag` of a section. */
enum xcoff_kind {
    XCOFF_KIND_PAD = 0x0008,
    XCOFF_KIND_DWARF = 0x0010,
    XCOFF_KIND_TEXT = 0x0020,
    XCOFF_KIND_DATA = 0x0040,
    XCOFF_KIND_BSS = 0x0080,
    XCOFF_KIND_EXCEPT = 0x0100,
    XCOFF_KIND_INFO = 0x0200,
    XCOFF_KIND_TDATA = 0x0400,
    XCOFF_KIND_TBSS = 0x0800,
    XCOFF_KIND_LOADER = 0x1000,
    XCOFF_KIND_DEBUG = 0x2000,
    XCOFF_KIND_TYPCHK = 0x4000,
    XCOFF_KIND_OVRFLO = 0x8000,
    XCOFF_KIND_DELETED = 0xFFFF
};

/* Types of csects, and visibilities. */
enum xcoff_csect_type { XCOFF_CSECT_ER = 0, XCOFF_CSECT_SD = 1, XCOFF_CSECT_LD = 2, XCOFF_CSECT_CM = 3 };
enum xcoff_visibility {
    XCOFF_VISIBILITY_NONE = 0,
    XCOFF_VISIBILITY_INTERNAL = 1,
    XCOFF_VISIBILITY_HIDDEN = 2,
    XCOFF_VISIBILITY_PROTECTED = 3,
    XCOFF_VISIBILITY_EXPORTED = 4
};

/* The limits of LIMIT. */
#define XCOFF_MOST_FILE_BYTES 16777216
#define XCOFF_MOST_SECTIONS 32
#define XCOFF_MOST_LOADER_SYMBOLS 70000
#define XCOFF_MOST_OLD_SHEET_ADDRESSES 4096
#define XCOFF_MOST_RELOCATIONS 100000
#define XCOFF_MOST_IMAGE_BYTES 16777216

/* 64-bit numbers in a row of each table. */
#define XCOFF_SYMBOL_ROW_NUMBERS (sizeof(xcoff_symbol_row) / sizeof(uint64_t))
#define XCOFF_LOADER_SYMBOL_ROW_NUMBERS (sizeof(xcoff_loader_symbol_row) / sizeof(uint64_t))
#define XCOFF_RELOCATION_ROW_NUMBERS (sizeof(xcoff_relocation_row) / sizeof(uint64_t))
#define XCOFF_IMPORT_ROW_NUMBERS (sizeof(xcoff_import_row) / sizeof(uint64_t))
#define XCOFF_OBJECT_SECTION_ROW_NUMBERS (sizeof(xcoff_object_section_row) / sizeof(uint64_t))
#define XCOFF_OBJECT_ENTRY_ROW_NUMBERS (sizeof(xcoff_object_entry_row) / sizeof(uint64_t))

/* The bit of a loader symbol's smtype that says: imported. */
#define XCOFF_IMPORTED 0x40

/* The index of the first loader symbol: list[i - XCOFF_FIRST_LOADER_SYMBOL] is the address of loader symbol i. */
#define XCOFF_FIRST_LOADER_SYMBOL 3

/* Whether header and archive are of one version. An archive without xcoff_version is older than that function. */
static inline int xcoff_versions_agree(void)
{
    return xcoff_version() == XCOFF_VERSION;
}

/* ---- plans and images */

/* The addresses of one card: see xcoff_build. */
typedef struct xcoff_plan {
    uint64_t text;
    uint64_t data;
    const uint64_t *list;
    size_t places;
} xcoff_plan;

/* The plan that images are for, and the one that they are moved to. */
typedef struct xcoff_step {
    xcoff_plan from;
    xcoff_plan to;
} xcoff_step;

/* Lent memory for both images: exactly text.size and image bytes of xcoff_module. */
typedef struct xcoff_images {
    uint8_t *text;
    size_t text_length;
    uint8_t *data;
    size_t data_length;
} xcoff_images;

/* Whether a plan's address of the symbol is used: an import that is not deferred. */
static inline int xcoff_takes_address(const xcoff_loader_symbol_row *row)
{
    return (row->smtype & XCOFF_IMPORTED) != 0 && row->ifile != 0;
}

static inline xcoff_call_answer xcoff_build_plan(const uint8_t *file, size_t length, xcoff_plan plan, xcoff_images images)
{
    return xcoff_build(file, length, plan.text, plan.data, plan.list, plan.places, images.text, images.text_length,
                       images.data, images.data_length);
}

/* Takes the images as they are, as xcoff_move does: moving them twice, or from a plan that they are not for, makes wrong
   images without a refusal. xcoff_move_checked looks first. */
static inline xcoff_call_answer xcoff_move_plan(const uint8_t *file, size_t length, xcoff_step step, xcoff_images images)
{
    return xcoff_move(file, length, step.from.text, step.from.data, step.from.list, step.from.places, step.to.text,
                      step.to.data, step.to.list, step.to.places, images.text, images.text_length, images.data,
                      images.data_length);
}

static inline int xcoff_same_images(xcoff_images a, xcoff_images b)
{
    return a.text_length == b.text_length && a.data_length == b.data_length &&
           (a.text_length == 0 || memcmp(a.text, b.text, a.text_length) == 0) &&
           (a.data_length == 0 || memcmp(a.data, b.data, a.data_length) == 0);
}

/* What a checked move answers: the call's own answer, and whether the images were those of step.from. */
typedef struct xcoff_checked_answer {
    xcoff_call_answer call;
    int were_for_from;  /* 0, with call.number 0: they were not, and nothing is moved */
} xcoff_checked_answer;

/* Builds the images of step.from into `room`, memory of the same lengths, compares, and moves only where the images are
   exactly these. A refusal, and images that are for another plan, leave `images` as they were. */
static inline xcoff_checked_answer xcoff_move_checked(const uint8_t *file, size_t length, xcoff_step step,
                                                      xcoff_images images, xcoff_images room)
{
    xcoff_checked_answer answer;
    answer.call = xcoff_build_plan(file, length, step.from, room);
    answer.were_for_from = answer.call.number == XCOFF_ACCEPTED && xcoff_same_images(images, room);
    if (answer.were_for_from)
        answer.call = xcoff_move_plan(file, length, step, images);
    return answer;
}

/* Reads a sheet into a list and makes the plan of both; `plan` is as it was where the sheet is refused. */
static inline xcoff_sheet_answer xcoff_read_sheet_plan(const uint8_t *sheet, size_t length, uint64_t *list, size_t places,
                                                       xcoff_plan *plan)
{
    xcoff_sheet_answer answer = xcoff_read_sheet(sheet, length, list, places);
    if (answer.number == XCOFF_ACCEPTED) {
        plan->text = answer.text;
        plan->data = answer.data;
        plan->list = list;
        plan->places = places;
    }
    return answer;
}

static inline size_t xcoff_sheet_length(size_t places)
{
    return 24 + 8 * places;
}

static inline xcoff_verdict xcoff_write_sheet_plan(xcoff_plan plan, uint8_t *sheet, size_t length)
{
    return xcoff_write_sheet(plan.text, plan.data, plan.list, plan.places, sheet, length);
}

static inline xcoff_length_answer xcoff_records_length_plan(const uint8_t *file, size_t length, xcoff_plan plan)
{
    return xcoff_records_length(file, length, plan.text, plan.data, plan.list, plan.places);
}

static inline xcoff_verdict xcoff_write_records_plan(const uint8_t *file, size_t length, xcoff_plan plan, xcoff_images images,
                                                     uint8_t *records, size_t records_length)
{
    return xcoff_write_records(file, length, plan.text, plan.data, plan.list, plan.places, images.text, images.text_length,
                               images.data, images.data_length, records, records_length);
}

static inline xcoff_verdict xcoff_read_records_plan(const uint8_t *file, size_t length, xcoff_plan plan,
                                                    const uint8_t *records, size_t records_length, xcoff_images images)
{
    return xcoff_read_records(file, length, plan.text, plan.data, plan.list, plan.places, records, records_length,
                              images.text, images.text_length, images.data, images.data_length);
}

/* ---- tables, by rows: `count` is visited of xcoff_walk, or symbols, relocations or ids of xcoff_module */

static inline xcoff_walk_answer xcoff_symbol_rows(const uint8_t *file, size_t length, xcoff_symbol_row *rows, size_t count)
{
    return xcoff_symbol_table(file, length, (uint64_t *)rows, count * XCOFF_SYMBOL_ROW_NUMBERS);
}

static inline xcoff_verdict xcoff_loader_symbol_rows(const uint8_t *file, size_t length, xcoff_loader_symbol_row *rows,
                                                     size_t count)
{
    return xcoff_loader_symbol_table(file, length, (uint64_t *)rows, count * XCOFF_LOADER_SYMBOL_ROW_NUMBERS);
}

static inline xcoff_verdict xcoff_relocation_rows(const uint8_t *file, size_t length, xcoff_relocation_row *rows, size_t count)
{
    return xcoff_relocation_table(file, length, (uint64_t *)rows, count * XCOFF_RELOCATION_ROW_NUMBERS);
}

static inline xcoff_verdict xcoff_import_rows(const uint8_t *file, size_t length, xcoff_import_row *rows, size_t count)
{
    return xcoff_import_table(file, length, (uint64_t *)rows, count * XCOFF_IMPORT_ROW_NUMBERS);
}

/* The same of an object file: `count` is sections of xcoff_object, or entries of the section's row. */
static inline xcoff_verdict xcoff_object_section_rows(const uint8_t *file, size_t length, xcoff_object_section_row *rows,
                                                      size_t count)
{
    return xcoff_object_sections(file, length, (uint64_t *)rows, count * XCOFF_OBJECT_SECTION_ROW_NUMBERS);
}

static inline xcoff_verdict xcoff_object_entry_rows(const uint8_t *file, size_t length, uint64_t section,
                                                    xcoff_object_entry_row *rows, size_t count)
{
    return xcoff_object_entries(file, length, section, (uint64_t *)rows, count * XCOFF_OBJECT_ENTRY_ROW_NUMBERS);
}

/* ---- the flags of a section, whole */

/* All 32 bits of s_flags of section n: of a dwarf section the high half is its subtype, which xcoff_section leaves out. 0
   where xcoff_section refuses. Read from the header itself, which an accepted file has whole. */
static inline uint64_t xcoff_section_flags(const uint8_t *file, size_t length, uint64_t n)
{
    xcoff_open_answer o = xcoff_open(file, length);
    const uint8_t *flags;
    if (xcoff_section(file, length, n).number != XCOFF_ACCEPTED)
        return 0;
    flags = o.bits == 32 ? file + 20 + o.opthdr + 40 * (n - 1) + 36 : file + 24 + o.opthdr + 72 * (n - 1) + 64;
    return (uint64_t)flags[0] << 24 | (uint64_t)flags[1] << 16 | (uint64_t)flags[2] << 8 | flags[3];
}

#ifdef __cplusplus
}
#endif

#endif
