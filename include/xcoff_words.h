/*
 * The words of a refusal, in English, for C. Made by host/tests/c_words.rs from the words of the Rust library.
 */
#ifndef XCOFF_WORDS_H
#define XCOFF_WORDS_H

#include <inttypes.h>
#include <stdint.h>
#include <stdio.h>
#include <string.h>

#ifdef __cplusplus
extern "C" {
#endif

/* Of each number its name, and the words of its items: those of one item, or of all others, with % for the item. */
typedef struct xcoff_words {
    uint64_t number;
    int one;            /* 1: of `item` alone */
    uint64_t item;
    const char *name;
    const char *meaning;
} xcoff_words;

/* The first row of a number, or the last row; then the item's own, or that of all others. */
static inline const xcoff_words *xcoff_words_in(const xcoff_words *all, uint64_t number, uint64_t item)
{
    size_t n = 0;
    while (all[n].number != number && all[n].number != 0)
        n++;
    while (all[n].one && all[n].item != item)
        n++;
    return &all[n];
}

static inline const xcoff_words *xcoff_words_of(uint64_t number, uint64_t item)
{
    static const xcoff_words all[] = {
        {1, 0, 0, "SHORT", "the file ends before its headers do"},
        {2, 0, 0, "MAGIC", "the file starts with neither 01DF nor 01F7"},
        {3, 1, 0, "LIMIT", "the file is longer than 16,777,216 bytes"},
        {3, 1, 1, "LIMIT", "there are more than 32 sections"},
        {3, 1, 2, "LIMIT", "there are more than 70,000 loader symbols, or addresses in a sheet, in one that starts with 0002 more than 4,096"},
        {3, 1, 3, "LIMIT", "there are more than 100,000 relocation entries"},
        {3, 1, 4, "LIMIT", "the data image is longer than 16,777,216 bytes"},
        {3, 0, 0, "LIMIT", "the report has fewer than 8 bytes for each change"},
        {4, 0, 0, "KIND", "the flags of section % are not allowed"},
        {5, 1, 0, "BOUNDS", "the symbol table or string table passes the file's end"},
        {5, 0, 0, "BOUNDS", "the raw data or line table of section % passes the file's end, or the table's overflow header is not there exactly once"},
        {6, 0, 0, "ADDRESS", "the addresses of section % differ or pass the address space, or it is a bss below the end of data"},
        {7, 0, 0, "STRINGS", "the string table has length 1, 2 or 3"},
        {8, 0, 0, "INDEX", "there is no number % of what was asked for"},
        {9, 0, 0, "AUX", "the auxiliary entries of symbol % pass the table's end"},
        {10, 0, 0, "NAME", "the name offset of symbol % leads to no name in the string table or debug section"},
        {11, 0, 0, "SECTION", "the section number of symbol % names no section"},
        {12, 0, 0, "CSECT", "symbol % has no valid csect entry"},
        {13, 1, 0, "MODULE", "the file is not a loadable module: its auxiliary header is too short, as in an object file that is not linked"},
        {13, 1, 1, "MODULE", "the file is not a loadable module: it has not exactly one text, one data, one bss and one loader section"},
        {13, 1, 2, "MODULE", "the file is not a loadable module: its auxiliary header and section headers differ"},
        {13, 1, 3, "MODULE", "the file is not a loadable module: its text, data or loader section has no raw data"},
        {13, 0, 0, "MODULE", "the file is not a loadable module: its entry or TOC is neither in text nor in data"},
        {14, 0, 0, "THREAD", "the module has thread-local storage: section % is tdata or tbss, or relocation entry % is by symbol -1 or -2"},
        {15, 1, 0, "LOADER", "the loader section is bad: its header is short"},
        {15, 1, 1, "LOADER", "the loader section is bad: its version is neither 1 nor 2"},
        {15, 1, 2, "LOADER", "the loader section is bad: its symbols pass the section"},
        {15, 1, 3, "LOADER", "the loader section is bad: its relocations pass the section"},
        {15, 1, 4, "LOADER", "the loader section is bad: its import ids pass the section or are too few"},
        {15, 0, 0, "LOADER", "the loader section is bad: its strings pass the section"},
        {16, 0, 0, "LSYM", "the type, section, import id or name of loader symbol % is bad"},
        {17, 0, 0, "LREL", "the type, section, address or symbol of relocation entry % is bad"},
        {18, 0, 0, "OVERLAP", "the field of relocation entry % shares bytes with an earlier one that is not the same"},
        {19, 1, 0, "PLAN", "the text image at the plan's text address passes the end of the address space"},
        {19, 1, 1, "PLAN", "the data image at the plan's data address passes the end of the address space"},
        {19, 0, 0, "PLAN", "the plan's address of loader symbol % does not fit in 32 bits"},
        {20, 1, 0, "ROOM", "the text image, sheet, record text or whole file is not exactly as long as needed"},
        {20, 1, 1, "ROOM", "the data image is not exactly as long as needed"},
        {20, 0, 0, "ROOM", "the list of addresses is not exactly as long as needed"},
        {21, 0, 0, "SHEET", "not a plan sheet: it is short, starts with neither 00000002 nor 0002, or is not as long as its count says"},
        {22, 0, 0, "RECORD", "line % of the record text is not the line that is written there, or is missing or one too many"},
        {23, 0, 0, "FORM", "S-records are for XCOFF32 modules only"},
        {24, 0, 0, "CLASH", "the text and data images share an address"},
        {25, 0, 0, "RANGE", "the branch of relocation entry % would leave -33,554,432 to 33,554,428, or be off a step of 4"},
        {26, 0, 0, "FULL", "all 512 rows of the address table are taken, and this one is new"},
        {27, 0, 0, "ABSENT", "the bench has no such row in the address table"},
        {28, 0, 0, "LONG", "a name in the address table has 1 to 32 bytes"},
        {29, 0, 0, "SHARED", "parts of the file that must be apart share bytes"},
        {30, 0, 0, "VISIBILITY", "the type of symbol % claims a visibility of 5 to 7, which means nothing"},
        {31, 0, 0, "NOLINE", "no entry of the line table has an address at or below the one asked for"},
        {32, 0, 0, "GROUP", "the line table has a line before any function"},
        {0, 0, 0, "UNKNOWN", "no such number"},
    };
    return xcoff_words_in(all, number, item);
}

/* The same where a function on an object file refuses: of some numbers it has other items. */
static inline const xcoff_words *xcoff_object_words_of(uint64_t number, uint64_t item)
{
    static const xcoff_words all[] = {
        {5, 1, 0, "BOUNDS", "the symbol table or string table passes the file's end"},
        {5, 0, 0, "BOUNDS", "the raw data or relocation table of section % passes the file's end, or the table's overflow header is not there exactly once"},
        {8, 0, 0, "INDEX", "there is no text or data section %"},
        {13, 0, 0, "MODULE", "a text or data section of the object file has no raw data"},
        {17, 0, 0, "LREL", "the type, width, address or symbol of relocation entry % is bad"},
        {19, 0, 0, "PLAN", "section % at the plan's address passes the end of the address space"},
        {20, 1, 0, "ROOM", "the image of the object file is not exactly as long as needed"},
        {20, 1, 1, "ROOM", "the data image is not exactly as long as needed"},
        {20, 0, 0, "ROOM", "the list of addresses is not exactly as long as needed"},
        {0, 0, 0, "UNKNOWN", "no such number"},
    };
    const xcoff_words *own = xcoff_words_in(all, number, item);
    return own->number ? own : xcoff_words_of(number, item);
}

/* A number's name, such as "LIMIT". */
static inline const char *xcoff_refusal_name(uint64_t number)
{
    return xcoff_words_of(number, 0)->name;
}

static inline int xcoff_words_put(const xcoff_words *words, uint64_t number, uint64_t item, uint64_t offset, char *text,
                                  size_t room)
{
    const char *rest = words->meaning;
    char meaning[400];
    size_t used = 0;
    while (*rest && used + 21 < sizeof meaning) {
        if (*rest == '%')
            used += (size_t)snprintf(meaning + used, sizeof meaning - used, "%" PRIu64, item);
        else
            meaning[used++] = *rest;
        rest++;
    }
    meaning[used] = 0;
    return snprintf(text, room, "refused %" PRIu64 " %" PRIu64 " %" PRIu64 ": %s, %s", number, item, offset, words->name,
                    meaning);
}

/* "refused N I O: NAME, what it means", cut where `room` bytes are too few, as snprintf does; its answer is snprintf's. */
static inline int xcoff_refusal_words(uint64_t number, uint64_t item, uint64_t offset, char *text, size_t room)
{
    return xcoff_words_put(xcoff_words_of(number, item), number, item, offset, text, room);
}

/* The same of a refusal by a function on an object file. */
static inline int xcoff_object_refusal_words(uint64_t number, uint64_t item, uint64_t offset, char *text, size_t room)
{
    return xcoff_words_put(xcoff_object_words_of(number, item), number, item, offset, text, room);
}

#ifdef __cplusplus
}
#endif

#endif
