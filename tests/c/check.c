/* Calls every function of include/xcoff.h and xcoff_inline.h from C on the real files tests/corpus/exe-imports-32 and
   tests/corpus/gas-objpair-32.o, named as arguments. */
#include "xcoff_inline.h"
#include "xcoff_words.h"

#include <stdio.h>
#include <stdlib.h>
#include <string.h>

static uint8_t file[65536];
static size_t length;
static int failed;

static void expect(int holds, const char *what)
{
    if (!holds) {
        printf("c: not so: %s\n", what);
        failed = 1;
    }
}

#define EXPECT(holds) expect(holds, #holds)

/* A refusal: its number, its item, and where in the file that is. */
#define REFUSED(answer, n, i, o) ((answer).number == (n) && (answer).item == (i) && (answer).offset == (o))
#define ACCEPTED(answer) REFUSED(answer, 0, 0, 0)
#define SAME_HEAD(answer, other) REFUSED(other, (answer).number, (answer).item, (answer).offset)

static int is(xcoff_name_answer a, const char *text)
{
    return ACCEPTED(a) && a.length == strlen(text) && memcmp(file + a.start, text, a.length) == 0;
}

static void headers(void)
{
    xcoff_open_answer o = xcoff_open(file, length);
    xcoff_section_answer s = xcoff_section(file, length, 2);
    EXPECT(ACCEPTED(o) && o.bits == 32 && o.sections == 4);
    EXPECT(o.symbols == 60 && o.opthdr == 72 && o.flags == 0x1206);
    EXPECT(s.paddr == 0x200001a0 && s.vaddr == 0x200001a0 && s.size == 0x60);
    EXPECT(s.scnptr == 0x1a0 && s.flag == 0x40 && s.raw == 1);
    EXPECT(s.relptr == 1230 && s.nreloc == 20 && s.lnnoptr == 0 && s.nlnno == 0);
    EXPECT(is(xcoff_section_name(file, length, 2), ".data"));
    s = xcoff_section(file, length, 5);
    EXPECT(REFUSED(s, 8, 5, 0) && s.paddr == 0 && s.flag == 0 && s.raw == 0);
}

static void symbols(void)
{
    xcoff_symbol_answer y = xcoff_symbol(file, length, 2);
    xcoff_walk_answer w = xcoff_walk(file, length);
    xcoff_csect_answer c = xcoff_csect(file, length, 28);
    xcoff_name_answer n = xcoff_symbol_name(file, length, 60);
    EXPECT(ACCEPTED(y) && y.value == 0xffffffff && y.scnum == -2);
    EXPECT(y.type == 0 && y.sclass == 103 && y.numaux == 1);
    EXPECT(y.has_visibility == 0 && y.visibility == 0);
    EXPECT(is(xcoff_symbol_name(file, length, 26), "resolved_later_at_run_time"));
    EXPECT(REFUSED(n, 8, 60, 0) && n.start == 0 && n.length == 0);
    EXPECT(ACCEPTED(w) && w.visited == 30 && w.end == 60 && ACCEPTED(w.cause));
    EXPECT(ACCEPTED(c) && c.type == 3 && c.align == 3 && c.smclas == 5 && c.length == 64);
}

/* Where an entry of the symbol table lies in the file. */
static size_t symbol_at(size_t i)
{
    return ((size_t)file[8] << 24 | (size_t)file[9] << 16 | (size_t)file[10] << 8 | file[11]) + 18 * i;
}

/* The file has auxiliary version 2; the type of symbol 28, of class 2, is changed. */
static void visibilities(void)
{
    size_t at = symbol_at(28);
    uint8_t *type = file + at + 14;
    xcoff_symbol_answer y = xcoff_symbol(file, length, 28);
    xcoff_walk_answer w;
    EXPECT(ACCEPTED(y) && y.sclass == 2 && y.type == 0 && y.has_visibility == 1 && y.visibility == 0);
    *type = 0xA0;
    y = xcoff_symbol(file, length, 28);
    EXPECT(ACCEPTED(y) && y.type == 0xA000 && y.has_visibility == 1 && y.visibility == 2);
    *type = 0x50;
    y = xcoff_symbol(file, length, 28);
    EXPECT(REFUSED(y, 30, 28, at) && y.type == 0 && y.has_visibility == 0 && y.visibility == 0);
    w = xcoff_walk(file, length);
    EXPECT(ACCEPTED(w) && w.end == 28 && REFUSED(w.cause, 30, 28, at));
    file[23] = 1;
    y = xcoff_symbol(file, length, 28);
    EXPECT(ACCEPTED(y) && y.type == 0x5000 && y.has_visibility == 0 && y.visibility == 0);
    file[23] = 2;
    *type = 0;
}

/* A line table for section 1 behind the file: a function, two lines at one address and one after them. The header of section 1
   is at 92. */
static void lines(void)
{
    static const uint8_t table[] = {0, 0, 0, 5, 0, 0, 0x10, 0, 1, 4, 0, 1, 0x10, 0, 1, 4, 0, 2, 0x10, 0, 1, 8, 1, 0};
    uint8_t header[40];
    uint64_t rows[13];
    xcoff_line_answer l = xcoff_find_line(file, length, 1, 0x10000104);
    xcoff_count_answer c = xcoff_line_count(file, length, 1);
    xcoff_verdict v;
    EXPECT(REFUSED(l, 31, 0, 0) && l.entry == 0 && l.address == 0 && l.line == 0 && l.symbol == 0);
    EXPECT(ACCEPTED(c) && c.count == 0);
    l = xcoff_find_line(file, length, 2, 0x10000104);
    c = xcoff_line_count(file, length, 2);
    v = xcoff_line_table(file, length, 2, NULL, 0);
    EXPECT(REFUSED(l, 8, 2, 0) && SAME_HEAD(l, c) && SAME_HEAD(l, v) && c.count == 0);
    memcpy(header, file + 92, sizeof header);
    memcpy(file + length, table, sizeof table);
    file[92 + 30] = (uint8_t)(length >> 8);
    file[92 + 31] = (uint8_t)length;
    file[92 + 35] = 4;
    l = xcoff_find_line(file, length, 1, 0x10000107);
    c = xcoff_line_count(file, length + sizeof table - 1, 1);
    v = xcoff_line_table(file, length, 1, NULL, 0);
    EXPECT(REFUSED(l, 5, 1, 92) && SAME_HEAD(l, c) && SAME_HEAD(l, v));
    length += sizeof table;
    l = xcoff_find_line(file, length, 1, 0x10000107);
    EXPECT(ACCEPTED(l) && l.entry == 1 && l.address == 0x10000104 && l.line == 1 && l.symbol == 5);
    l = xcoff_find_line(file, length, 1, UINT64_MAX);
    EXPECT(ACCEPTED(l) && l.entry == 3 && l.address == 0x10000108 && l.line == 256 && l.symbol == 5);
    c = xcoff_line_count(file, length, 1);
    EXPECT(ACCEPTED(c) && c.count == 4);
    memset(rows, 0x55, sizeof rows);
    v = xcoff_line_table(file, length, 1, rows, 13);
    EXPECT(REFUSED(v, 20, 0, 0) && rows[0] == 0x5555555555555555);
    v = xcoff_line_table(file, length, 1, rows, 12);
    EXPECT(ACCEPTED(v) && rows[12] == 0x5555555555555555);
    {
        const xcoff_line_row *row = (const xcoff_line_row *)rows;
        EXPECT(row[0].function == 1 && row[0].value == 5 && row[0].line == 0);
        EXPECT(row[3].function == 0 && row[3].value == 0x10000108 && row[3].line == 256);
    }
    file[length - sizeof table + 5] = 1;
    l = xcoff_find_line(file, length, 1, 0);
    EXPECT(REFUSED(l, 32, 0, 0));
    length -= sizeof table;
    memcpy(file + 92, header, sizeof header);
}

/* A row of bench 1 for the module's import errno, of file id 1, and one of bench 2. */
static void address_table(void)
{
    static uint64_t table[XCOFF_TABLE_NUMBERS], before[XCOFF_TABLE_NUMBERS];
    static const uint8_t name[33] = "errno";
    uint64_t list[9], rows[8];
    const xcoff_table_row *row = (const xcoff_table_row *)rows;
    xcoff_address_answer a;
    xcoff_count_answer c;
    xcoff_verdict v = xcoff_table_add(table, 1, 1, name, 5, 0xfff01200);
    EXPECT(ACCEPTED(v));
    v = xcoff_table_add(table, 2, 1, name, 5, 7);
    EXPECT(ACCEPTED(v));
    memcpy(before, table, sizeof table);
    v = xcoff_table_add(table, 3, 1, name, 0, 7);
    EXPECT(REFUSED(v, 8, 3, 0));
    v = xcoff_table_add(table, 1, 1, name, 33, 7);
    EXPECT(REFUSED(v, 28, 0, 0));
    v = xcoff_table_remove(table, 1, 2, name, 5);
    EXPECT(REFUSED(v, 27, 0, 0) && memcmp(before, table, sizeof table) == 0);
    a = xcoff_table_find(table, 1, 1, name, 5);
    EXPECT(ACCEPTED(a) && a.address == 0xfff01200);
    a = xcoff_table_find(table, 1, 1, name, 6);
    EXPECT(REFUSED(a, 27, 0, 0) && a.address == 0);
    c = xcoff_table_count(table, 1);
    EXPECT(ACCEPTED(c) && c.count == 1);
    c = xcoff_table_count(table, 0);
    EXPECT(REFUSED(c, 8, 0, 0) && c.count == 0);
    rows[7] = 0x5555;
    v = xcoff_table_rows(table, 1, rows, 8);
    EXPECT(REFUSED(v, 20, 0, 0));
    v = xcoff_table_rows(table, 1, rows, 7);
    EXPECT(ACCEPTED(v) && row->file_id == 1 && row->name_length == 5 && row->address == 0xfff01200 && rows[7] == 0x5555);
    EXPECT(row->name[0] == 0x6572726e6f000000 && row->name[1] == 0 && row->name[3] == 0);
    memset(list, 0x55, sizeof list);
    v = xcoff_table_fill(file, length, table, 1, list, 8);
    EXPECT(REFUSED(v, 20, 2, 0) && list[0] == 0x5555555555555555);
    v = xcoff_table_fill(file, length, table, 2, list, 9);
    EXPECT(ACCEPTED(v) && list[0] == 7 && list[1] == 0 && list[3] == 0 && list[8] == 0);
    v = xcoff_table_remove(table, 2, 1, name, 5);
    EXPECT(ACCEPTED(v));
    v = xcoff_table_fill(file, length, table, 2, list, 9);
    EXPECT(ACCEPTED(v) && list[0] == 0);
    v = xcoff_table_fill(file, 10, table, 1, list, 9);
    EXPECT(REFUSED(v, 1, 0, 0));
}

/* An addition, a refused one, a fill, a look-up and a removal as one list, whole and cut short. */
static void table_calls(void)
{
    static uint64_t table[XCOFF_TABLE_NUMBERS];
    static const uint64_t script[] = {0, 2, 1, 5, 'e', 'r', 'r', 'n', 'o', 9, 0, 3, 1, 1, 'e', 9, 3, 2,
                                      2, 2, 1, 5, 'e', 'r', 'r', 'n', 'o', 1, 2, 1, 5, 'e', 'r', 'r', 'n', 'o'};
    uint64_t list[9];
    xcoff_table_replay_answer r = xcoff_table_replay(file, length, NULL, 0, table, NULL, 0);
    EXPECT(ACCEPTED(r) && r.address == 0 && r.calls == 0 && r.accepted == 0);
    memset(list, 0x55, sizeof list);
    r = xcoff_table_replay(file, length, script, 16, table, list, 9);
    EXPECT(REFUSED(r, 8, 3, 0) && r.address == 0 && r.calls == 2 && r.accepted == 1 && list[0] == 0x5555555555555555);
    r = xcoff_table_replay(file, length, script, 35, table, list, 9);
    EXPECT(ACCEPTED(r) && r.address == 9 && r.calls == 4 && r.accepted == 3 && list[0] == 9 && list[1] == 0);
    r = xcoff_table_replay(file, length, script, 36, table, list, 8);
    EXPECT(ACCEPTED(r) && r.address == 0 && r.calls == 5 && r.accepted == 3 && xcoff_table_count(table, 2).count == 0);
}

static void module(void)
{
    xcoff_module_answer m = xcoff_module(file, length);
    xcoff_loader_symbol_answer s = xcoff_loader_symbol(file, length, 5);
    EXPECT(ACCEPTED(m) && m.bits == 32);
    EXPECT(m.text.number == 1 && m.text.address == 0x10000100 && m.text.size == 0xa0);
    EXPECT(m.data.number == 2 && m.data.address == 0x200001a0 && m.data.size == 0x60);
    EXPECT(m.bss.number == 3 && m.bss.address == 0x20000200 && m.bss.size == 0x40);
    EXPECT(m.loader == 4 && m.image == 0xa0 && m.symbols == 9 && m.relocations == 20 && m.ids == 4);
    EXPECT(m.entry.section == 2 && m.entry.address == 0x200001d0);
    EXPECT(m.toc.section == 2 && m.toc.address == 0x200001e0);
    EXPECT(ACCEPTED(s) && s.value == 0 && s.scnum == 0 && s.smtype == 0x40);
    EXPECT(s.smclas == 10 && s.ifile == 2 && s.parm == 0);
    EXPECT(is(xcoff_loader_symbol_name(file, length, 5), "a_function_with_a_long_name"));
    EXPECT(is(xcoff_import_path(file, length, 2), "/usr/lib"));
    EXPECT(is(xcoff_import_base(file, length, 2), "libexample.a"));
    EXPECT(is(xcoff_import_member(file, length, 2), "shr_64.o"));
}

/* Bytes set to a value, and what the module is then refused with. The section headers start at 92, the loader section at
   512, its 9 symbols at 544, its entries at 760. */
static const struct damage {
    size_t at, count;
    uint8_t value;
    uint64_t number, item, offset;
} damages[] = {
    {132 + 39, 1, 0x41, 4, 2, 132},         /* flags of section 2 */
    {92 + 20, 1, 0x7f, 5, 1, 92},           /* raw data of section 1 */
    {172 + 12, 1, 0x21, 6, 3, 172},         /* address of section 3 */
    {8, 4, 0xff, 5, 0, 0},                  /* the symbol table */
    {20 + 34, 2, 0, 13, 2, 0},              /* the auxiliary header's section of text */
    {512 + 3, 1, 3, 15, 1, 512},            /* version of the loader section */
    {512 + 5, 1, 2, 3, 2, 512},             /* its symbols */
    {512 + 9, 1, 2, 3, 3, 512},             /* its relocation entries */
    {512 + 12, 1, 0x7f, 15, 4, 512},        /* its import ids */
    {544 + 2 * 24 + 14, 1, 4, 16, 5, 592},  /* type of loader symbol 5 */
    {760 + 3 * 12 + 9, 1, 2, 17, 3, 796},   /* type of entry 3 */
    {760 + 3 * 12 + 4, 4, 0xff, 14, 3, 796} /* symbol of entry 3 */
};

static void offsets(void)
{
    uint8_t kept[4];
    xcoff_module_answer m;
    xcoff_open_answer o;
    size_t i, strings = symbol_at(60);
    for (i = 0; i < sizeof damages / sizeof damages[0]; i++) {
        struct damage d = damages[i];
        memcpy(kept, file + d.at, d.count);
        memset(file + d.at, d.value, d.count);
        m = xcoff_module(file, length);
        EXPECT(REFUSED(m, d.number, d.item, d.offset) && m.bits == 0);
        EXPECT(SAME_HEAD(m, xcoff_loader_symbol(file, length, 3)));
        EXPECT(SAME_HEAD(m, xcoff_import_path(file, length, 0)));
        EXPECT(SAME_HEAD(m, xcoff_build(file, length, 0, 0, NULL, 0, NULL, 0, NULL, 0)));
        EXPECT(SAME_HEAD(m, xcoff_relocation_table(file, length, NULL, 0)));
        memcpy(file + d.at, kept, d.count);
    }
    memcpy(kept, file + strings, 4);
    memcpy(file + strings, "\0\0\0\3", 4);
    o = xcoff_open(file, length);
    EXPECT(REFUSED(o, 7, 0, strings) && o.bits == 0);
    memcpy(file + strings, kept, 4);
    EXPECT(ACCEPTED(xcoff_module(file, length)));
}

/* A build at the recorded addresses and a move by 1000 hex; the list cut short, with all or the last refused, and empty. */
static void list_of_calls(const uint64_t *list, const uint8_t *built_text, const uint8_t *built_data)
{
    static uint8_t text[0xa0], data[0xa0];
    uint64_t script[1 + 12 + 1 + 24];
    xcoff_replay_answer r;
    size_t i;
    script[0] = 0;
    script[13] = 1;
    for (i = 0; i < 3; i++) {
        uint64_t *plan = script + (i == 0 ? 1 : i == 1 ? 14 : 26);
        plan[0] = 0x10000100 + (i == 2 ? 0x1000 : 0);
        plan[1] = 0x200001a0 + (i == 2 ? 0x1000 : 0);
        plan[2] = 9;
        memcpy(plan + 3, list, 9 * sizeof list[0]);
    }
    r = xcoff_replay(file, length, script, 38, text, sizeof text, data, sizeof data);
    EXPECT(ACCEPTED(r) && r.calls == 2 && r.accepted == 2);
    EXPECT(r.has_entry == 1 && r.entry == 0x200011d0 && r.has_toc == 1 && r.toc == 0x200011e0);
    EXPECT(memcmp(text, built_text, sizeof text) == 0 && memcmp(data, built_data, sizeof data) == 0);
    r = xcoff_replay(file, length, script, 37, text, sizeof text, data, sizeof data);
    EXPECT(ACCEPTED(r) && r.calls == 1 && r.accepted == 1 && r.entry == 0x200001d0 && r.toc == 0x200001e0);
    r = xcoff_replay(file, length, script, 38, text, sizeof text - 1, data, sizeof data);
    EXPECT(REFUSED(r, 20, 0, 0) && r.calls == 2 && r.accepted == 0);
    EXPECT(r.has_entry == 0 && r.entry == 0 && r.has_toc == 0 && r.toc == 0);
    script[26] = UINT64_MAX;
    r = xcoff_replay(file, length, script, 38, text, sizeof text, data, sizeof data);
    EXPECT(REFUSED(r, 19, 0, 0) && r.calls == 2 && r.accepted == 1 && r.has_entry == 0);
    r = xcoff_replay(file, length, NULL, 0, text, sizeof text, data, sizeof data);
    EXPECT(ACCEPTED(r) && r.has_entry == 0 && r.has_toc == 0 && r.calls == 0 && r.accepted == 0);
}

/* Built at the recorded addresses, moved by 1000 hex, and both at once by a list of calls; then the plan's sheet. */
static void images(void)
{
    static uint8_t text[0xa0], data[0xa0], sheet[24 + 8 * 9], old[20 + 8 * 9];
    uint64_t list[9], back[9];
    xcoff_call_answer b, m;
    xcoff_sheet_answer s;
    size_t i;
    for (i = 0; i < 9; i++)
        list[i] = xcoff_loader_symbol(file, length, 3 + i).value;
    b = xcoff_build(file, length, 0x10000100, 0x200001a0, list, 9, text, sizeof text, data, sizeof data);
    EXPECT(ACCEPTED(b) && b.has_entry == 1 && b.entry == 0x200001d0 && b.has_toc == 1 && b.toc == 0x200001e0);
    m = xcoff_move(file, length, 0x10000100, 0x200001a0, list, 9, 0x10001100, 0x200011a0, list, 9, text, sizeof text, data,
                   sizeof data);
    EXPECT(ACCEPTED(m) && m.entry == 0x200011d0 && m.toc == 0x200011e0);
    m = xcoff_move(file, length, 0x10000100, 0x200001a0, list, 9, 0x10001100, 0x200011a0, list, 9, text, sizeof text - 1,
                   data, sizeof data);
    EXPECT(REFUSED(m, 20, 0, 0) && m.has_entry == 0);

    list_of_calls(list, text, data);

    EXPECT(xcoff_write_sheet(1, 2, list, 9, sheet, sizeof sheet).number == 0);
    s = xcoff_sheet_head(sheet, sizeof sheet);
    EXPECT(ACCEPTED(s) && s.text == 1 && s.data == 2 && s.count == 9);
    s = xcoff_read_sheet(sheet, sizeof sheet, back, 9);
    EXPECT(ACCEPTED(s) && memcmp(list, back, sizeof list) == 0);
    s = xcoff_read_sheet(sheet, sizeof sheet, back, 8);
    EXPECT(REFUSED(s, 20, 2, 0));

    /* The old form has two bytes less in each count. */
    memcpy(old, sheet + 2, 18);
    memcpy(old + 18, sheet + 22, sizeof old - 18);
    memset(back, 0, sizeof back);
    s = xcoff_read_sheet(old, sizeof old, back, 9);
    EXPECT(ACCEPTED(s) && s.text == 1 && s.data == 2 && memcmp(list, back, sizeof list) == 0);
    EXPECT(xcoff_write_sheet(1, 2, list, 9, old, sizeof old).number == 20);
}

static uint8_t image_text[0xa0], image_data[0xa0], written[805];
static uint64_t plan_list[9];

static xcoff_verdict write_at(uint64_t data_address, size_t records_length)
{
    return xcoff_write_records(file, length, 0x10000, data_address, plan_list, 9, image_text, sizeof image_text, image_data,
                               sizeof image_data, written, records_length);
}

static xcoff_verdict read_from(const uint8_t *lines, size_t n, uint8_t *text, uint8_t *data)
{
    return xcoff_read_records(file, length, 0x10000, 0x80000, plan_list, 9, lines, n, text, 0xa0, data, 0xa0);
}

static int all_are(const uint8_t *bytes, size_t n, uint8_t b)
{
    while (n > 0 && bytes[n - 1] == b)
        n--;
    return n == 0;
}

/* Written: ten lines of 32 data bytes, and the line with the entry address. */
static void records_written(void)
{
    xcoff_length_answer n;
    xcoff_verdict v;
    size_t i;
    for (i = 0; i < 9; i++)
        plan_list[i] = xcoff_loader_symbol(file, length, 3 + i).value;
    xcoff_build(file, length, 0x10000, 0x80000, plan_list, 9, image_text, 0xa0, image_data, 0xa0);
    n = xcoff_records_length(file, length, 0x10000, 0x80000, plan_list, 9);
    EXPECT(ACCEPTED(n) && n.length == sizeof written);
    v = write_at(0x80000, sizeof written - 1);
    EXPECT(REFUSED(v, 20, 0, 0) && all_are(written, sizeof written, 0));
    v = write_at(0x1009f, sizeof written);
    EXPECT(REFUSED(v, 24, 0, 0) && all_are(written, sizeof written, 0));
    n = xcoff_records_length(file, length, 0x10000, 0x1009f, plan_list, 9);
    EXPECT(REFUSED(n, 24, 0, 0) && n.length == 0);
    v = write_at(0x80000, sizeof written);
    EXPECT(ACCEPTED(v));
    EXPECT(memcmp(written, "S325000100007C0802A64800002D8041001448000049", 44) == 0);
    EXPECT(memcmp(written + 5 * 79, "S32500080000", 12) == 0 && memcmp(written + 790, "S70500080030C2\n", 15) == 0);
}

/* Read back into the images; refused with the line, and then nothing is written. */
static void records_read(void)
{
    static uint8_t text[0xa0], data[0xa0], longer[806];
    xcoff_verdict v = read_from(written, sizeof written, text, data);
    EXPECT(ACCEPTED(v));
    EXPECT(memcmp(text, image_text, sizeof text) == 0 && memcmp(data, image_data, sizeof data) == 0);
    memset(text, 1, sizeof text);
    memset(data, 1, sizeof data);
    memcpy(longer, written, sizeof written);
    v = read_from(longer, sizeof longer, text, data);
    EXPECT(REFUSED(v, 22, 12, 0));
    v = read_from(longer, sizeof written - 1, text, data);
    EXPECT(REFUSED(v, 22, 11, 0));
    longer[6 * 79 + 20] ^= 1;
    v = read_from(longer, sizeof written, text, data);
    EXPECT(REFUSED(v, 22, 7, 0));
    v = read_from(NULL, 0, text, data);
    EXPECT(REFUSED(v, 22, 1, 0));
    EXPECT(all_are(text, sizeof text, 1) && all_are(data, sizeof data, 1));
}

/* Every row against the calls for one element. */
static void symbol_rows(void)
{
    static xcoff_symbol_row rows[30];
    uint64_t i;
    xcoff_walk_answer w = xcoff_symbol_table(file, length, (uint64_t *)rows, 30 * 15 - 1);
    EXPECT(REFUSED(w, 20, 0, 0) && w.visited == 0 && rows[0].sclass == 0);
    w = xcoff_symbol_table(file, length, (uint64_t *)rows, 30 * 15);
    EXPECT(ACCEPTED(w) && w.visited == 30 && w.end == 60 && ACCEPTED(w.cause));
    for (i = 0; i < 30; i++) {
        xcoff_symbol_answer y = xcoff_symbol(file, length, rows[i].index);
        xcoff_csect_answer c = xcoff_csect(file, length, rows[i].index);
        xcoff_name_answer n = xcoff_symbol_name(file, length, rows[i].index);
        const uint8_t *zero = memchr(file + rows[i].name, 0, rows[i].room);
        uint64_t name_length = zero == NULL ? rows[i].room : (uint64_t)(zero - (file + rows[i].name));
        EXPECT(rows[i].index == (i == 0 ? 0 : rows[i - 1].index + 1 + rows[i - 1].numaux));
        EXPECT(rows[i].value == y.value && rows[i].scnum == y.scnum && rows[i].type == y.type);
        EXPECT(rows[i].sclass == y.sclass && rows[i].numaux == y.numaux);
        EXPECT(rows[i].has_visibility == y.has_visibility && rows[i].visibility == y.visibility);
        EXPECT(rows[i].csect == c.number && rows[i].csect_type == c.type && rows[i].align == c.align);
        EXPECT(rows[i].smclas == c.smclas && rows[i].length == c.length);
        EXPECT(ACCEPTED(n) && rows[i].name == n.start && name_length == n.length);
    }
}

static void module_rows(void)
{
    static xcoff_loader_symbol_row symbols[9];
    static xcoff_import_row ids[8];
    static xcoff_relocation_row entries[64];
    xcoff_module_answer m = xcoff_module(file, length);
    xcoff_verdict v;
    uint64_t i;
    EXPECT(m.symbols == 9 && m.ids <= 8 && m.relocations <= 64);
    v = xcoff_loader_symbol_table(file, length, (uint64_t *)symbols, 9 * m.symbols);
    EXPECT(ACCEPTED(v));
    for (i = 0; i < m.symbols; i++) {
        xcoff_loader_symbol_answer y = xcoff_loader_symbol(file, length, i + 3);
        xcoff_name_answer n = xcoff_loader_symbol_name(file, length, i + 3);
        EXPECT(symbols[i].index == i + 3 && symbols[i].value == y.value && symbols[i].scnum == y.scnum);
        EXPECT(symbols[i].smtype == y.smtype && symbols[i].smclas == y.smclas && symbols[i].ifile == y.ifile);
        EXPECT(symbols[i].parm == y.parm && symbols[i].name == n.start && symbols[i].name_length == n.length);
    }
    v = xcoff_import_table(file, length, (uint64_t *)ids, 6 * m.ids);
    EXPECT(ACCEPTED(v));
    for (i = 0; i < m.ids; i++) {
        xcoff_name_answer path = xcoff_import_path(file, length, i);
        xcoff_name_answer base = xcoff_import_base(file, length, i);
        xcoff_name_answer member = xcoff_import_member(file, length, i);
        EXPECT(ids[i].path == path.start && ids[i].path_length == path.length);
        EXPECT(ids[i].base == base.start && ids[i].base_length == base.length);
        EXPECT(ids[i].member == member.start && ids[i].member_length == member.length);
    }
    v = xcoff_relocation_table(file, length, (uint64_t *)entries, 8 * m.relocations + 1);
    EXPECT(REFUSED(v, 20, 0, 0) && entries[0].width == 0);
    v = xcoff_relocation_table(file, length, (uint64_t *)entries, 8 * m.relocations);
    EXPECT(ACCEPTED(v));
    for (i = 0; i < m.relocations; i++) {
        xcoff_part part = entries[i].in_text ? m.text : m.data;
        EXPECT(entries[i].scnum == part.number && entries[i].address == part.address + entries[i].offset);
        EXPECT(entries[i].width == ((entries[i].type >> 8 & 63) == 63 ? 8 : 4));
        EXPECT(entries[i].subtracts == ((entries[i].type & 255) == 1) && entries[i].symbol < 3 + m.symbols);
    }
}

/* For other addresses, built alike, and back: the file again. */
static void module_written(void)
{
    static uint8_t output[65536], back[65536], text[0xa0], data[0xa0];
    uint64_t list[9], own[9];
    xcoff_module_answer m;
    xcoff_verdict v;
    size_t i;
    for (i = 0; i < 9; i++)
        own[i] = list[i] = xcoff_loader_symbol(file, length, 3 + i).value;
    list[0] = 0xfff01200;
    memset(output, 1, sizeof output);
    v = xcoff_write_module(file, length, 0x10000, 0x80000, list, 8, output, length);
    EXPECT(REFUSED(v, 20, 2, 0));
    v = xcoff_write_module(file, length, 0xffffff61, 0x80000, list, 9, output, length);
    EXPECT(REFUSED(v, 19, 0, 0));
    v = xcoff_write_module(file, length, 0x10000, 0x80000, list, 9, output, length + 1);
    EXPECT(REFUSED(v, 20, 0, 0) && all_are(output, sizeof output, 1));
    v = xcoff_write_module(file, length, 0x10000, 0x80000, list, 9, output, length);
    EXPECT(ACCEPTED(v) && all_are(output + length, 8, 1));
    m = xcoff_module(output, length);
    EXPECT(ACCEPTED(m) && m.text.address == 0x10000 && m.data.address == 0x80000 && m.bss.address == 0x80060);
    EXPECT(m.entry.address == 0x80030 && m.toc.address == 0x80040);
    EXPECT(xcoff_loader_symbol(output, length, 3).value == 0xfff01200);
    xcoff_build(file, length, 0x10000, 0x80000, list, 9, text, sizeof text, data, sizeof data);
    EXPECT(memcmp(output + 256, text, sizeof text) == 0 && memcmp(output + 416, data, 0x60) == 0);
    v = xcoff_write_module(output, length, 0x10000100, 0x200001a0, own, 9, back, length);
    EXPECT(ACCEPTED(v) && memcmp(back, file, length) == 0);
    /* Raw data from the last byte of raw text on. */
    output[20 + 72 + 40 + 22] = 1, output[20 + 72 + 40 + 23] = 0x9f;
    v = xcoff_write_module(output, length, 0x10000, 0x80000, list, 9, back, length);
    EXPECT(REFUSED(v, 29, 0, 0) && memcmp(back, file, length) == 0);
}

/* The name of symbol 48 and the section and auxiliaries of symbol 56 damaged: three changes, and nothing else. */
static void salvaged(void)
{
    static uint8_t damaged[65536], copy[65536], report[32];
    static const uint8_t changes[24] = {0, 0, 0, 48, 0, 0, 0, 10, 0, 0, 0, 56, 0, 0, 0, 9, 0, 0, 0, 56, 0, 0, 0, 11};
    xcoff_count_answer c = xcoff_salvage_count(file, length);
    xcoff_walk_answer w;
    EXPECT(ACCEPTED(c) && c.count == 0);
    c = xcoff_salvage(file, length, copy, length, NULL, 0);
    EXPECT(ACCEPTED(c) && c.count == 0 && memcmp(copy, file, length) == 0);
    memcpy(damaged, file, length);
    memset(damaged + 2298, 'z', 4);
    memset(damaged + 2450, 'z', 2);
    damaged[2455] = 'z';
    c = xcoff_salvage_count(damaged, length);
    EXPECT(ACCEPTED(c) && c.count == 3);
    memset(copy, 1, sizeof copy);
    memset(report, 1, sizeof report);
    c = xcoff_salvage(damaged, length, copy, length - 1, report, 24);
    EXPECT(REFUSED(c, 20, 0, 0) && c.count == 0);
    c = xcoff_salvage(damaged, length, copy, length, report, 23);
    EXPECT(REFUSED(c, 3, 5, 0) && c.count == 0);
    EXPECT(all_are(copy, sizeof copy, 1) && all_are(report, sizeof report, 1));
    c = xcoff_salvage(damaged, length, copy, length, report, sizeof report);
    EXPECT(ACCEPTED(c) && c.count == 3);
    EXPECT(memcmp(report, changes, 24) == 0 && all_are(report + 24, 8, 1) && all_are(copy + length, 8, 1));
    w = xcoff_walk(copy, length);
    EXPECT(ACCEPTED(w) && w.end == 60 && w.cause.number == 0);
    EXPECT(all_are(copy + 2298, 4, 0) && all_are(copy + 2450, 2, 0) && copy[2455] == 3);
    memcpy(copy + 2298, damaged + 2298, 4);
    memcpy(copy + 2450, damaged + 2450, 2);
    copy[2455] = 'z';
    EXPECT(memcmp(copy, damaged, length) == 0);
}

static void nothing(void)
{
    xcoff_open_answer o = xcoff_open(NULL, 0);
    xcoff_module_answer m = xcoff_module(NULL, 0);
    xcoff_name_answer n = xcoff_import_path(NULL, 0, UINT64_MAX);
    EXPECT(REFUSED(o, 1, 0, 0) && o.bits == 0);
    EXPECT(REFUSED(m, 1, 0, 0) && m.toc.address == 0);
    EXPECT(REFUSED(n, 1, 0, 0) && n.length == 0);
    EXPECT(xcoff_symbol_table(NULL, 0, NULL, 0).number == 1);
    EXPECT(xcoff_relocation_table(NULL, 0, NULL, 0).number == 1);
    EXPECT(xcoff_records_length(NULL, 0, 0, 0, NULL, 0).number == 1);
    EXPECT(xcoff_write_records(NULL, 0, 0, 0, NULL, 0, NULL, 0, NULL, 0, NULL, 0).number == 1);
    EXPECT(xcoff_read_records(NULL, 0, 0, 0, NULL, 0, NULL, 0, NULL, 0, NULL, 0).number == 1);
    EXPECT(xcoff_write_module(NULL, 0, 0, 0, NULL, 0, NULL, 0).number == 1);
    EXPECT(xcoff_salvage_count(NULL, 0).number == 1 && xcoff_salvage(NULL, 0, NULL, 0, NULL, 0).number == 1);
}

static uint32_t word_at(const uint8_t *bytes)
{
    return (uint32_t)bytes[0] << 24 | (uint32_t)bytes[1] << 16 | (uint32_t)bytes[2] << 8 | bytes[3];
}

/* The tables of an object file. */
static void object_rows(const uint8_t *object, size_t size)
{
    static xcoff_object_section_row sections[4];
    static xcoff_object_entry_row entries[14];
    xcoff_object_answer o = xcoff_object(object, size);
    xcoff_verdict v;
    EXPECT(ACCEPTED(o) && o.sections == 3 && o.entries == 24 && o.length == 112);
    memset(sections, 0x55, sizeof sections);
    v = xcoff_object_sections(object, size, (uint64_t *)sections, 16);
    EXPECT(REFUSED(v, 20, 0, 0) && sections[0].place == 0x5555555555555555);
    v = xcoff_object_section_rows(object, size, sections, 3);
    EXPECT(ACCEPTED(v) && sections[3].place == 0x5555555555555555);
    EXPECT(sections[0].place == 0 && sections[0].size == 64 && sections[0].table == 280);
    EXPECT(sections[0].entries == 11 && sections[0].first == 0);
    EXPECT(sections[1].place == 64 && sections[1].size == 48 && sections[1].table == 390);
    EXPECT(sections[1].entries == 13 && sections[1].first == 11);
    EXPECT(sections[2].size == 0 && sections[2].table == 0 && sections[2].entries == 0);
    v = xcoff_object_entries(object, size, 3, NULL, 0);
    EXPECT(REFUSED(v, 8, 3, 0));
    v = xcoff_object_entries(object, size, UINT64_MAX, NULL, 0);
    EXPECT(REFUSED(v, 8, UINT64_MAX, 0));
    memset(entries, 0x55, sizeof entries);
    v = xcoff_object_entry_rows(object, size, 2, entries, 12);
    EXPECT(REFUSED(v, 20, 0, 0) && entries[0].address == 0x5555555555555555);
    v = xcoff_object_entry_rows(object, size, 2, entries, 13);
    EXPECT(ACCEPTED(v) && entries[13].address == 0x5555555555555555);
    EXPECT(entries[2].address == 0x48 && entries[2].symbol == 6 && entries[2].rsize == 0x19 && entries[2].rtype == 8);
    EXPECT(entries[2].width == 26 && entries[2].place == 72);
    EXPECT(entries[12].rtype == 1 && entries[12].width == 32 && entries[12].place == 108);
    v = xcoff_object_entry_rows(object, size, 1, entries, 11);
    EXPECT(ACCEPTED(v) && entries[0].rtype == 15 && entries[0].width == 0 && entries[0].place == 0);
}

/* An object file built, moved, replayed; a branch that leaves its range. */
static void object_placed(const uint8_t *object, size_t size)
{
    static const uint64_t one[] = {0x10000, 0x80000, 0x80400}, two[] = {0x40000, 0xc0000, 0xc0400};
    static const uint64_t far[] = {0, 0x8000000, 0}, past[] = {0xffffffc1, 0, 0};
    static const uint64_t script[] = {0, 3, 0x10000, 0x80000, 0x80400, 0, 3, 0, 0x8000000, 0,
                                      7, 3, 0x10000, 0x80000, 0x80400, 3, 0x40000, 0xc0000, 0xc0400, 0, 4, 1};
    static uint8_t built[113], moved[113], replayed[112];
    char words[300];
    xcoff_object_replay_answer r;
    xcoff_verdict v;
    memset(built, 0x77, sizeof built);
    v = xcoff_build_object(object, size, one, 2, built, 112);
    EXPECT(REFUSED(v, 20, 2, 0));
    v = xcoff_build_object(object, size, past, 3, built, 113);
    EXPECT(REFUSED(v, 19, 1, 0));
    v = xcoff_build_object(object, size, far, 3, built, 113);
    EXPECT(REFUSED(v, 20, 0, 0));
    v = xcoff_build_object(object, size, far, 3, built, 112);
    EXPECT(REFUSED(v, 25, 5, 330) && built[0] == 0x77 && built[111] == 0x77);
    EXPECT(xcoff_object_refusal_words(19, 1, 0, words, sizeof words) > 0);
    EXPECT(strcmp(words, "refused 19 1 0: PLAN, section 1 at the plan's address passes the end of the address space") == 0);
    v = xcoff_build_object(object, size, one, 3, built, 112);
    EXPECT(ACCEPTED(v) && built[112] == 0x77);
    EXPECT(word_at(built + 8) == 0x48010037 && word_at(built + 20) == 0x4806ffed && word_at(built + 64) == 0x4bf90001);
    memcpy(moved, built, sizeof moved);
    v = xcoff_move_object(object, size, one, 3, far, 3, moved, 112);
    EXPECT(REFUSED(v, 25, 5, 330) && memcmp(moved, built, sizeof moved) == 0);
    v = xcoff_move_object(object, size, one, 3, two, 3, moved, 112);
    EXPECT(ACCEPTED(v) && moved[112] == 0x77);
    EXPECT(word_at(moved + 8) == 0x48040037 && word_at(moved + 20) == 0x4807ffed && word_at(moved + 64) == 0x4bf80001);
    r = xcoff_replay_object(object, size, script, sizeof script / sizeof *script, replayed, 112);
    EXPECT(ACCEPTED(r) && r.calls == 3 && r.accepted == 2 && memcmp(replayed, moved, 112) == 0);
    r = xcoff_replay_object(object, size, script, 10, replayed, 112);
    EXPECT(REFUSED(r, 25, 5, 330) && r.calls == 2 && r.accepted == 1 && memcmp(replayed, built, 112) == 0);
    v = xcoff_move_object(object, size, two, 3, one, 3, moved, 112);
    EXPECT(ACCEPTED(v) && memcmp(moved, built, sizeof moved) == 0);
}

static void object_file(const uint8_t *object, size_t size)
{
    xcoff_object_answer o = xcoff_object(file, length);
    xcoff_verdict v = xcoff_object_sections(file, length, NULL, 0);
    /* A linked file has entries of other types. */
    EXPECT(o.number == 17 && o.sections == 0 && o.entries == 0 && o.length == 0 && SAME_HEAD(o, v));
    EXPECT(xcoff_object(NULL, 0).number == 1 && xcoff_build_object(NULL, 0, NULL, 0, NULL, 0).number == 1);
    EXPECT(xcoff_object_entries(NULL, 0, 1, NULL, 0).number == 1);
    EXPECT(xcoff_move_object(NULL, 0, NULL, 0, NULL, 0, NULL, 0).number == 1);
    EXPECT(xcoff_replay_object(NULL, 0, NULL, 0, NULL, 0).number == 0);
    object_rows(object, size);
    object_placed(object, size);
}

/* Plans as structs, tables by rows, names for numbers: the same as the exports. */
static void inlines(void)
{
    xcoff_module_answer m = xcoff_module(file, length);
    static xcoff_loader_symbol_row rows[9];
    static xcoff_relocation_row entries[20];
    static xcoff_import_row ids[4];
    static xcoff_symbol_row all[30];
    static uint64_t list[9], again[9], other[9];
    static uint8_t text[160], data[160], text2[160], data2[160], sheet[24 + 72], records[2000];
    xcoff_images images = {text, 160, data, 160}, room = {text2, 160, data2, 160};
    xcoff_step step;
    xcoff_checked_answer a;
    xcoff_plan read = {0, 0, NULL, 0};
    size_t places = 0;
    char words[200];

    EXPECT(xcoff_version() == XCOFF_VERSION && xcoff_versions_agree());
    EXPECT(m.symbols == 9 && m.relocations == 20 && m.ids == 4 && m.text.size == 160 && m.image == 160);
    EXPECT(XCOFF_SYMBOL_ROW_NUMBERS == 15 && XCOFF_LOADER_SYMBOL_ROW_NUMBERS == 9);
    EXPECT(XCOFF_RELOCATION_ROW_NUMBERS == 8 && XCOFF_IMPORT_ROW_NUMBERS == 6);
    EXPECT(xcoff_loader_symbol_rows(file, length, rows, 9).number == XCOFF_ACCEPTED);
    EXPECT(xcoff_loader_symbol_rows(file, length, rows, 8).number == XCOFF_REFUSED_ROOM);
    EXPECT(xcoff_relocation_rows(file, length, entries, 20).number == XCOFF_ACCEPTED && entries[0].width == 4);
    EXPECT(xcoff_import_rows(file, length, ids, 4).number == XCOFF_ACCEPTED && ids[1].base_length == 6);
    EXPECT(xcoff_symbol_rows(file, length, all, 30).number == XCOFF_ACCEPTED && all[29].index != 0);
    for (size_t k = 0; k < 9; k++) {
        list[k] = other[k] = rows[k].value;
        places += xcoff_takes_address(&rows[k]) != 0;
    }
    EXPECT(places == 6 && rows[0].index == XCOFF_FIRST_LOADER_SYMBOL);
    other[0] = 0x5000;
    step.from.text = 0x10000, step.from.data = 0x80000, step.from.list = list, step.from.places = 9;
    step.to.text = 0x40000, step.to.data = 0xc0000, step.to.list = other, step.to.places = 9;
    EXPECT(xcoff_build_plan(file, length, step.from, images).number == XCOFF_ACCEPTED);
    a = xcoff_move_checked(file, length, step, images, room);
    EXPECT(a.call.number == XCOFF_ACCEPTED && a.were_for_from && a.call.has_entry && a.call.entry == 0xc0030);
    EXPECT(xcoff_build_plan(file, length, step.to, room).number == XCOFF_ACCEPTED && xcoff_same_images(images, room));
    /* A second time: they are not FROM's, and stay as they are. */
    a = xcoff_move_checked(file, length, step, images, room);
    EXPECT(a.call.number == XCOFF_ACCEPTED && !a.were_for_from);
    EXPECT(xcoff_build_plan(file, length, step.to, room).number == XCOFF_ACCEPTED && xcoff_same_images(images, room));
    EXPECT(xcoff_move_plan(file, length, step, images).number == XCOFF_ACCEPTED && !xcoff_same_images(images, room));
    step.from.places = 8;
    a = xcoff_move_checked(file, length, step, images, room);
    EXPECT(a.call.number == XCOFF_REFUSED_ROOM && a.call.item == 2 && !a.were_for_from);

    EXPECT(xcoff_write_sheet_plan(step.to, sheet, xcoff_sheet_length(9)).number == XCOFF_ACCEPTED);
    EXPECT(xcoff_read_sheet_plan(sheet, sizeof sheet, again, 9, &read).number == XCOFF_ACCEPTED);
    EXPECT(read.text == 0x40000 && read.data == 0xc0000 && read.places == 9 && memcmp(again, other, sizeof other) == 0);
    EXPECT(xcoff_read_sheet_plan(sheet, 95, again, 9, &read).number == XCOFF_REFUSED_SHEET && read.places == 9);
    places = xcoff_records_length_plan(file, length, read).length;
    EXPECT(places == 805 && xcoff_write_records_plan(file, length, read, room, records, places).number == 0);
    EXPECT(xcoff_read_records_plan(file, length, read, records, places, images).number == 0);
    EXPECT(xcoff_same_images(images, room));

    EXPECT(xcoff_section_flags(file, length, 2) == XCOFF_KIND_DATA && xcoff_section_flags(file, length, 5) == 0);
    EXPECT(xcoff_section(file, length, 4).flag == XCOFF_KIND_LOADER);
    /* The bss as a dwarf section of subtype 10000 (the header of section 3 is at 172). */
    memcpy(file + 172 + 36, "\0\1\0\20", 4);
    EXPECT(xcoff_section(file, length, 3).flag == XCOFF_KIND_DWARF && xcoff_section_flags(file, length, 3) == 0x10010);
    memcpy(file + 172 + 36, "\0\0\0\200", 4);
    EXPECT(strcmp(xcoff_refusal_name(XCOFF_REFUSED_LIMIT), "LIMIT") == 0);
    EXPECT(xcoff_refusal_words(4, 5, 252, words, sizeof words) > 0);
    EXPECT(strcmp(words, "refused 4 5 252: KIND, the flags of section 5 are not allowed") == 0);
}

int main(int argc, char **argv)
{
    static uint8_t object[4096];
    size_t size;
    FILE *in = argc == 3 ? fopen(argv[1], "rb") : NULL;
    FILE *other = argc == 3 ? fopen(argv[2], "rb") : NULL;
    if (in == NULL || other == NULL) {
        printf("c: usage: check FILE OBJECT\n");
        return 2;
    }
    length = fread(file, 1, sizeof file, in);
    size = fread(object, 1, sizeof object, other);
    fclose(in);
    fclose(other);
    headers();
    symbols();
    visibilities();
    lines();
    address_table();
    table_calls();
    module();
    offsets();
    images();
    records_written();
    records_read();
    symbol_rows();
    module_rows();
    inlines();
    module_written();
    salvaged();
    object_file(object, size);
    nothing();
    return failed;
}
