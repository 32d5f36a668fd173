/*
 * Calls every function of include/xcoff.h on any bytes and aborts where an answer breaks a promise of the header.
 *
 * The file, the lists, the rows, the images, the records, the copies and the reports lie at the very end of pages that are followed by a page that
 * cannot be touched; then at the very start of pages after such a page. So a read or write outside them is a fault, although the
 * library is compiled without bounds checks.
 *
 * With AFL (tests/fuzz) the input is what AFL gives. Run with arguments, it takes each file named and prints a digest of
 * all answers; compiled with -DPLAIN it needs nothing of AFL for that.
 */
#define _GNU_SOURCE
#include "xcoff.h"

#include <stdio.h>
#include <stdlib.h>
#include <string.h>
#include <sys/mman.h>
#include <unistd.h>

#define PAGE ((size_t)4096)
#define ROOM ((size_t)20 << 20)
#define LARGEST ((size_t)1 << 20)   /* of an input */
#define HEAVY ((size_t)1 << 18)     /* larger images are built once and not moved about */
#define SAMPLE 24                   /* rows of a table that are compared with single look-ups */

/* ---- what is promised */

static const char *step = "start";

static void broken(const char *promise, int line)
{
    fprintf(stderr, "fuzz-library: broken at line %d, step %s: %s\n", line, step, promise);
    abort();
}

#define PROMISE(holds) do { if (!(holds)) broken(#holds, __LINE__); } while (0)

static uint64_t digest;

static void note(const void *bytes, size_t n)
{
    const uint8_t *p = bytes;
    while (n-- > 0)
        digest = (digest ^ *p++) * 0x100000001b3;
}

#define NOTE(answer) note(&(answer), sizeof(answer))
#define SAME(a, b) (memcmp(&(a), &(b), sizeof(a)) == 0)

static const uint8_t *file;
static size_t length;

/* A refusal has a known number, its offset is one of the file or its end, and every other field is 0. */
static void refusal(const void *answer, size_t size)
{
    uint64_t head[3];
    size_t i;
    memcpy(head, answer, sizeof head);
    PROMISE(head[0] <= 32);
    PROMISE(head[0] == 0 ? head[1] == 0 && head[2] == 0 : head[2] <= length);
    for (i = sizeof head; head[0] != 0 && i < size; i++)
        PROMISE(((const uint8_t *)answer)[i] == 0);
    note(answer, size);
}

#define ANSWER(answer) refusal(&(answer), sizeof(answer))
#define REFUSED(answer, n, i, o) ((answer).number == (n) && (answer).item == (i) && (answer).offset == (o))
#define REFUSED_AS(answer, other) REFUSED(answer, (other).number, (other).item, (other).offset)

/* ---- guarded memory */

typedef struct area {
    uint8_t *start;
} area;

static int at_the_end; /* or at the start */

static area map(void)
{
    uint8_t *p = mmap(NULL, ROOM + 2 * PAGE, PROT_READ | PROT_WRITE, MAP_PRIVATE | MAP_ANONYMOUS | MAP_NORESERVE, -1, 0);
    area a;
    if (p == MAP_FAILED || mprotect(p, PAGE, PROT_NONE) != 0 || mprotect(p + PAGE + ROOM, PAGE, PROT_NONE) != 0) {
        perror("fuzz-library: mmap");
        exit(2);
    }
    a.start = p + PAGE;
    return a;
}

static void *lend(area a, size_t n)
{
    PROMISE(n <= ROOM);
    return at_the_end ? a.start + ROOM - n : a.start;
}

static area file_area, text_area, data_area, text2_area, data2_area, list_area, list2_area, rows_area, sheet_area, script_area, records_area, copy_area, report_area, table_area, output_area, output2_area;

static void map_all(void)
{
    area *all[] = {&file_area, &text_area, &data_area, &text2_area, &data2_area, &list_area, &list2_area, &rows_area,
                   &sheet_area, &script_area, &records_area, &copy_area, &report_area, &table_area, &output_area,
                   &output2_area};
    size_t i;
    for (i = 0; i < sizeof all / sizeof all[0]; i++)
        *all[i] = map();
}

/* ---- numbers that follow from the input */

static uint64_t state;

static uint64_t random_number(void)
{
    state ^= state << 13;
    state ^= state >> 7;
    state ^= state << 17;
    return state;
}

static uint64_t any_number(void)
{
    switch (random_number() % 8) {
    case 0: return UINT64_MAX - random_number() % 4;
    case 1: return UINT32_MAX - random_number() % 4;
    case 2: return random_number();
    case 3: return random_number() & UINT32_MAX;
    default: return random_number() % 64;
    }
}

/* ---- a pattern, to see what a refused call leaves */

static uint8_t pattern(size_t i)
{
    return (uint8_t)(i * 37 + 11);
}

static uint8_t made[65536];

static void fill(void *bytes, size_t n)
{
    uint8_t *p = bytes;
    size_t i;
    for (i = 0; i < n; i += sizeof made)
        memcpy(p + i, made, n - i < sizeof made ? n - i : sizeof made);
}

static void untouched(const void *bytes, size_t n)
{
    const uint8_t *p = bytes;
    size_t i;
    for (i = 0; i < n; i += sizeof made)
        PROMISE(memcmp(p + i, made, n - i < sizeof made ? n - i : sizeof made) == 0);
}

/* ---- where things lie in the file */

static uint64_t number_at(size_t at, size_t n)
{
    uint64_t value = 0;
    for (; n > 0; n--)
        value = value << 8 | file[at++];
    return value;
}

static int is_64(void)
{
    return file[1] == 0xF7;
}

static uint64_t header_at(uint64_t section)
{
    return (is_64() ? 24 : 20) + number_at(16, 2) + (section - 1) * (is_64() ? 72 : 40);
}

static uint64_t symbol_at(uint64_t i)
{
    return number_at(8, is_64() ? 8 : 4) + 18 * i;
}

/* The offset of a refusal of opening. */
static uint64_t opening_offset(uint64_t number, uint64_t item)
{
    if (number == 4 || number == 6 || (number == 5 && item != 0))
        return header_at(item);
    return number == 7 ? symbol_at(number_at(is_64() ? 20 : 12, 4)) : 0;
}

/* ---- the calls */

static void name_inside(xcoff_name_answer n)
{
    ANSWER(n);
    if (n.number == 0) {
        PROMISE(n.start <= length && n.length <= length - n.start);
        PROMISE(memchr(file + n.start, 0, n.length) == NULL);
    }
}

static xcoff_open_answer headers(void)
{
    xcoff_open_answer o = xcoff_open(file, length);
    uint64_t i, n;
    step = "headers";
    ANSWER(o);
    PROMISE(o.number <= 7 && o.offset == opening_offset(o.number, o.item));
    PROMISE(o.number != 0 || (o.bits == 32 || o.bits == 64));
    PROMISE(o.sections <= 32);
    for (i = 0; i < 36; i++) {
        xcoff_section_answer s;
        xcoff_name_answer name;
        n = i < 34 ? i : any_number();
        s = xcoff_section(file, length, n);
        name = xcoff_section_name(file, length, n);
        ANSWER(s);
        name_inside(name);
        PROMISE(REFUSED_AS(s, name));
        if (o.number != 0)
            PROMISE(REFUSED_AS(s, o));
        else if (n == 0 || n > o.sections)
            PROMISE(REFUSED(s, 8, n, 0));
        else
            PROMISE(s.number == 0 && name.length <= 8 && s.raw <= 1);
        if (s.raw == 1)
            PROMISE(s.scnptr <= length && s.size <= length - s.scnptr);
    }
    return o;
}

/* A visibility is claimed in XCOFF32 with auxiliary version 2, of classes 2, 107 and 111, and is then 0 to 4. */
static void claimed(xcoff_open_answer o, xcoff_symbol_answer y)
{
    int version2 = o.number == 0 && o.bits == 32 && o.opthdr >= 4 && file[22] == 0 && file[23] == 2;
    int csect = y.sclass == 2 || y.sclass == 107 || y.sclass == 111;
    PROMISE(y.number != 30 || version2);
    PROMISE(y.has_visibility == (uint64_t)(y.number == 0 && version2 && csect));
    PROMISE(y.visibility == (y.has_visibility ? y.type >> 12 & 7 : 0) && y.visibility <= 4);
}

static void one_symbol(xcoff_open_answer o, uint64_t i, const xcoff_symbol_row *row)
{
    xcoff_symbol_answer y = xcoff_symbol(file, length, i);
    xcoff_name_answer n = xcoff_symbol_name(file, length, i);
    xcoff_csect_answer c = xcoff_csect(file, length, i);
    ANSWER(y);
    name_inside(n);
    ANSWER(c);
    PROMISE(REFUSED_AS(y, n));
    if (o.number != 0)
        PROMISE(REFUSED_AS(y, o) && REFUSED_AS(c, o));
    else if (i >= o.symbols)
        PROMISE(REFUSED(y, 8, i, 0) && REFUSED(c, 8, i, 0));
    else if (y.number != 0)
        PROMISE(((y.number >= 9 && y.number <= 11) || y.number == 30) && REFUSED(y, y.number, i, symbol_at(i)) && REFUSED_AS(c, y));
    else
        PROMISE(y.numaux < o.symbols - i && y.scnum >= -2 && y.scnum <= (int64_t)o.sections);
    if (y.number == 0)
        PROMISE(c.number == 0 || REFUSED(c, 12, i, symbol_at(i)));
    claimed(o, y);
    if (row != NULL) {
        const uint8_t *zero = memchr(file + row->name, 0, row->room);
        uint64_t name_length = zero == NULL ? row->room : (uint64_t)(zero - (file + row->name));
        PROMISE(y.number == 0 && row->index == i && row->value == y.value && row->scnum == y.scnum && row->type == y.type);
        PROMISE(row->sclass == y.sclass && row->numaux == y.numaux);
        PROMISE(row->has_visibility == y.has_visibility && row->visibility == y.visibility);
        PROMISE(row->csect == c.number && row->csect_type == c.type && row->align == c.align && row->smclas == c.smclas);
        PROMISE(row->length == c.length && row->name == n.start && name_length == n.length);
    }
}

static void symbols(xcoff_open_answer o)
{
    xcoff_walk_answer w = xcoff_walk(file, length), t;
    const xcoff_symbol_row *rows;
    uint64_t *numbers;
    uint64_t i, next = 0;
    size_t n;
    step = "symbols";
    ANSWER(w);
    PROMISE(REFUSED_AS(w, o));
    for (i = 0; i < 8; i++)
        one_symbol(o, i < 3 ? i : i < 5 ? o.symbols - (i - 3) : any_number(), NULL);
    n = 15 * w.visited;
    numbers = lend(rows_area, 8 * (n + 1));
    fill(numbers, 8 * (n + 1));
    t = xcoff_symbol_table(file, length, numbers, n + 1);
    ANSWER(t);
    PROMISE(o.number != 0 ? REFUSED_AS(t, o) : REFUSED(t, 20, 0, 0));
    untouched(numbers, 8 * (n + 1));
    if (o.number != 0)
        return;
    PROMISE(w.visited <= o.symbols && w.end <= o.symbols && (w.cause.number == 0) == (w.end == o.symbols));
    if (n > 0) {
        numbers = lend(rows_area, 8 * (n - 1));
        fill(numbers, 8 * (n - 1));
        t = xcoff_symbol_table(file, length, numbers, n - 1);
        PROMISE(REFUSED(t, 20, 0, 0));
        untouched(numbers, 8 * (n - 1));
    }
    numbers = lend(rows_area, 8 * n);
    fill(numbers, 8 * n);
    t = xcoff_symbol_table(file, length, numbers, n);
    PROMISE(SAME(t, w));
    note(numbers, 8 * n);
    rows = (const xcoff_symbol_row *)numbers;
    for (i = 0; i < w.visited; i++) {
        PROMISE(rows[i].index == next && rows[i].name <= length && rows[i].room <= length - rows[i].name);
        next += 1 + rows[i].numaux;
        if (i < SAMPLE || i + 2 >= w.visited || random_number() % w.visited < 8)
            one_symbol(o, rows[i].index, rows + i);
    }
    PROMISE(next == w.end);
    if (w.cause.number != 0) {
        xcoff_symbol_answer y = xcoff_symbol(file, length, w.end);
        PROMISE(REFUSED_AS(y, w.cause));
    }
}

/* The line that a plain search of a table finds, or the refusal. */
static xcoff_line_answer line_among(const xcoff_line_row *rows, uint64_t n, uint64_t address)
{
    xcoff_line_answer found = {31, 0, 0, 0, 0, 0, 0}, group = {32, 0, 0, 0, 0, 0, 0};
    uint64_t i, symbol = 0;
    for (i = 0; i < n; i++) {
        if (rows[i].function) {
            symbol = rows[i].value;
            group.number = 0;
        } else if (group.number != 0)
            return group;
        else if (rows[i].value <= address && (found.number != 0 || rows[i].value > found.address)) {
            xcoff_line_answer better = {0, 0, 0, i, rows[i].value, rows[i].line, symbol};
            found = better;
        }
    }
    return found;
}

/* Lines of a section: the table into exactly as many places, and what is found in it. */
static void lines_of(xcoff_open_answer o, uint64_t n)
{
    xcoff_section_answer s = xcoff_section(file, length, n);
    xcoff_count_answer c = xcoff_line_count(file, length, n);
    const xcoff_line_row *rows;
    uint64_t *numbers;
    uint64_t i;
    int by;
    ANSWER(c);
    if (o.number != 0)
        PROMISE(REFUSED_AS(c, o));
    else if (s.number != 0 || s.flag != 0x20)
        PROMISE(REFUSED(c, 8, n, 0));
    else
        PROMISE(c.number == 0 || REFUSED(c, 5, n, header_at(n)));
    PROMISE(c.count <= length / (c.number == 0 && o.bits == 64 ? 12 : 6));
    for (by = -1; by <= 1; by += 2) {
        size_t room = 3 * c.count + (by < 0 && c.count == 0 ? 0 : by);
        xcoff_verdict v;
        if (room == 3 * c.count)
            continue;
        numbers = lend(rows_area, 8 * room);
        fill(numbers, 8 * room);
        v = xcoff_line_table(file, length, n, numbers, room);
        ANSWER(v);
        PROMISE(c.number != 0 ? REFUSED_AS(v, c) : REFUSED(v, 20, 0, 0));
        untouched(numbers, 8 * room);
    }
    numbers = lend(rows_area, 8 * 3 * c.count);
    if (c.number == 0)
        PROMISE(xcoff_line_table(file, length, n, numbers, 3 * c.count).number == 0);
    note(numbers, 8 * 3 * c.count);
    rows = (const void *)numbers;
    for (i = 0; i < c.count; i++)
        PROMISE(rows[i].function == (uint64_t)(rows[i].line == 0) && rows[i].line <= UINT32_MAX);
    for (i = 0; i < 6; i++) {
        uint64_t address = i == 0 ? s.paddr : i == 1 ? s.paddr + s.size : i == 2 ? UINT64_MAX : any_number();
        xcoff_line_answer l, expected;
        if (i > 3 && c.count > 0)
            address = rows[random_number() % c.count].value - (i == 5);
        l = xcoff_find_line(file, length, n, address);
        ANSWER(l);
        expected = line_among(rows, c.count, address);
        PROMISE(c.number != 0 ? REFUSED_AS(l, c) : SAME(l, expected));
    }
}

static void lines(xcoff_open_answer o)
{
    uint64_t n;
    step = "lines";
    for (n = 0; n <= o.sections + 1; n++)
        lines_of(o, n);
    lines_of(o, any_number());
}

/* The rows of a table of a module into exactly as many places; a place more or less is refused. */
static const uint64_t *table(xcoff_module_answer m, xcoff_verdict (*list)(const uint8_t *, size_t, uint64_t *, size_t), size_t n)
{
    int by;
    for (by = -1; by <= 1; by++) {
        size_t room = n + by;
        uint64_t *numbers;
        xcoff_verdict v;
        if (n == 0 && by == -1)
            continue;
        numbers = lend(rows_area, 8 * room);
        fill(numbers, 8 * room);
        v = list(file, length, numbers, room);
        ANSWER(v);
        if (m.number != 0)
            PROMISE(REFUSED_AS(v, m));
        else
            PROMISE(by == 0 ? REFUSED(v, 0, 0, 0) : REFUSED(v, 20, 0, 0));
        if (v.number != 0)
            untouched(numbers, 8 * room);
    }
    if (m.number == 0) {
        uint64_t *numbers = lend(rows_area, 8 * n);
        fill(numbers, 8 * n);
        list(file, length, numbers, n);
        note(numbers, 8 * n);
        return numbers;
    }
    return NULL;
}

static void one_loader_symbol(xcoff_module_answer m, uint64_t i, const xcoff_loader_symbol_row *row)
{
    xcoff_loader_symbol_answer y = xcoff_loader_symbol(file, length, i);
    xcoff_name_answer n = xcoff_loader_symbol_name(file, length, i);
    ANSWER(y);
    name_inside(n);
    PROMISE(REFUSED_AS(y, n));
    if (m.number != 0)
        PROMISE(REFUSED_AS(y, m));
    else if (i < 3 || i - 3 >= m.symbols)
        PROMISE(REFUSED(y, 8, i, 0));
    else
        PROMISE(y.number == 0);
    if (row != NULL) {
        PROMISE(row->index == i && row->value == y.value && row->scnum == y.scnum && row->smtype == y.smtype);
        PROMISE(row->smclas == y.smclas && row->ifile == y.ifile && row->parm == y.parm);
        PROMISE(row->name == n.start && row->name_length == n.length);
    }
}

static void one_import(xcoff_module_answer m, uint64_t i, const xcoff_import_row *row)
{
    xcoff_name_answer path = xcoff_import_path(file, length, i), base = xcoff_import_base(file, length, i),
                      member = xcoff_import_member(file, length, i);
    name_inside(path);
    name_inside(base);
    name_inside(member);
    PROMISE(REFUSED_AS(path, base) && REFUSED_AS(path, member));
    if (m.number != 0)
        PROMISE(REFUSED_AS(path, m));
    else if (i >= m.ids)
        PROMISE(REFUSED(path, 8, i, 0) && REFUSED(base, 8, i, 0) && REFUSED(member, 8, i, 0));
    else
        PROMISE(path.number == 0);
    if (row != NULL) {
        PROMISE(row->path == path.start && row->path_length == path.length);
        PROMISE(row->base == base.start && row->base_length == base.length);
        PROMISE(row->member == member.start && row->member_length == member.length);
    }
}

static int sampled(uint64_t i, uint64_t n)
{
    return i < SAMPLE || i + 1 == n || random_number() % n < 4;
}

static void tables(xcoff_module_answer m)
{
    const xcoff_loader_symbol_row *symbol;
    const xcoff_relocation_row *entry;
    const xcoff_import_row *id;
    uint64_t i;
    step = "tables";
    symbol = (const void *)table(m, xcoff_loader_symbol_table, 9 * m.symbols);
    for (i = 0; i < m.symbols; i++) {
        PROMISE(symbol[i].index == i + 3);
        PROMISE(symbol[i].name <= length && symbol[i].name_length <= length - symbol[i].name);
        if (sampled(i, m.symbols))
            one_loader_symbol(m, i + 3, symbol + i);
    }
    id = (const void *)table(m, xcoff_import_table, 6 * m.ids);
    for (i = 0; i < m.ids; i++)
        if (sampled(i, m.ids))
            one_import(m, i, id + i);
    entry = (const void *)table(m, xcoff_relocation_table, 8 * m.relocations);
    for (i = 0; i < m.relocations; i++) {
        xcoff_part part = entry[i].in_text ? m.text : m.data;
        uint64_t size = entry[i].in_text ? m.text.size : m.image;
        PROMISE(entry[i].in_text <= 1 && entry[i].subtracts <= 1 && (entry[i].width == 4 || entry[i].width == 8));
        PROMISE(entry[i].scnum == part.number && entry[i].address == part.address + entry[i].offset);
        PROMISE(entry[i].offset <= size && entry[i].width <= size - entry[i].offset && entry[i].symbol < 3 + m.symbols);
    }
    for (i = 0; i < 3; i++) {
        one_loader_symbol(m, i < 1 ? 2 : any_number(), NULL);
        one_import(m, i < 1 ? m.ids : any_number(), NULL);
    }
}

static uint64_t loader_at(xcoff_open_answer o)
{
    uint64_t n;
    for (n = 1; n <= o.sections; n++) {
        xcoff_section_answer s = xcoff_section(file, length, n);
        if (s.flag == 0x1000)
            return s.scnptr;
    }
    return 0;
}

/* Whether the offset of a module's own refusal is right; of entries, that one at this place lies whole in the file. */
static int module_offset(xcoff_open_answer o, xcoff_module_answer m)
{
    uint64_t entry = m.number == 16 ? 24 : is_64() ? 16 : 12;
    switch (m.number) {
    case 3: return m.offset == (m.item == 2 || m.item == 3 ? loader_at(o) : 0);
    case 6: return m.offset == header_at(m.item);
    case 13: return m.offset == 0;
    case 14: return m.offset == header_at(m.item) || m.offset + entry <= length;
    case 15: return m.offset == loader_at(o);
    default: return m.offset >= loader_at(o) && m.offset + entry <= length;
    }
}

static xcoff_module_answer module(xcoff_open_answer o)
{
    xcoff_module_answer m = xcoff_module(file, length);
    step = "module";
    ANSWER(m);
    if (o.number != 0)
        PROMISE(REFUSED_AS(m, o));
    else if (m.number != 0)
        PROMISE(module_offset(o, m));
    if (m.number == 0) {
        PROMISE(m.bits == o.bits && m.symbols <= 70000 && m.relocations <= 100000 && m.image <= 16777216);
        PROMISE(m.text.size <= length && m.data.size <= length && m.image >= m.data.size);
        PROMISE(m.image == (m.bss.size == 0 && m.image == m.data.size ? m.image : m.bss.address - m.data.address + m.bss.size));
        PROMISE(m.entry.section <= o.sections && m.toc.section <= o.sections);
    }
    return m;
}

/* ---- images */

typedef struct plan {
    uint64_t text, data;
    uint64_t *list;
    size_t places;
} plan;

static xcoff_call_answer build(plan p, uint8_t *text, size_t tl, uint8_t *data, size_t dl)
{
    return xcoff_build(file, length, p.text, p.data, p.list, p.places, text, tl, data, dl);
}

static xcoff_call_answer move(plan p, plan q, uint8_t *text, size_t tl, uint8_t *data, size_t dl)
{
    return xcoff_move(file, length, p.text, p.data, p.list, p.places, q.text, q.data, q.list, q.places, text, tl, data, dl);
}

/* Buffers of other lengths, and no module at all: refused, and nothing written. */
static void refused_images(xcoff_module_answer m, plan p, size_t tl, size_t dl)
{
    int k;
    for (k = 0; k < 6; k++) {
        size_t t = k == 0 ? tl + 1 : k == 1 && tl > 0 ? tl - 1 : tl;
        size_t d = k == 2 ? dl + 1 : k == 3 && dl > 0 ? dl - 1 : dl;
        plan q = p;
        uint8_t *text, *data;
        xcoff_call_answer b, v;
        if (k == 4)
            q.places = p.places + 1;
        if (k == 5 && p.places > 0)
            q.places = p.places - 1;
        if (m.number == 0 && t == tl && d == dl && q.places == p.places)
            continue;
        q.list = lend(list_area, 8 * q.places);
        fill(q.list, 8 * q.places);
        text = lend(text_area, t);
        data = lend(data_area, d);
        fill(text, t);
        fill(data, d);
        b = build(q, text, t, data, d);
        v = move(q, q, text, t, data, d);
        ANSWER(b);
        ANSWER(v);
        PROMISE(b.number != 0 && v.number != 0);
        if (m.number != 0)
            PROMISE(REFUSED_AS(b, m) && REFUSED_AS(v, m));
        else
            PROMISE(b.number == 19 || b.number == 20);
        untouched(text, t);
        untouched(data, d);
        if (m.number != 0)
            break;
    }
}

/* Two plans: the recorded one, and another. Built, moved there and back, and both by a list of calls. */
static void images(xcoff_module_answer m)
{
    size_t tl = m.text.size, dl = m.image, places = m.symbols, i, k;
    uint8_t *text, *data, *text2, *data2;
    plan recorded, other;
    xcoff_call_answer a, b;
    xcoff_replay_answer r;
    xcoff_section_answer s;
    uint64_t *script;
    step = "images";
    recorded.places = other.places = places;
    recorded.text = m.text.address;
    recorded.data = m.data.address;
    if (m.number != 0 || (dl < HEAVY && random_number() % 4 == 0))
        refused_images(m, recorded, m.number != 0 ? 100 : tl, m.number != 0 ? 60 : dl);
    if (m.number != 0)
        return;
    recorded.list = lend(list_area, 8 * places);
    other.list = lend(list2_area, 8 * places);
    table(m, xcoff_loader_symbol_table, 9 * places);
    {
        const xcoff_loader_symbol_row *rows = lend(rows_area, 72 * places);
        for (i = 0; i < places; i++) {
            recorded.list[i] = rows[i].value;
            other.list[i] = random_number() & (m.bits == 32 ? UINT32_MAX : UINT64_MAX);
        }
    }
    text = lend(text_area, tl);
    data = lend(data_area, dl);
    text2 = lend(text2_area, tl);
    data2 = lend(data2_area, dl);
    fill(text, tl);
    fill(data, dl);
    step = "the recorded plan";
    a = build(recorded, text, tl, data, dl);
    ANSWER(a);
    PROMISE(a.number == 0);
    PROMISE(a.has_entry == (m.entry.section != 0) && a.has_toc == (m.toc.section != 0));
    PROMISE(!a.has_entry || a.entry == m.entry.address);
    PROMISE(!a.has_toc || a.toc == m.toc.address);
    s = xcoff_section(file, length, m.text.number);
    PROMISE(tl == 0 || memcmp(text, file + s.scnptr, tl) == 0);
    s = xcoff_section(file, length, m.data.number);
    PROMISE(m.data.size == 0 || memcmp(data, file + s.scnptr, m.data.size) == 0);
    for (i = m.data.size; i < dl; i++)
        PROMISE(data[i] == 0);
    if (dl >= HEAVY)
        return;

    for (k = 0; k < 2; k++) {
        /* Small steps, or any addresses at all; those that do not fit are refused. */
        uint64_t mask = m.bits == 32 ? UINT32_MAX : UINT64_MAX;
        other.text = k == 0 ? (random_number() & mask) >> 1 : any_number();
        other.data = k == 0 ? (random_number() & mask) >> 1 : any_number();
        step = "another plan";
        fill(text2, tl);
        fill(data2, dl);
        b = build(other, text2, tl, data2, dl);
        ANSWER(b);
        if (b.number != 0) {
            PROMISE(b.number == 19);
            untouched(text2, tl);
            untouched(data2, dl);
            a = move(other, recorded, text2, tl, data2, dl);
            PROMISE(REFUSED_AS(a, b));
            a = move(recorded, other, text2, tl, data2, dl);
            PROMISE(REFUSED_AS(a, b));
            untouched(text2, tl);
            untouched(data2, dl);
            continue;
        }
        note(text2, tl);
        note(data2, dl);
        step = "moved there and back";
        a = move(recorded, other, text, tl, data, dl);
        PROMISE(SAME(a, b));
        PROMISE(memcmp(text, text2, tl) == 0 && memcmp(data, data2, dl) == 0);
        a = move(other, recorded, text, tl, data, dl);
        PROMISE(a.number == 0);
        fill(text2, tl);
        fill(data2, dl);
        build(recorded, text2, tl, data2, dl);
        PROMISE(memcmp(text, text2, tl) == 0 && memcmp(data, data2, dl) == 0);
        step = "any bytes moved there and back";
        fill(text2, tl);
        fill(data2, dl);
        a = move(recorded, other, text2, tl, data2, dl);
        b = move(other, recorded, text2, tl, data2, dl);
        PROMISE(a.number == 0 && b.number == 0);
        untouched(text2, tl);
        untouched(data2, dl);
        step = "a list of calls";
        script = lend(script_area, 8 * (2 + 3 * (3 + places)));
        script[0] = 0;
        script[1 + 3 + places] = any_number() | 1;
        for (i = 0; i < 3; i++) {
            plan p = i == 2 ? other : recorded;
            uint64_t *numbers = script + (i == 0 ? 1 : 2 + i * (3 + places));
            numbers[0] = p.text;
            numbers[1] = p.data;
            numbers[2] = places;
            memcpy(numbers + 3, p.list, 8 * places);
        }
        fill(text2, tl);
        fill(data2, dl);
        r = xcoff_replay(file, length, script, 1 + 3 * (3 + places), text2, tl, data2, dl);
        a = build(recorded, text, tl, data, dl);
        PROMISE(r.calls == 1 && r.accepted == 1 && memcmp(&r, &a, sizeof a) == 0);
        PROMISE(memcmp(text, text2, tl) == 0 && memcmp(data, data2, dl) == 0);
        fill(text2, tl);
        fill(data2, dl);
        r = xcoff_replay(file, length, script, 2 + 3 * (3 + places), text2, tl, data2, dl);
        a = move(recorded, other, text, tl, data, dl);
        PROMISE(r.calls == 2 && r.accepted == 2 && memcmp(&r, &a, sizeof a) == 0);
        PROMISE(memcmp(text, text2, tl) == 0 && memcmp(data, data2, dl) == 0);
        a = move(other, recorded, text, tl, data, dl);
        PROMISE(a.number == 0);
    }
}

/* ---- records */

static xcoff_length_answer records_length(plan p)
{
    return xcoff_records_length(file, length, p.text, p.data, p.list, p.places);
}

static xcoff_verdict write_records(plan p, const uint8_t *text, size_t tl, const uint8_t *data, size_t dl, uint8_t *records, size_t n)
{
    return xcoff_write_records(file, length, p.text, p.data, p.list, p.places, text, tl, data, dl, records, n);
}

static xcoff_verdict read_records(plan p, const uint8_t *records, size_t n, uint8_t *text, size_t tl, uint8_t *data, size_t dl)
{
    return xcoff_read_records(file, length, p.text, p.data, p.list, p.places, records, n, text, tl, data, dl);
}

static size_t line(char *out, char type, uint64_t address, const uint8_t *data, size_t n)
{
    unsigned long at = (unsigned long)address;
    unsigned sum = (unsigned)(n + 5 + (at >> 24 & 255) + (at >> 16 & 255) + (at >> 8 & 255) + (at & 255));
    size_t end = (size_t)sprintf(out, "S%c%02X%08lX", type, (unsigned)n + 5, at), i;
    for (i = 0; i < n; i++) {
        end += (size_t)sprintf(out + end, "%02X", data[i]);
        sum += data[i];
    }
    return end + (size_t)sprintf(out + end, "%02X\n", 255 - sum % 256);
}

/* Whether the lines of an image stand there; `*at` goes on behind them. */
static int lines_are(const uint8_t *records, size_t *at, uint64_t address, const uint8_t *image, size_t n)
{
    char expected[128];
    size_t i, k;
    for (i = 0; i < n; i += 32) {
        k = line(expected, '3', address + i, image + i, n - i < 32 ? n - i : 32);
        if (memcmp(records + *at, expected, k) != 0)
            return 0;
        *at += k;
    }
    return 1;
}

static uint64_t newlines(const uint8_t *bytes, size_t n)
{
    uint64_t count = 0;
    while (n-- > 0)
        count += bytes[n] == '\n';
    return count;
}

/* What a refused call must leave: both image buffers as they were filled. */
static void refused_records(plan p, const uint8_t *records, size_t n, size_t tl, size_t dl, uint64_t bad)
{
    uint8_t *text = lend(text2_area, tl), *data = lend(data2_area, dl);
    xcoff_verdict v;
    fill(text, tl);
    fill(data, dl);
    v = read_records(p, records, n, text, tl, data, dl);
    ANSWER(v);
    PROMISE(REFUSED(v, 22, bad, 0));
    untouched(text, tl);
    untouched(data, dl);
}

/* A text that is too short, too long, or has a wrong byte: the refusal names the line. `good` is the right one. */
static void bad_records(plan p, const uint8_t *good, size_t n, size_t tl, size_t dl)
{
    size_t at = random_number() % n;
    uint64_t before = newlines(good, at), all = newlines(good, n);
    uint8_t *records = lend(records_area, at);
    step = "bad records";
    memcpy(records, good, at);
    refused_records(p, records, at, tl, dl, before + 1);
    records = lend(records_area, n);
    memcpy(records, good, n);
    records[at] ^= 1 + random_number() % 255;
    refused_records(p, records, n, tl, dl, before + 1);
    records = lend(records_area, n + 1);
    memcpy(records, good, n);
    records[n] = (uint8_t)any_number();
    refused_records(p, records, n + 1, tl, dl, all + 1);
    refused_records(p, file, length, tl, dl, 1);
}

/* Any room but the right one is refused, the images' first. */
static void room_for_records(plan p, const uint8_t *text, size_t tl, const uint8_t *data, size_t dl, size_t n)
{
    int by;
    step = "room for records";
    for (by = -1; by <= 1; by += 2) {
        uint8_t *records = lend(records_area, n + by);
        xcoff_verdict v;
        fill(records, n + by);
        v = write_records(p, text, tl, data, dl, records, n + by);
        PROMISE(REFUSED(v, 20, 0, 0));
        v = write_records(p, text, tl, data, dl - (dl > 0), records, n + by);
        PROMISE(dl > 0 ? REFUSED(v, 20, 1, 0) : REFUSED(v, 20, 0, 0));
        v = read_records(p, records, n + by, NULL, 0, NULL, 0);
        PROMISE(tl > 0 ? REFUSED(v, 20, 0, 0) : dl > 0 ? REFUSED(v, 20, 1, 0) : v.number == 22);
        untouched(records, n + by);
    }
}

/* The images of an accepted plan as lines, and read back. */
static void good_records(plan p, uint64_t entry, const uint8_t *text, size_t tl, const uint8_t *data, size_t dl, size_t n)
{
    static uint8_t kept[4 * HEAVY];
    uint8_t *records = lend(records_area, n), *text2 = lend(text2_area, tl), *data2 = lend(data2_area, dl);
    char last[128];
    size_t at = 0;
    xcoff_verdict v;
    step = "records written";
    fill(records, n);
    v = write_records(p, text, tl, data, dl, records, n);
    ANSWER(v);
    PROMISE(v.number == 0);
    note(records, n);
    PROMISE(lines_are(records, &at, p.text, text, tl) && lines_are(records, &at, p.data, data, dl));
    PROMISE(n - at == line(last, '7', entry, NULL, 0) && memcmp(records + at, last, n - at) == 0);
    step = "records read";
    fill(text2, tl);
    fill(data2, dl);
    v = read_records(p, records, n, text2, tl, data2, dl);
    PROMISE(v.number == 0);
    PROMISE(memcmp(text, text2, tl) == 0 && memcmp(data, data2, dl) == 0);
    memcpy(kept, records, n);
    bad_records(p, kept, n, tl, dl);
}

/* No plan for records: all three calls say why, and nothing is written. */
static void no_records(plan p, size_t tl, size_t dl, uint64_t number, uint64_t item, uint64_t offset)
{
    uint8_t *records = lend(records_area, 100), *text = lend(text2_area, tl), *data = lend(data2_area, dl);
    xcoff_length_answer n = records_length(p);
    xcoff_verdict w, r;
    fill(records, 100);
    fill(text, tl);
    fill(data, dl);
    w = write_records(p, text, tl, data, dl, records, 100);
    r = read_records(p, records, 100, text, tl, data, dl);
    ANSWER(n);
    PROMISE(REFUSED(n, number, item, offset) && REFUSED_AS(w, n) && REFUSED_AS(r, n));
    untouched(records, 100);
    untouched(text, tl);
    untouched(data, dl);
}

static int share_an_address(uint64_t a, uint64_t n, uint64_t b, uint64_t k)
{
    return n > 0 && k > 0 && a < b + k && b < a + n;
}

/* A plan: the recorded addresses; data right behind text, or one byte sooner; any addresses. */
static plan records_plan(xcoff_module_answer m, int kind)
{
    plan p;
    size_t i;
    p.places = m.symbols;
    p.list = lend(list_area, 8 * p.places);
    for (i = 0; i < p.places; i++)
        p.list[i] = random_number() & UINT32_MAX;
    p.text = kind == 0 ? m.text.address : kind == 3 ? any_number() : random_number() & UINT32_MAX;
    p.data = kind == 0 ? m.data.address : kind == 3 ? any_number() : p.text + m.text.size - (kind == 2);
    return p;
}

static void records_of(xcoff_module_answer m, plan p)
{
    size_t tl = m.text.size, dl = m.image, n = 15 * ((tl + 31) / 32 + (dl + 31) / 32 + 1) + 2 * (tl + dl);
    uint8_t *text = lend(text_area, tl), *data = lend(data_area, dl);
    xcoff_call_answer b;
    xcoff_length_answer l;
    step = "records";
    fill(text, tl);
    fill(data, dl);
    b = build(p, text, tl, data, dl);
    if (b.number != 0)
        no_records(p, tl, dl, b.number, b.item, b.offset);
    else if (m.bits == 64)
        no_records(p, tl, dl, 23, 0, 0);
    else if (share_an_address(p.text, tl, p.data, dl))
        no_records(p, tl, dl, 24, 0, 0);
    else {
        l = records_length(p);
        ANSWER(l);
        PROMISE(l.number == 0 && l.length == n);
        room_for_records(p, text, tl, data, dl, n);
        good_records(p, b.has_entry ? b.entry : 0, text, tl, data, dl, n);
    }
}

static void records(xcoff_module_answer m)
{
    plan p = records_plan(m, 0);
    if (m.number != 0) {
        no_records(p, 100, 60, m.number, m.item, m.offset);
        return;
    }
    if (m.text.size + m.image >= HEAVY)
        return;
    records_of(m, p);
    records_of(m, records_plan(m, 1 + (int)(random_number() % 3)));
}

/* ---- the address table */

#define TABLE_BYTES (8 * (size_t)XCOFF_TABLE_NUMBERS)

/* What a row is found by: names of the module's imports, and parts of the input. */
typedef struct row_key {
    uint64_t bench, file_id;
    const uint8_t *name;
    size_t length;
} row_key;

static row_key any_key(xcoff_module_answer m)
{
    row_key k = {1 + random_number() % 2, random_number() % 3, file, random_number() % 35};
    if (k.length > length)
        k.length = length;
    k.name = file + random_number() % (length - k.length + 1);
    if (m.number == 0 && m.symbols > 0 && random_number() % 2 == 0) {
        uint64_t i = 3 + random_number() % m.symbols;
        xcoff_name_answer n = xcoff_loader_symbol_name(file, length, i);
        k.file_id = xcoff_loader_symbol(file, length, i).ifile;
        k.name = file + n.start;
        k.length = n.length;
    }
    if (random_number() % 16 == 0)
        k.bench = any_number();
    return k;
}

/* The refusal of the key itself. */
static uint64_t key_number(row_key k)
{
    return k.bench != 1 && k.bench != 2 ? 8 : k.length < 1 || k.length > 32 ? 28 : 0;
}

static int names_row(row_key k, const xcoff_table_row *row)
{
    uint8_t name[32];
    size_t i;
    for (i = 0; i < 32; i++)
        name[i] = (uint8_t)(row->name[i / 8] >> (56 - 8 * (i % 8)));
    return row->file_id == k.file_id && row->name_length == k.length && memcmp(name, k.name, k.length) == 0;
}

/* A bench's rows into exactly as many places. */
static size_t rows_of(const uint64_t *table, uint64_t bench, uint64_t *rows)
{
    xcoff_count_answer c = xcoff_table_count(table, bench);
    xcoff_verdict v = xcoff_table_rows(table, bench, rows, 7 * c.count + 1);
    PROMISE(c.number == 0 && c.count <= 512 && REFUSED(v, 20, 0, 0));
    v = xcoff_table_rows(table, bench, rows, 7 * c.count);
    PROMISE(v.number == 0);
    note(rows, 56 * c.count);
    return c.count;
}

/* The same call by a list of one, whose numbers have more than the name's bytes: cut by a number it is not run. */
static void call_of_list(const uint64_t *before, const uint64_t *after, row_key k, int adds, uint64_t address, xcoff_verdict v)
{
    static uint64_t table[XCOFF_TABLE_NUMBERS];
    size_t n = 4 + k.length + (adds ? 1 : 0), i;
    uint64_t *script;
    xcoff_table_replay_answer r;
    if (k.length > 64)
        return;
    script = lend(script_area, 8 * n);
    script[0] = adds ? 0 : 1;
    script[1] = k.bench;
    script[2] = k.file_id;
    script[3] = k.length;
    for (i = 0; i < k.length; i++)
        script[4 + i] = random_number() << 8 | k.name[i];
    if (adds)
        script[n - 1] = address;
    memcpy(table, before, TABLE_BYTES);
    r = xcoff_table_replay(file, length, script, n - 1, table, NULL, 0);
    PROMISE(r.number == 0 && r.calls == 0 && r.accepted == 0 && memcmp(table, before, TABLE_BYTES) == 0);
    r = xcoff_table_replay(file, length, script, n, table, NULL, 0);
    PROMISE(REFUSED_AS(r, v) && r.calls == 1 && r.accepted == (v.number == 0) && memcmp(table, after, TABLE_BYTES) == 0);
}

/* One call on the table: what it answers, and what it leaves of both benches' rows. */
static void table_call(xcoff_module_answer m, uint64_t *table)
{
    static uint64_t before[XCOFF_TABLE_NUMBERS], own[7 * 512 + 1], other[7 * 512 + 1], rows[7 * 512 + 1];
    row_key k = any_key(m);
    uint64_t number = key_number(k), address = any_number();
    size_t n = number == 8 ? 0 : rows_of(table, k.bench, own), others = number == 8 ? 0 : rows_of(table, 3 - k.bench, other), i, left;
    xcoff_address_answer a = xcoff_table_find(table, k.bench, k.file_id, k.name, k.length);
    xcoff_verdict v;
    int there = 0, adds = random_number() % 3 != 0;
    for (i = 0; i < n; i++)
        there |= number == 0 && names_row(k, (const xcoff_table_row *)own + i) &&
                 ((const xcoff_table_row *)own)[i].address == a.address;
    ANSWER(a);
    PROMISE(a.number == (number != 0 ? number : there ? 0 : 27) && a.item == (number == 8 ? k.bench : 0));
    memcpy(before, table, TABLE_BYTES);
    v = adds ? xcoff_table_add(table, k.bench, k.file_id, k.name, k.length, address)
             : xcoff_table_remove(table, k.bench, k.file_id, k.name, k.length);
    ANSWER(v);
    PROMISE(v.number == (number != 0 ? number : adds ? (!there && n + others == 512 ? 26 : 0) : there ? 0 : 27));
    if (v.number != 0)
        PROMISE(memcmp(before, table, TABLE_BYTES) == 0);
    call_of_list(before, table, k, adds, address, v);
    if (number == 8)
        return;
    left = rows_of(table, 3 - k.bench, rows);
    PROMISE(left == others && memcmp(rows, other, 56 * left) == 0);
    left = rows_of(table, k.bench, rows);
    PROMISE(left == n + (v.number == 0 && adds && !there) - (v.number == 0 && !adds));
    a = xcoff_table_find(table, k.bench, k.file_id, k.name, k.length);
    if (v.number == 0)
        PROMISE(adds ? a.number == 0 && a.address == address : a.number == 27);
}

/* A fill: each place is the row's address, the recorded value or 0. */
static void filled(xcoff_module_answer m, const uint64_t *table)
{
    size_t n = m.number == 0 ? m.symbols : 5, i;
    uint64_t *list = lend(list_area, 8 * n);
    xcoff_verdict v;
    fill(list, 8 * n);
    v = xcoff_table_fill(file, length, table, 3, list, n);
    PROMISE(REFUSED(v, 8, 3, 0));
    v = xcoff_table_fill(file, length, table, 1, list, n);
    ANSWER(v);
    PROMISE(REFUSED_AS(v, m));
    if (v.number != 0) {
        untouched(list, 8 * n);
        return;
    }
    note(list, 8 * n);
    for (i = 0; i < n; i++) {
        xcoff_loader_symbol_answer y;
        xcoff_name_answer name;
        xcoff_address_answer a;
        if (!(i < SAMPLE || i + 1 == n))
            continue;
        y = xcoff_loader_symbol(file, length, i + 3);
        name = xcoff_loader_symbol_name(file, length, i + 3);
        a = xcoff_table_find(table, 1, y.ifile, file + name.start, name.length);
        PROMISE(list[i] == (!(y.smtype & 0x40) || y.ifile == 0 ? 0 : a.number == 0 ? a.address : y.value));
    }
    list = lend(list_area, 8 * (n + 1));
    fill(list, 8 * (n + 1));
    v = xcoff_table_fill(file, length, table, 1, list, n + 1);
    PROMISE(REFUSED(v, 20, 2, 0));
    untouched(list, 8 * (n + 1));
}

/* A list of calls from an empty table, and the input as a table. */
static void address_table(xcoff_module_answer m)
{
    uint64_t *table = lend(table_area, TABLE_BYTES);
    size_t i;
    step = "the address table";
    memset(table, 0, TABLE_BYTES);
    PROMISE(xcoff_table_count(table, 1).count == 0 && xcoff_table_count(table, 2).count == 0);
    for (i = 0; i < 24; i++)
        table_call(m, table);
    filled(m, table);
    note(table, TABLE_BYTES);
    step = "the input as a table";
    for (i = 0; i < XCOFF_TABLE_NUMBERS; i++)
        table[i] = 8 * i + 8 <= length ? number_at(8 * i, 8) % (i % 3 == 0 ? 3 : 40) : random_number() % 40;
    filled(m, table);
    PROMISE(xcoff_table_count(table, 1).count + xcoff_table_count(table, 2).count <= 512);
    for (i = 0; i < 4; i++) {
        row_key k = any_key(m);
        xcoff_verdict v = xcoff_table_add(table, k.bench, k.file_id, k.name, k.length, i);
        ANSWER(v);
        if (v.number == 0)
            PROMISE(xcoff_table_find(table, k.bench, k.file_id, k.name, k.length).address == i);
    }
}

/* The input as a sheet, and a sheet of its own. */
static void sheets(void)
{
    xcoff_sheet_answer h = xcoff_sheet_head(file, length), r;
    xcoff_verdict v;
    uint64_t *list, *again;
    uint8_t *sheet;
    size_t n, k;
    step = "sheets";
    ANSWER(h);
    PROMISE(h.count <= (length > 1 && file[1] == 2 ? 4096 : 70000) && h.offset == 0);
    for (k = 0; k < 2; k++) {
        list = lend(list_area, 8 * (h.count + k));
        fill(list, 8 * (h.count + k));
        r = xcoff_read_sheet(file, length, list, h.count + k);
        ANSWER(r);
        if (h.number != 0)
            PROMISE(REFUSED_AS(r, h));
        else
            PROMISE(k == 0 ? SAME(r, h) : REFUSED(r, 20, 2, 0));
        if (r.number != 0)
            untouched(list, 8 * (h.count + k));
    }
    if (h.number == 0) {
        /* There is one new sheet for a plan: written again, it is the input, or that with two zeros before each count. */
        list = lend(list_area, 8 * h.count);
        xcoff_read_sheet(file, length, list, h.count);
        sheet = lend(sheet_area, 24 + 8 * h.count);
        v = xcoff_write_sheet(h.text, h.data, list, h.count, sheet, 24 + 8 * h.count);
        PROMISE(v.number == 0);
        if (file[1] == 0)
            PROMISE(length == 24 + 8 * h.count && memcmp(sheet, file, length) == 0);
        else {
            PROMISE(length == 20 + 8 * h.count && memcmp(sheet, "\0\0\0\2", 4) == 0 && memcmp(sheet + 2, file, 18) == 0);
            PROMISE(memcmp(sheet + 20, "\0\0", 2) == 0 && memcmp(sheet + 22, file + 18, length - 18) == 0);
        }
    }
    n = random_number() % 12;
    list = lend(list_area, 8 * n);
    for (k = 0; k < n; k++)
        list[k] = any_number();
    sheet = lend(sheet_area, 24 + 8 * n + 1);
    fill(sheet, 24 + 8 * n + 1);
    v = xcoff_write_sheet(state, ~state, list, n, sheet, 24 + 8 * n + 1);
    PROMISE(REFUSED(v, 20, 0, 0));
    untouched(sheet, 24 + 8 * n + 1);
    sheet = lend(sheet_area, 24 + 8 * n);
    v = xcoff_write_sheet(state, ~state, list, n, sheet, 24 + 8 * n);
    again = lend(list2_area, 8 * n);
    r = xcoff_read_sheet(sheet, 24 + 8 * n, again, n);
    PROMISE(v.number == 0 && r.number == 0 && r.text == state && r.data == ~state && r.count == n);
    PROMISE(memcmp(list, again, 8 * n) == 0);
}

/* How many calls a list of n numbers has, up to where it is cut short. */
static uint64_t calls_in(const uint64_t *script, size_t n)
{
    uint64_t calls = 0;
    size_t at = 0;
    for (;;) {
        int plans = at < n && script[at] != 0 ? 2 : 1;
        for (at++; plans > 0; plans--) {
            if (at + 3 > n || script[at + 2] > n - (at + 3))
                return calls;
            at += 3 + script[at + 2];
        }
        calls++;
    }
}

static void input_as_calls(xcoff_module_answer m)
{
    size_t tl = m.number == 0 ? m.text.size : 50, dl = m.number == 0 ? m.image : 70, n = length / 8, k;
    uint64_t *script = lend(script_area, 8 * n);
    uint8_t *text = lend(text_area, tl), *data = lend(data_area, dl);
    xcoff_replay_answer r;
    step = "the input as a list of calls";
    memcpy(script, file, 8 * n);
    for (k = 0; k + 4 < n && k < 5; k++)
        script[k] %= 5;
    fill(text, tl);
    fill(data, dl);
    r = xcoff_replay(file, length, script, n, text, tl, data, dl);
    PROMISE(r.calls == calls_in(script, n) && r.accepted <= r.calls && r.number <= 24);
    PROMISE(r.calls != 0 || r.number == 0);
    PROMISE(r.number == 0 || (r.accepted < r.calls && !r.has_entry && !r.entry && !r.has_toc && !r.toc));
    if (m.number != 0) {
        PROMISE(r.accepted == 0 && (r.calls == 0 || REFUSED_AS(r, m)));
        untouched(text, tl);
        untouched(data, dl);
    }
    NOTE(r);
    note(text, tl);
    note(data, dl);
}

/* ---- modules written as files */

static xcoff_verdict write_module(const uint8_t *from, plan p, uint8_t *output, size_t n)
{
    return xcoff_write_module(from, length, p.text, p.data, p.list, p.places, output, n);
}

/* The written file for another plan: built for a third it gives what the file gives, and back it is the file. */
static void rebuilt(xcoff_module_answer m, plan recorded, plan other, const uint8_t *output)
{
    size_t tl = m.text.size, dl = m.image;
    uint8_t *text = lend(text_area, tl), *data = lend(data_area, dl), *text2 = lend(text2_area, tl), *data2 = lend(data2_area, dl);
    uint8_t *back = lend(output2_area, length);
    xcoff_call_answer a, b;
    xcoff_verdict v;
    plan third = other;
    third.text = any_number();
    third.data = any_number();
    fill(text, tl);
    fill(data, dl);
    fill(text2, tl);
    fill(data2, dl);
    a = build(third, text, tl, data, dl);
    b = xcoff_build(output, length, third.text, third.data, third.list, third.places, text2, tl, data2, dl);
    PROMISE(SAME(a, b) && memcmp(text, text2, tl) == 0 && memcmp(data, data2, dl) == 0);
    a = build(other, text, tl, data, dl);
    PROMISE(a.number == 0);
    {
        xcoff_section_answer s = xcoff_section(output, length, m.text.number);
        PROMISE(s.paddr == other.text && s.vaddr == other.text && (tl == 0 || memcmp(text, output + s.scnptr, tl) == 0));
        s = xcoff_section(output, length, m.data.number);
        PROMISE(s.paddr == other.data && (m.data.size == 0 || memcmp(data, output + s.scnptr, m.data.size) == 0));
    }
    fill(back, length);
    v = write_module(output, recorded, back, length);
    PROMISE(v.number == 0 && memcmp(back, file, length) == 0);
}

/* For the recorded plan it is the file itself; for another its addresses are that one's. */
static void written(xcoff_module_answer m)
{
    size_t places = m.number == 0 ? m.symbols : 0, i;
    uint8_t *output = lend(output_area, length + 1);
    plan recorded = {m.text.address, m.data.address, NULL, 0}, other;
    xcoff_verdict v;
    xcoff_module_answer n;
    step = "a module written";
    recorded.places = places;
    recorded.list = lend(list_area, 8 * places);
    fill(output, length + 1);
    if (m.number == 0) {
        const xcoff_loader_symbol_row *rows = (const void *)table(m, xcoff_loader_symbol_table, 9 * places);
        for (i = 0; i < places; i++)
            recorded.list[i] = rows[i].value;
    }
    v = write_module(file, recorded, output, length + 1);
    ANSWER(v);
    PROMISE(m.number != 0 ? REFUSED_AS(v, m) : REFUSED(v, 29, 0, 0) || REFUSED(v, 20, 0, 0));
    untouched(output, length + 1);
    if (v.number != 20 || m.number != 0)
        return;
    output = lend(output_area, length);
    v = write_module(file, recorded, output, length);
    PROMISE(v.number == 0 && memcmp(output, file, length) == 0);
    if (m.image >= HEAVY)
        return;
    other = recorded;
    other.list = lend(list2_area, 8 * places);
    for (i = 0; i < places; i++)
        other.list[i] = random_number() & (m.bits == 32 ? UINT32_MAX : UINT64_MAX);
    other.text = any_number();
    other.data = any_number();
    fill(output, length);
    v = write_module(file, other, output, length);
    ANSWER(v);
    if (v.number != 0) {
        PROMISE(v.number == 19);
        untouched(output, length);
        return;
    }
    note(output, length);
    n = xcoff_module(output, length);
    PROMISE(n.number == 0 && n.text.address == other.text && n.data.address == other.data);
    PROMISE(n.image == m.image && n.symbols == m.symbols && n.relocations == m.relocations && n.ids == m.ids);
    rebuilt(m, recorded, other, output);
}

/* ---- salvage */

/* A field that a change may set: its place in the file, its length, and which bits of its first byte. */
typedef struct field {
    size_t at, bytes;
    uint8_t bits;
} field;

static field changed(uint64_t index, uint64_t number)
{
    size_t entry = symbol_at(index);
    field f = {entry + 14, 1, 0x70};
    switch (number) {
    case 9: f.at = entry + 17, f.bits = 0xFF; break;
    case 10: f.at = entry + (is_64() ? 8 : 4), f.bytes = 4, f.bits = 0xFF; break;
    case 11: f.at = entry + 12, f.bytes = 2, f.bits = 0xFF; break;
    default: PROMISE(number == 30);
    }
    return f;
}

static uint64_t word_of(const uint8_t *bytes)
{
    return (uint64_t)bytes[0] << 24 | (uint64_t)bytes[1] << 16 | (uint64_t)bytes[2] << 8 | bytes[3];
}

/* Puts the file's own bits back into the fields of a report; each was changed, and they come in order. */
static void unmend(uint8_t *copy, const uint8_t *report, uint64_t count)
{
    uint64_t i, before = 0;
    for (i = 0; i < count; i++, report += 8) {
        static const uint64_t checks[4] = {9, 11, 10, 30};
        uint64_t index = word_of(report), number = word_of(report + 4), place = 0;
        field f = changed(index, number);
        size_t k;
        int differs = 0;
        while (place < 3 && checks[place] != number)
            place++;
        PROMISE(i == 0 || 4 * index + place > before);
        before = 4 * index + place;
        for (k = 0; k < f.bytes; k++) {
            uint8_t bits = (uint8_t)((file[f.at + k] ^ copy[f.at + k]) & f.bits);
            differs |= bits;
            copy[f.at + k] ^= bits;
        }
        PROMISE(differs);
    }
}

/* The copy walks to the table's end, salvages as it is, and is the file but for the fields that the report tells of. */
static void copied(xcoff_open_answer o, xcoff_walk_answer t, uint64_t count)
{
    uint8_t *copy = lend(copy_area, length), *report = lend(report_area, 8 * count), *again = lend(text_area, length);
    xcoff_count_answer c = xcoff_salvage(file, length, copy, length, report, 8 * count);
    xcoff_open_answer other;
    xcoff_walk_answer w;
    PROMISE(c.number == 0 && c.count == count && (count > 0) == (t.cause.number != 0));
    PROMISE(count == 0 || (word_of(report) == t.end && word_of(report + 4) == t.cause.number));
    note(copy, length);
    note(report, 8 * count);
    other = xcoff_open(copy, length);
    PROMISE(SAME(other, o));
    w = xcoff_walk(copy, length);
    PROMISE(w.number == 0 && w.cause.number == 0 && w.end == o.symbols);
    c = xcoff_salvage(copy, length, again, length, NULL, 0);
    PROMISE(c.number == 0 && c.count == 0 && memcmp(again, copy, length) == 0);
    unmend(copy, report, count);
    PROMISE(memcmp(copy, file, length) == 0);
}

static void salvage(xcoff_open_answer o)
{
    xcoff_walk_answer t = xcoff_walk(file, length);
    xcoff_count_answer n = xcoff_salvage_count(file, length), c;
    uint8_t *copy = lend(copy_area, length + 1), *report = lend(report_area, 40);
    size_t room = n.number == 0 && n.count > 0 ? (8 * n.count > 40 ? 40 : 8 * n.count - 1) : 40;
    step = "salvage";
    ANSWER(n);
    PROMISE(o.number != 0 ? REFUSED_AS(n, o) : n.number == 0 || (REFUSED(n, 29, 0, 0) && o.symbols > 0));
    fill(copy, length + 1);
    fill(report, 40);
    c = xcoff_salvage(file, length, copy, length + 1, report, 40);
    PROMISE(n.number != 0 ? REFUSED_AS(c, n) : REFUSED(c, 20, 0, 0));
    if (n.number != 0 || n.count > 0) {
        c = xcoff_salvage(file, length, copy, length, report, room);
        PROMISE(n.number != 0 ? REFUSED_AS(c, n) : REFUSED(c, 3, 5, 0));
        PROMISE(c.count == 0);
    }
    untouched(copy, length + 1);
    untouched(report, 40);
    if (n.number == 0)
        copied(o, t, n.count);
}

/* ---- object files */

static int is_held(xcoff_section_answer s)
{
    return s.flag == 0x20 || s.flag == 0x40;
}

/* The entries of one section into exactly as many places: each field lies in its own section, at its own place. */
static void object_entries(xcoff_object_answer a, uint64_t n, xcoff_object_section_row own)
{
    xcoff_section_answer s = xcoff_section(file, length, n);
    size_t room = 6 * own.entries, i;
    uint64_t *numbers = lend(rows_area, 8 * (room + 1));
    const xcoff_object_entry_row *rows = (const void *)numbers;
    xcoff_verdict v;
    fill(numbers, 8 * (room + 1));
    v = xcoff_object_entries(file, length, n, numbers, room + 1);
    ANSWER(v);
    if (a.number != 0)
        PROMISE(REFUSED_AS(v, a));
    else if (s.number != 0 || !is_held(s))
        PROMISE(REFUSED(v, 8, n, 0));
    else
        PROMISE(REFUSED(v, 20, 0, 0));
    untouched(numbers, 8 * (room + 1));
    if (a.number != 0 || s.number != 0 || !is_held(s))
        return;
    numbers = lend(rows_area, 8 * room);
    rows = (const void *)numbers;
    PROMISE(xcoff_object_entries(file, length, n, numbers, room).number == 0);
    note(numbers, 8 * room);
    for (i = 0; i < own.entries; i++) {
        size_t at = own.table + i * (is_64() ? 14 : 10);
        PROMISE(rows[i].address == number_at(at, is_64() ? 8 : 4) && rows[i].symbol == number_at(at + (is_64() ? 8 : 4), 4));
        PROMISE(rows[i].rsize == file[at + (is_64() ? 12 : 8)] && rows[i].rtype == file[at + (is_64() ? 13 : 9)]);
        PROMISE(xcoff_symbol(file, length, rows[i].symbol).number == 0);
        if (rows[i].rtype == 0x0F) {
            PROMISE(rows[i].width == 0 && rows[i].place == 0);
            continue;
        }
        PROMISE(rows[i].width == (rows[i].rsize & 0x3F) + 1);
        PROMISE(rows[i].place == own.place + (rows[i].address - s.paddr));
        PROMISE(rows[i].place >= own.place && rows[i].place - own.place + (rows[i].width == 64 ? 8 : 4) <= own.size);
    }
}

/* The tables: places and entries go on from section to section. */
static const xcoff_object_section_row *object_tables(xcoff_object_answer a)
{
    size_t room = 5 * a.sections;
    uint64_t *numbers = lend(records_area, 8 * (room + 1));
    const xcoff_object_section_row *rows;
    uint64_t n, place = 0, entries = 0;
    xcoff_verdict v;
    fill(numbers, 8 * (room + 1));
    v = xcoff_object_sections(file, length, numbers, room + 1);
    ANSWER(v);
    PROMISE(a.number != 0 ? REFUSED_AS(v, a) : REFUSED(v, 20, 0, 0));
    untouched(numbers, 8 * (room + 1));
    numbers = lend(records_area, 8 * room);
    rows = (const void *)numbers;
    if (a.number == 0)
        PROMISE(xcoff_object_sections(file, length, numbers, room).number == 0);
    note(numbers, 8 * room);
    for (n = 1; n <= a.sections; n++) {
        xcoff_section_answer s = xcoff_section(file, length, n);
        const xcoff_object_section_row *row = rows + (n - 1);
        if (is_held(s)) {
            PROMISE(row->place == place && row->first == entries && row->size == s.size && row->table == s.relptr);
            PROMISE(row->table <= length && row->entries <= (length - row->table) / (is_64() ? 14 : 10));
        } else {
            PROMISE(row->size == 0 && row->table == 0 && row->entries == 0);
        }
        place += row->size;
        entries += row->entries;
        object_entries(a, n, *row);
    }
    PROMISE(place == a.length && entries == a.entries);
    return rows;
}

/* The buffer as the file has it: every branch stays in range there. */
static uint8_t *object_raw(xcoff_object_answer a, const uint64_t *recorded)
{
    uint8_t *buffer = lend(text_area, a.length);
    uint64_t n;
    size_t at = 0;
    PROMISE(xcoff_build_object(file, length, recorded, a.sections, buffer, a.length).number == 0);
    for (n = 1; n <= a.sections; n++) {
        xcoff_section_answer s = xcoff_section(file, length, n);
        if (!is_held(s))
            continue;
        PROMISE(s.size == 0 || memcmp(buffer + at, file + s.scnptr, s.size) == 0);
        at += s.size;
    }
    return buffer;
}

/* Built for a plan, moved back, and both in one list; what is refused changes nothing. */
static void object_placed(xcoff_object_answer a, const uint64_t *recorded, const uint64_t *plan)
{
    uint8_t *raw = object_raw(a, recorded), *built = lend(data_area, a.length), *other = lend(data2_area, a.length);
    size_t k = a.sections, n = 3 * (k + 1) + 2, i = 0;
    uint64_t *script = lend(script_area, 8 * n);
    xcoff_object_replay_answer r;
    xcoff_verdict v, w;
    fill(built, a.length);
    v = xcoff_build_object(file, length, plan, k, built, a.length);
    ANSWER(v);
    PROMISE(v.number == 0 || (v.number == 19 && v.item >= 1 && v.item <= k && v.offset == 0) || (v.number == 25 && v.item < a.entries && v.offset != 0));
    if (v.number != 0)
        untouched(built, a.length);
    note(built, a.length);
    memcpy(other, raw, a.length);
    w = xcoff_move_object(file, length, recorded, k, plan, k, other, a.length);
    ANSWER(w);
    PROMISE(REFUSED_AS(w, v));
    PROMISE(memcmp(other, v.number == 0 ? built : raw, a.length) == 0);
    script[i++] = 0;
    script[i++] = k;
    memcpy(script + i, recorded, 8 * k);
    i += k;
    script[i++] = 1 + random_number() % 9;
    script[i++] = k;
    memcpy(script + i, recorded, 8 * k);
    i += k;
    script[i++] = k;
    memcpy(script + i, plan, 8 * k);
    fill(other, a.length);
    r = xcoff_replay_object(file, length, script, n, other, a.length);
    PROMISE(r.calls == 2 && r.accepted == 1 + (v.number == 0) && REFUSED_AS(r, v));
    PROMISE(memcmp(other, v.number == 0 ? built : raw, a.length) == 0);
    if (n > 3 && k > 0) {
        r = xcoff_replay_object(file, length, script, n - 1, other, a.length);
        PROMISE(r.calls == 1 && r.accepted == 1 && r.number == 0 && memcmp(other, raw, a.length) == 0);
    }
    if (v.number == 0) {
        PROMISE(xcoff_move_object(file, length, plan, k, recorded, k, built, a.length).number == 0);
        PROMISE(memcmp(built, raw, a.length) == 0);
    }
}

/* Room and lists that do not fit. */
static void object_refused(xcoff_object_answer a, const uint64_t *recorded)
{
    size_t k = a.sections, size = a.length + 1;
    uint8_t *buffer = lend(text2_area, size);
    uint64_t *list = lend(list2_area, 8 * (k + 1));
    xcoff_verdict v;
    memset(list, 0, 8 * (k + 1));
    fill(buffer, size);
    v = xcoff_build_object(file, length, list, k + 1, buffer, size);
    PROMISE(a.number != 0 ? REFUSED_AS(v, a) : REFUSED(v, 20, 2, 0));
    v = xcoff_move_object(file, length, recorded, k, list, k + 1, buffer, size);
    PROMISE(a.number != 0 ? REFUSED_AS(v, a) : REFUSED(v, 20, 2, 0));
    v = xcoff_build_object(file, length, recorded, k, buffer, size);
    PROMISE(a.number != 0 ? REFUSED_AS(v, a) : REFUSED(v, 20, 0, 0));
    untouched(buffer, size);
}

static void objects(xcoff_open_answer o)
{
    xcoff_object_answer a = xcoff_object(file, length);
    uint64_t *recorded = lend(list_area, 8 * a.sections), *plan = lend(table_area, 8 * a.sections);
    uint64_t n, round;
    xcoff_object_section_row none = {0, 0, 0, 0, 0};
    step = "objects";
    ANSWER(a);
    if (o.number != 0)
        PROMISE(REFUSED_AS(a, o));
    else if (a.number == 5)
        PROMISE(a.item != 0 && a.offset == header_at(a.item));
    else
        PROMISE(a.number == 0 || REFUSED(a, 13, 3, 0) || ((a.number == 17 || a.number == 18) && a.offset != 0));
    PROMISE(a.number != 0 || a.sections == o.sections);
    if (a.entries > 200000 || a.length > HEAVY)
        return;
    object_tables(a);
    object_entries(a, 0, none);
    object_entries(a, a.sections + 1, none);
    object_entries(a, a.number != 0 ? any_number() : UINT64_MAX, none);
    for (n = 1; n <= a.sections; n++)
        recorded[n - 1] = xcoff_section(file, length, n).paddr;
    object_refused(a, recorded);
    for (round = 0; a.number == 0 && round < 3; round++) {
        for (n = 0; n < a.sections; n++)
            plan[n] = round == 0 ? recorded[n] + 4 * (random_number() % 64) : round == 1 ? random_number() % 0x2000000 : any_number();
        object_placed(a, recorded, plan);
    }
}

static void nothing(void)
{
    xcoff_open_answer o = xcoff_open(NULL, 0);
    xcoff_walk_answer t = xcoff_symbol_table(NULL, 0, NULL, 0);
    xcoff_verdict v = xcoff_import_table(NULL, 0, NULL, 0);
    xcoff_length_answer l = xcoff_records_length(NULL, 0, 0, 0, NULL, 0);
    xcoff_verdict w = xcoff_write_records(NULL, 0, 0, 0, NULL, 0, NULL, 0, NULL, 0, NULL, 0);
    xcoff_verdict r = xcoff_read_records(NULL, 0, 0, 0, NULL, 0, NULL, 0, NULL, 0, NULL, 0);
    xcoff_line_answer f = xcoff_find_line(NULL, 0, 1, 0);
    xcoff_verdict b = xcoff_line_table(NULL, 0, 1, NULL, 0);
    step = "nothing";
    PROMISE(REFUSED(o, 1, 0, 0) && REFUSED(t, 1, 0, 0) && REFUSED(v, 1, 0, 0));
    PROMISE(REFUSED(l, 1, 0, 0) && REFUSED(w, 1, 0, 0) && REFUSED(r, 1, 0, 0));
    PROMISE(REFUSED(f, 1, 0, 0) && REFUSED(b, 1, 0, 0));
    PROMISE(xcoff_write_module(NULL, 0, 0, 0, NULL, 0, NULL, 0).number == 1);
    PROMISE(xcoff_salvage(NULL, 0, NULL, 0, NULL, 0).number == 1);
    PROMISE(xcoff_object(NULL, 0).number == 1 && xcoff_object_sections(NULL, 0, NULL, 0).number == 1);
    PROMISE(xcoff_build_object(NULL, 0, NULL, 0, NULL, 0).number == 1 && xcoff_replay_object(NULL, 0, NULL, 0, NULL, 0).calls == 0);
}

static uint64_t run(const uint8_t *input, size_t n)
{
    uint64_t both[2];
    for (at_the_end = 1; at_the_end >= 0; at_the_end--) {
        uint8_t *copy = lend(file_area, n);
        xcoff_open_answer o;
        xcoff_module_answer m;
        memcpy(copy, input, n);
        file = copy;
        length = n;
        digest = 0xcbf29ce484222325;
        note(input, n);
        state = digest | 1;
        digest = 0xcbf29ce484222325;
        nothing();
        o = headers();
        symbols(o);
        lines(o);
        m = module(o);
        address_table(m);
        tables(m);
        images(m);
        records(m);
        written(m);
        salvage(o);
        objects(o);
        sheets();
        if (m.image < HEAVY)
            input_as_calls(m);
        step = "the end";
        PROMISE(memcmp(copy, input, n) == 0);
        both[at_the_end] = digest;
    }
    /* The answers do not depend on where things lie. */
    PROMISE(both[0] == both[1]);
    return both[0];
}

static int files(int count, char **names)
{
    static uint8_t input[LARGEST];
    int i;
    for (i = 0; i < count; i++) {
        FILE *in = fopen(names[i], "rb");
        size_t n;
        if (in == NULL) {
            perror(names[i]);
            return 2;
        }
        n = fread(input, 1, sizeof input, in);
        fclose(in);
        printf("%016llx %s\n", (unsigned long long)run(input, n), names[i]);
    }
    return 0;
}

/* Lends one byte more than there is: the page behind must be hit. For a test of this program itself. */
static int lie(const char *name)
{
    static uint8_t input[LARGEST];
    FILE *in = fopen(name, "rb");
    if (in == NULL)
        return 2;
    length = fread(input, 1, sizeof input, in);
    fclose(in);
    at_the_end = 1;
    file = memcpy(lend(file_area, length - 1), input, length - 1);
    return (int)xcoff_walk(file, length).number;
}

#ifndef PLAIN
int fuzz_next(const uint8_t **input, size_t *length);
#endif

int main(int argc, char **argv)
{
    size_t i;
    PROMISE(xcoff_version() == XCOFF_VERSION);
    for (i = 0; i < sizeof made; i++)
        made[i] = pattern(i);
    map_all();
    if (argc == 3 && strcmp(argv[1], "--lie") == 0)
        return lie(argv[2]);
    if (argc > 1)
        return files(argc - 1, argv + 1);
#ifndef PLAIN
    {
        const uint8_t *input;
        size_t n;
        while (fuzz_next(&input, &n))
            if (n <= LARGEST)
                run(input, n);
    }
#endif
    return 0;
}
