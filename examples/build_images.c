/*
 * Builds the text and data images of a module for given addresses and writes them to two files.
 *
 *     cc -Iinclude examples/build_images.c crates/xcoff_c/out/libxcoff_c.a -o build_images
 *     ./build_images FILE TEXT_ADDRESS DATA_ADDRESS TEXT_OUT DATA_OUT
 *
 * Addresses are hexadecimal. Imports keep the addresses that the file records. Status 0 done, 1 refused (the numbers are
 * those of xcoff.h), 2 usage, 3 refused by the system.
 */
#include "xcoff.h"

#include <inttypes.h>
#include <stdio.h>
#include <stdlib.h>

/* One byte more than the library accepts, so that a longer file is refused by the library and not here. */
#define MOST 16777217

static uint8_t file[MOST];

static void *lend(uint64_t count, size_t size)
{
    void *p = calloc(count ? count : 1, size);
    if (!p) {
        fprintf(stderr, "no memory\n");
        exit(3);
    }
    return p;
}

static void accept(const char *what, uint64_t number, uint64_t item, uint64_t offset)
{
    if (number != 0) {
        fprintf(stderr, "%s: refused %" PRIu64 " %" PRIu64 " %" PRIu64 "\n", what, number, item, offset);
        exit(1);
    }
}

static void save(const char *name, const uint8_t *bytes, uint64_t count)
{
    FILE *f = fopen(name, "wb");
    if (!f || fwrite(bytes, 1, count, f) != count || fclose(f) != 0) {
        fprintf(stderr, "%s: cannot be written\n", name);
        exit(3);
    }
}

/* The list of a plan: each import at the address that the file records. The places of other symbols are ignored. */
static uint64_t *recorded(size_t length, uint64_t symbols)
{
    uint64_t numbers = symbols * (sizeof(xcoff_loader_symbol_row) / sizeof(uint64_t));
    xcoff_loader_symbol_row *rows = lend(symbols, sizeof *rows);
    uint64_t *list = lend(symbols, sizeof *list);
    xcoff_verdict v = xcoff_loader_symbol_table(file, length, (uint64_t *)rows, numbers);
    accept("loader symbols", v.number, v.item, v.offset);
    for (uint64_t k = 0; k < symbols; k++) {
        list[k] = rows[k].value;
        if ((rows[k].smtype & 0x40) && rows[k].ifile != 0)
            printf("import %" PRIu64 " at %" PRIx64 ": %.*s\n", rows[k].index, rows[k].value, (int)rows[k].name_length,
                   (const char *)file + rows[k].name);
    }
    free(rows);
    return list;
}

static void usage(void)
{
    fprintf(stderr, "usage: build_images FILE TEXT_ADDRESS DATA_ADDRESS TEXT_OUT DATA_OUT\n");
    exit(2);
}

static uint64_t address(const char *word)
{
    char *end;
    uint64_t value = strtoull(word, &end, 16);
    if (end == word || *end != 0)
        usage();
    return value;
}

static size_t load(const char *name)
{
    FILE *f = fopen(name, "rb");
    size_t length = f ? fread(file, 1, sizeof file, f) : 0;
    if (!f || ferror(f)) {
        fprintf(stderr, "%s: cannot be read\n", name);
        exit(3);
    }
    fclose(f);
    return length;
}

int main(int count, char **words)
{
    if (count != 6)
        usage();
    uint64_t text_address = address(words[2]), data_address = address(words[3]);
    size_t length = load(words[1]);

    xcoff_module_answer m = xcoff_module(file, length);
    accept(words[1], m.number, m.item, m.offset);
    uint64_t *list = recorded(length, m.symbols);
    uint8_t *text = lend(m.text.size, 1);
    uint8_t *data = lend(m.image, 1);
    xcoff_call_answer a = xcoff_build(file, length, text_address, data_address, list, m.symbols, text, m.text.size, data,
                                      m.image);
    accept("plan", a.number, a.item, a.offset);
    if (a.has_entry)
        printf("entry at %" PRIx64 "\n", a.entry);
    save(words[4], text, m.text.size);
    save(words[5], data, m.image);
    free(list);
    free(text);
    free(data);
    return 0;
}
