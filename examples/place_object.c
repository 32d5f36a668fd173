/*
 * Places the sections of an object file without linking it: writes its text and data sections end to end, for an address of
 * each section. In the repository's root:
 *
 *     cc -Iinclude examples/place_object.c crates/xcoff_c/out/libxcoff_c.a -o place_object
 *     ./place_object diag.o card7.image 10000 80000 80400
 */
#include "xcoff_inline.h"
#include "xcoff_words.h"

#include <stdio.h>
#include <stdlib.h>

#define MOST_SECTIONS 32

static void *lend(size_t count, size_t size)
{
    void *memory = calloc(count + 1, size);
    if (!memory) {
        fprintf(stderr, "no memory for %zu times %zu bytes\n", count, size);
        exit(3);
    }
    return memory;
}

static void accept(const char *about, uint64_t number, uint64_t item, uint64_t offset)
{
    char words[300];
    if (number == XCOFF_ACCEPTED)
        return;
    xcoff_object_refusal_words(number, item, offset, words, sizeof words);
    fprintf(stderr, "%s: %s\n", about, words);
    exit(1);
}

int main(int count, char **words)
{
    static uint64_t plan[MOST_SECTIONS];
    static xcoff_object_section_row sections[MOST_SECTIONS];
    uint8_t *file = lend(XCOFF_MOST_FILE_BYTES + 1, 1), *image;
    size_t length = 0, places = 0;
    xcoff_object_answer o;
    xcoff_verdict v;
    FILE *f;

    if (count < 3 || count > 3 + MOST_SECTIONS) {
        fprintf(stderr, "usage: place_object FILE IMAGE HEX...\n");
        return 2;
    }
    /* One byte more than the library accepts: too much is for it to say. */
    f = fopen(words[1], "rb");
    if (f)
        length = fread(file, 1, XCOFF_MOST_FILE_BYTES + 1, f);
    if (!f || ferror(f)) {
        fprintf(stderr, "%s: cannot be read\n", words[1]);
        return 3;
    }
    fclose(f);
    for (int n = 3; n < count; n++)
        plan[places++] = strtoull(words[n], NULL, 16);

    /* How much memory is needed, before any is taken: sections may share their bytes. */
    o = xcoff_object(file, length);
    accept(words[1], o.number, o.item, o.offset);
    image = lend(o.length, 1);
    v = xcoff_build_object(file, length, plan, places, image, o.length);
    accept(words[1], v.number, v.item, v.offset);
    v = xcoff_object_section_rows(file, length, sections, o.sections);
    accept(words[1], v.number, v.item, v.offset);

    f = fopen(words[2], "wb");
    if (!f || fwrite(image, 1, o.length, f) != o.length || fclose(f) != 0) {
        fprintf(stderr, "%s: cannot be written\n", words[2]);
        return 3;
    }
    for (size_t n = 0; n < o.sections; n++)
        if (sections[n].size)
            printf("section %zu at %llx: %llu bytes at offset %llu of the image, %llu relocation entries\n", n + 1,
                   (unsigned long long)plan[n], (unsigned long long)sections[n].size, (unsigned long long)sections[n].place,
                   (unsigned long long)sections[n].entries);
    return 0;
}
