/*
 * Moves the images of a module from one plan sheet to another, but only if they are those of the first: images that are
 * moved twice, or from a plan that they are not for, are wrong without a sign of it, and xcoff_move takes them as they are.
 *
 *     cc -Iinclude examples/move_images.c crates/xcoff_c/out/libxcoff_c.a -o move_images
 *     ./move_images FILE FROM_SHEET TO_SHEET TEXT DATA
 *
 * Exit status: 0 moved; 1 refused, or images that are not those of FROM_SHEET; 2 usage; 3 a file that cannot be read or
 * written. Nothing is changed unless it is 0.
 */
#include "xcoff_inline.h"
#include "xcoff_words.h"

#include <stdio.h>
#include <stdlib.h>

typedef struct content {
    uint8_t *bytes;
    size_t length;
} content;

static void *lend(size_t count, size_t size)
{
    void *memory = calloc(count ? count : 1, size);
    if (!memory) {
        fprintf(stderr, "out of memory\n");
        exit(3);
    }
    return memory;
}

/* One byte more than the library accepts of anything: too much is for it to say. */
static content load(const char *name)
{
    content c = {lend(XCOFF_MOST_FILE_BYTES + 1, 1), 0};
    FILE *f = fopen(name, "rb");
    if (f)
        c.length = fread(c.bytes, 1, XCOFF_MOST_FILE_BYTES + 1, f);
    if (!f || ferror(f)) {
        fprintf(stderr, "%s: cannot be read\n", name);
        exit(3);
    }
    fclose(f);
    return c;
}

static void save(const char *name, const uint8_t *bytes, size_t count)
{
    FILE *f = fopen(name, "wb");
    if (!f || fwrite(bytes, 1, count, f) != count || fclose(f) != 0) {
        fprintf(stderr, "%s: cannot be written\n", name);
        exit(3);
    }
}

static void accept(const char *about, uint64_t number, uint64_t item, uint64_t offset)
{
    char words[256];
    if (number == XCOFF_ACCEPTED)
        return;
    xcoff_refusal_words(number, item, offset, words, sizeof words);
    fprintf(stderr, "%s: %s\n", about, words);
    exit(1);
}

static xcoff_plan plan_of(const char *name)
{
    xcoff_plan plan;
    content sheet = load(name);
    xcoff_sheet_answer head = xcoff_sheet_head(sheet.bytes, sheet.length);
    accept(name, head.number, head.item, head.offset);
    head = xcoff_read_sheet_plan(sheet.bytes, sheet.length, lend(head.count, sizeof(uint64_t)), head.count, &plan);
    accept(name, head.number, head.item, head.offset);
    free(sheet.bytes);
    return plan;
}

int main(int count, char **words)
{
    content file, text, data;
    xcoff_step step;
    xcoff_images images, room;
    xcoff_module_answer m;
    xcoff_checked_answer a;

    if (count != 6) {
        fprintf(stderr, "usage: move_images FILE FROM_SHEET TO_SHEET TEXT DATA\n");
        return 2;
    }
    if (!xcoff_versions_agree()) {
        fprintf(stderr, "xcoff.h and libxcoff_c.a are of different versions\n");
        return 2;
    }
    file = load(words[1]);
    step.from = plan_of(words[2]);
    step.to = plan_of(words[3]);
    text = load(words[4]);
    data = load(words[5]);
    m = xcoff_module(file.bytes, file.length);
    accept(words[1], m.number, m.item, m.offset);

    images.text = text.bytes;
    images.text_length = text.length;
    images.data = data.bytes;
    images.data_length = data.length;
    room.text = lend(m.text.size, 1);
    room.text_length = m.text.size;
    room.data = lend(m.image, 1);
    room.data_length = m.image;
    a = xcoff_move_checked(file.bytes, file.length, step, images, room);
    accept("the plans", a.call.number, a.call.item, a.call.offset);
    if (!a.were_for_from) {
        fprintf(stderr, "%s and %s are not the images of %s for %s; nothing is changed\n", words[4], words[5], words[1],
                words[2]);
        return 1;
    }
    save(words[4], text.bytes, text.length);
    save(words[5], data.bytes, data.length);
    printf("moved %s and %s to %s\n", words[4], words[5], words[3]);
    return 0;
}
