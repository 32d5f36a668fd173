/* How much stack the calls take that hold windows in their frames, on the module and the object file named as arguments: each is made
   in a thread whose stack is painted before. The object file's entries are exchanged too, so that its branches do not ascend. */
#define _XOPEN_SOURCE 600
#include "xcoff.h"

#include <pthread.h>
#include <stdio.h>
#include <stdlib.h>
#include <string.h>

#define STACK ((size_t)4 << 20)
#define PAINT 0xA5

static uint8_t file[1 << 20], text[1 << 20], data[1 << 20];
static uint64_t list[1 << 16], plan[32], script[64];
static size_t length, places, numbers;
static xcoff_module_answer module;
static xcoff_object_answer object;
static uint64_t number;

static void judge_module(void) { module = xcoff_module(file, length); number = module.number; }
static void build(void)
{
    number = xcoff_build(file, length, 0x10000000, 0x20000000, list, places, text, module.text.size, data, module.image).number;
}
static void judge_object(void) { object = xcoff_object(file, length); number = object.number; }
static void build_object(void) { number = xcoff_build_object(file, length, plan, places, text, object.length).number; }
static void move_object(void) { number = xcoff_move_object(file, length, plan, places, plan, places, text, object.length).number; }
static void replay_object(void) { number = xcoff_replay_object(file, length, script, numbers, text, object.length).number; }

static void *in_thread(void *call)
{
    (*(void (**)(void))call)();
    return NULL;
}

/* Whether the call is accepted and takes less than `limit` bytes. */
static int takes_less(const char *name, void (*call)(void), size_t limit)
{
    pthread_attr_t attributes;
    pthread_t thread;
    uint8_t *stack;
    size_t unused = 0;
    if (posix_memalign((void **)&stack, 4096, STACK) != 0) return 0;
    memset(stack, PAINT, STACK);
    if (pthread_attr_init(&attributes) != 0 || pthread_attr_setstack(&attributes, stack, STACK) != 0 ||
        pthread_create(&thread, &attributes, in_thread, &call) != 0 || pthread_join(thread, NULL) != 0)
        return 0;
    while (unused < STACK && stack[unused] == PAINT) unused++;
    free(stack);
    if (number == 0 && STACK - unused < limit) return 1;
    printf("stack: %s is refused %lu or takes %lu bytes\n", name, (unsigned long)number, (unsigned long)(STACK - unused));
    return 0;
}

static int read_file(const char *path)
{
    FILE *in = fopen(path, "rb");
    if (in == NULL) return 0;
    length = fread(file, 1, sizeof file, in);
    return fclose(in) == 0 && length > 0;
}

static int modules(const char *path)
{
    if (!read_file(path) || !takes_less("module", judge_module, 512 << 10)) return 0;
    places = module.symbols;
    return takes_less("build", build, 512 << 10);
}

/* Exchanges the second and the last entry of section 1's table, of 10 bytes each. */
static int exchange(void)
{
    uint64_t rows[5 * 32];
    uint8_t entry[10];
    if (xcoff_object_sections(file, length, rows, 5 * object.sections).number != 0 || rows[3] < 3) return 0;
    memcpy(entry, file + rows[2] + 10, 10);
    memcpy(file + rows[2] + 10, file + rows[2] + 10 * (rows[3] - 1), 10);
    memcpy(file + rows[2] + 10 * (rows[3] - 1), entry, 10);
    return 1;
}

static int objects(void)
{
    size_t i;
    if (!takes_less("object", judge_object, 512 << 10)) return 0;
    places = object.sections;
    script[0] = 0;
    script[1] = places;
    for (i = 0; i < places; i++) plan[i] = script[2 + i] = 0x10000 * (i + 1);
    numbers = 2 + places;
    return takes_less("build_object", build_object, 1 << 20) & takes_less("move_object", move_object, 1 << 20) &
           takes_less("replay_object", replay_object, 1 << 20);
}

int main(int count, char **names)
{
    if (count != 3) return 2;
    return !(modules(names[1]) && read_file(names[2]) && objects() && exchange() && objects());
}
