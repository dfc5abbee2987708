/* The greatest stack that each call uses: made on a thread whose stack is painted before, and looked at after. What a
 * thread uses that makes no call is taken off. Prints a line for each call. */
#define _XOPEN_SOURCE 600
#include "g7110.h"

#include <pthread.h>
#include <stdio.h>
#include <stdlib.h>
#include <string.h>

/* OLD_TOOLS is the set without tool 11, so that frames of few values are read by the other tools too. */
enum { STACK = 1 << 20, PAINT = 0xC5, STREAM = 4000, KINDS = 10, OLD_TOOLS = 127 };

/* Kinds of call, none among them. */
enum { CALLS = 37 };

struct call {
    int which; /* 0 none, 1 read, 2 write, 3 walk, 4 to linear values, 5 from them; of settings 6 save, 7 back, 8 read, 9 wipe;
                * 10 why; of a store 11 put, 12 get, 13 delete, 14 save, 15 load; 16 mend; of a file 17 read, 18 write; 19 jump; where power may
                * be cut 20 try, 21 next, 22 moved, 23 renumber, 24 step; those that tell: 25 check, 26 head; of a file 27 its heading, 28 an
                * item; of a store 29 a greeting, 30 one by its place, 31 totals; of settings 32 values, 33 the numbers kept; 34 of a mending;
                * 35 to a master, 36 from one */
    const uint8_t *given;
    size_t length;
};

static uint8_t out[G7110_MAX_TABLE];
static int16_t linear[320];
static uint32_t state[G7110_SETTINGS];
static uint8_t block[G7110_MAX_BLOCK];
static size_t block_len = G7110_NO_SETTINGS_BLOCK;
static uint32_t table[G7110_MAX_CELLS];
static uint32_t number, record[8], next[8];
static uint16_t items[STREAM];
static size_t listed;
static uint64_t item_at; /* the place that g7110_file_next told last */

static void *make(void *argument)
{
    const struct call *call = argument;
    static uint64_t report[8]; /* not on the stack that is looked at */
    if (call->which == 1) g7110_read(call->given, call->length, 1, G7110_ALL_TOOLS, out, sizeof out, report);
    if (call->which == 2) g7110_write(call->given, call->length, 1, G7110_ALL_TOOLS, out, sizeof out, report);
    if (call->which == 3) g7110_walk(call->given, call->length, 1, G7110_ALL_TOOLS, out, sizeof out, report);
    if (call->which == 4) g7110_to_linear(call->given, call->length, 1, linear, 320);
    if (call->which == 5) g7110_from_linear(linear, call->length, 1, out, sizeof out);
    if (call->which == 6) g7110_settings_save(state, call->given, call->length, report);
    if (call->which == 7) g7110_settings_back(state, state[0], report);
    if (call->which == 8) g7110_settings_read(state, state[0], out, report);
    if (call->which == 9) g7110_settings_wipe(state);
    if (call->which == 10) g7110_why(call->given, call->length, 1, G7110_ALL_TOOLS, out, report);
    if (call->which == 11) g7110_store_put(block, block_len, table, sizeof table / sizeof *table, 1, number, call->given, call->length, report);
    if (call->which == 12) g7110_store_get(block, block_len, table, sizeof table / sizeof *table, number, report);
    if (call->which == 13) g7110_store_delete(block, block_len, table, sizeof table / sizeof *table, number);
    if (call->which == 14) g7110_store_save(block, block_len, table, sizeof table / sizeof *table, out, sizeof out, report);
    if (call->which == 15) g7110_store_load(call->given, call->length, block, block_len, table, sizeof table / sizeof *table);
    if (call->which == 16) g7110_mend(call->given, call->length, 1, 40000, out, sizeof out, report);
    if (call->which == 17) g7110_file_read(call->given, call->length, G7110_ALL_TOOLS, out, sizeof out, items, STREAM, report);
    if (call->which == 18) g7110_file_write(call->given, call->length, items, listed, 1, G7110_ALL_TOOLS, out, sizeof out, report);
    if (call->which == 19) g7110_store_jump(block, block_len, table, sizeof table / sizeof *table, number, call->length, report);
    if (call->which == 20) g7110_store_try(block, block_len, table, sizeof table / sizeof *table, 1, number, call->given, call->length, report);
    if (call->which == 21) g7110_store_next(block, block_len, table, sizeof table / sizeof *table, report);
    if (call->which == 22) g7110_store_moved(block, block_len, table, sizeof table / sizeof *table, number, call->length);
    if (call->which == 23) g7110_store_renumber(block, block_len, table, sizeof table / sizeof *table, number, (uint32_t)call->length);
    if (call->which == 24) g7110_move_step(block, block_len, out, call->length, record, next);
    if (call->which == 25) g7110_check(call->given, call->length, 1, G7110_ALL_TOOLS, report);
    if (call->which == 26) g7110_head(call->given, call->length, G7110_ALL_TOOLS, report);
    if (call->which == 27) g7110_file_head(call->given, call->length, report);
    if (call->which == 28) g7110_file_next(call->given, call->length, item_at, 1, G7110_ALL_TOOLS, out, sizeof out, report);
    if (call->which == 29) g7110_store_info(block, block_len, table, sizeof table / sizeof *table, number, report);
    if (call->which == 30) g7110_store_at(block, block_len, table, sizeof table / sizeof *table, call->length, report);
    if (call->which == 31) g7110_store_totals(block, block_len, table, sizeof table / sizeof *table, report);
    if (call->which == 32) g7110_settings_get(state, state[0], report);
    if (call->which == 33) g7110_settings_kept(state, report);
    if (call->which == 34) g7110_mend_why(call->given, call->length, 1, 40000, report);
    if (call->which == 35) g7110_to_master(call->given, call->length, 1, linear, 320);
    if (call->which == 36) g7110_from_master(linear, call->length, 1, out, sizeof out);
    if (call->which == 28) item_at = report[5];
    return NULL;
}

/* Octets of the stack that no longer are as painted, from the lowest one up. */
static size_t used(struct call call)
{
    pthread_attr_t attributes;
    pthread_t thread;
    void *memory;
    uint8_t *stack;
    size_t low = 0;
    if (posix_memalign(&memory, 4096, STACK) != 0) exit(2);
    stack = memory;
    memset(stack, PAINT, STACK);
    if (pthread_attr_init(&attributes) || pthread_attr_setstack(&attributes, stack, STACK)) exit(2);
    if (pthread_create(&thread, &attributes, make, &call) || pthread_join(thread, NULL)) exit(2);
    while (low < STACK && stack[low] == PAINT) low++;
    pthread_attr_destroy(&attributes);
    free(memory);
    return STACK - low;
}

static size_t greatest[CALLS];

static void measure(int which, const uint8_t *given, size_t length)
{
    struct call call;
    size_t octets;
    call.which = which;
    call.given = given;
    call.length = length;
    octets = used(call);
    if (octets > greatest[which]) greatest[which] = octets;
}

/* A frame of 320 samples of some kind: equal, two zeros few and many, near zero few and many, anything. */
static void frame(uint8_t *samples, int kind)
{
    static const uint8_t near_zero[4] = {0xFE, 0x7F, 0x7E, 0xFF};
    size_t at;
    for (at = 0; at < 320; at++) {
        unsigned drawn = (unsigned)(at * 2654435761u >> 7);
        samples[at] = 0xFF;
        if (kind == 1 && at % 37 == 5) samples[at] = 0x7F;
        if (kind == 2 && drawn % 2 == 0) samples[at] = 0x7F;
        if (kind == 3 && at % 41 < 3) samples[at] = near_zero[at % 41];
        if (kind == 4 && drawn % 5 < 3) samples[at] = near_zero[drawn % 5];
        if (kind == 5) samples[at] = (uint8_t)drawn;
        if (kind == 6) samples[at] = 0x7F;
        if (kind == 7) samples[at] = 0x12;
        if (kind == 8 && drawn % 2 == 0) samples[at] = 0xFE;
        if (kind == 9 && drawn % 3 > 0) samples[at] = drawn % 3 == 1 ? 0xFE : 0x7E;
    }
}

/* What a call uses more than a thread that makes none; a conversion or a wipe may use no more. */
static unsigned long over(int which)
{
    return greatest[which] > greatest[0] ? (unsigned long)(greatest[which] - greatest[0]) : 0;
}

/* Each call over settings: on few revisions and on eight, and a text that is refused. */
static void settings(void)
{
    static const char text[] = "law=1\nset=255\nblock=1048576\ngreeting=65535\n";
    int turn;
    for (turn = 0; turn < 12; turn++) {
        measure(6, (const uint8_t *)text, sizeof text - 1 - (turn == 5));
        measure(7, NULL, 0);
        measure(8, NULL, 0);
        measure(32, NULL, 0);
        measure(33, NULL, 0);
    }
    measure(9, NULL, 0);
    measure(8, NULL, 0);
}

/* Greetings that close up one by one, directly and by way of a spare, and one that is renumbered twice. */
static void closing_up(const uint8_t *stream, size_t length)
{
    uint64_t due[4];
    size_t spare;
    measure(20, stream, length);
    for (spare = 0; spare <= 33; spare++) measure(30, NULL, spare);
    measure(29, NULL, 0);
    measure(31, NULL, 0);
    for (spare = 0;; spare = 4096 - spare) {
        measure(21, NULL, 0);
        if (g7110_store_next(block, block_len, table, sizeof table / sizeof *table, due) != G7110_OK || due[0] == 0) break;
        number = (uint32_t)due[0];
        measure(22, NULL, (size_t)due[2]);
        memset(record, 0, sizeof record);
        record[1] = 1;
        record[2] = (uint32_t)due[1];
        record[3] = (uint32_t)due[2];
        record[4] = (uint32_t)due[3];
        while (record[1] != 0) {
            measure(24, NULL, spare);
            memcpy(record, next, sizeof record);
        }
        measure(23, NULL, G7110_MAX_NUMBER);
        measure(23, NULL, 0);
        record[2] = number;
        number = G7110_MAX_NUMBER;
        measure(23, NULL, record[2]);
    }
    measure(20, stream, length);
}

/* Each call over a store: greetings of every kind of frame, gaps, closing up, and one that is refused. */
static void store(const uint8_t *stream, size_t length)
{
    static const char early[] = "prompt=1\nstart=0\noctets=1\n"; /* the first frame, in R-6's lines */
    static uint8_t text[8192], large[6000];
    uint64_t saved[1];
    size_t sample;
    for (number = 1; number <= 7; number++) measure(11, stream, length);
    for (number = 2; number <= 6; number += 2) measure(13, NULL, 0);
    for (number = 8; number <= 40; number++) measure(11, stream, number % 3 ? length : length - 1);
    memset(large, 0x41, sizeof large);
    measure(11, large, sizeof large);
    for (number = 1; number <= 41; number++) measure(12, NULL, 0);
    /* Into frames of every kind; and from marks, up to 64 frames, in the last greeting, and past its end. */
    for (number = 1; number <= 7; number += 2)
        for (sample = 0; sample < 320 * KINDS; sample += 320) measure(19, NULL, sample);
    for (number = 41, sample = 0; sample <= 240000; sample += 23960) measure(19, NULL, sample);
    for (number = 9; number <= 30; number += 7) measure(13, NULL, 0);
    closing_up(stream, length);
    measure(14, NULL, 0);
    if (g7110_store_save(block, block_len, table, sizeof table / sizeof *table, text, sizeof text, saved) != G7110_OK) return;
    measure(15, text, (size_t)saved[0]);
    measure(15, (const uint8_t *)early, sizeof early - 1);
}

/* The same over the greatest block: a greeting of pads and one frame that fills it, with as many marks as there can be, saved, loaded,
 * jumped into; a text that is refused at its last mark; one more for which all others close up. */
static void large_store(const uint8_t *stream, size_t length)
{
    static uint8_t whole[G7110_MAX_BLOCK], text[G7110_MAX_TABLE];
    uint64_t saved[1];
    block_len = sizeof block;
    memset(table, 0, sizeof table);
    whole[sizeof whole - 1] = 0x41;
    number = 1;
    measure(11, whole, sizeof whole);
    measure(12, NULL, 0);
    measure(19, NULL, 39);
    measure(14, NULL, 0);
    if (g7110_store_save(block, block_len, table, sizeof table / sizeof *table, text, sizeof text, saved) != G7110_OK) exit(2);
    measure(15, text, (size_t)saved[0]);
    text[saved[0] - 2] ^= 1;
    measure(15, text, (size_t)saved[0]);
    measure(13, NULL, 0);
    for (number = 1; number <= 2; number++) measure(11, whole, sizeof whole / 2 - length);
    number = 1;
    measure(13, NULL, 0);
    for (number = 3; number <= 4; number++) measure(11, number == 3 ? stream : whole, number == 3 ? length : sizeof whole / 2);
    number = 3;
    measure(13, NULL, 0);
    closing_up(stream, length);
}

/* Both calls over a file: one of every kind of frame and of losses, written, read, and read where its last frame is cut. */
static void files(void)
{
    static const uint16_t losses[4] = {G7110_LOSS, G7110_LOSS + 320, 0, G7110_LOSS + 40};
    static uint8_t samples[KINDS * 320], file[STREAM];
    uint64_t wrote[1];
    int kind;
    for (kind = 0; kind < KINDS; kind++) {
        frame(samples + 320 * kind, kind);
        items[listed++] = losses[kind % 4];
        items[listed++] = 320;
    }
    measure(18, samples, sizeof samples);
    if (g7110_file_write(samples, sizeof samples, items, listed, 1, G7110_ALL_TOOLS, file, sizeof file, wrote) != G7110_OK) exit(2);
    measure(17, file, (size_t)wrote[0]);
    measure(17, file, (size_t)wrote[0] - 1);
    measure(27, file, (size_t)wrote[0]);
    /* One item after another, up to the end, which is refused. */
    for (kind = 0; kind <= 2 * KINDS; kind++) measure(28, file + 10, (size_t)wrote[0] - 10);
}

int main(void)
{
    static const char *const names[CALLS] = {"",            "read",          "write",         "walk",          "to_linear",
                                          "from_linear", "settings_save", "settings_back", "settings_read", "settings_wipe",
                                          "why",         "store_put",     "store_get",     "store_delete",  "store_save",
                                          "store_load",  "mend",          "file_read",     "file_write",
                                          "store_jump",  "store_try",     "store_next",    "store_moved",   "store_renumber",
                                          "move_step",   "check",         "head",          "file_head",     "file_next",
                                          "store_info",  "store_at",      "store_totals",  "settings_get",  "settings_kept",
                                          "mend_why",    "to_master",     "from_master"};
    uint8_t samples[320], form[G7110_MAX_WRITTEN], stream[STREAM];
    uint64_t wrote[3];
    size_t length = 0;
    int kind, cut;
    memset(stream, 0, sizeof stream);
    /* The first thread of all uses more, once: names that are looked up. */
    measure(0, NULL, 0);
    greatest[0] = 0;
    measure(0, NULL, 0);
    for (kind = 0; kind < KINDS; kind++) {
        frame(samples, kind);
        measure(2, samples, 320);
        measure(10, samples, 320);
        measure(4, samples, 320);
        measure(5, samples, 320);
        measure(35, samples, 320);
        measure(36, samples, 320);
        if (g7110_write(samples, 320, 1, kind < 8 ? OLD_TOOLS : G7110_ALL_TOOLS, form, sizeof form, wrote) != G7110_OK) return 1;
        if (kind >= 8 && wrote[2] != 11) return 1;
        for (cut = 0; cut < 2; cut++) measure(1, form, (size_t)wrote[0] - (size_t)cut);
        measure(26, form, (size_t)wrote[0]);
        memcpy(stream + length, form, (size_t)wrote[0]);
        length += (size_t)wrote[0];
    }
    measure(3, stream, sizeof stream);
    measure(3, stream, length - 1);
    measure(25, stream, sizeof stream);
    measure(25, stream, length - 1);
    settings();
    measure(16, stream, length);
    measure(16, stream, length - 1);
    measure(34, stream, length);
    measure(34, stream, length - 1);
    store(stream, length);
    large_store(stream, length);
    files();
    for (kind = 1; kind < CALLS; kind++) printf("stack: g7110_%s %lu octets\n", names[kind], over(kind));
    return 0;
}
