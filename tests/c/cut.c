/* The loop of docs/STORE.md ("What to write first"), as it stands there, in a file that the test writes, with a cut of power at every
 * octet of every write, and at every octet of the start behind each cut. Prints 'ok' and the cuts if each start finds the greetings of
 * before the call or of after it. */
#include "g7110.h"

#include <setjmp.h>
#include <stdio.h>
#include <string.h>

#include "store_what_to_write_first.h"

#define SIZE 48
#define CELLS 258
#define PAGE 2855 /* 7 + 32 * 66 + 23 * (48 / 64 + 32) */
#define SPARE 64

/* What lasts, and a copy of it from before a call and from a cut. */
struct lasting {
    uint8_t block[SIZE], page[2][PAGE], spare[SPARE];
    uint32_t record[8];
};
static struct lasting lasting, before_call, at_cut;

/* A running box's memory. */
static uint8_t block[SIZE], spare[SPARE], text[PAGE];
static uint32_t table[CELLS], copy[CELLS];
static struct box box;

/* Octets, and records, that are still written before the power goes; what then stands in the octets that were to follow: as they
 * were, zeros, ones. */
static unsigned long left, cuts;
static int leaves;
static jmp_buf power_off;

/* The spare in hand, and whether the call is a replace. */
static size_t spare_len;
static int replaces;

static void last(uint8_t *to, const uint8_t *from, size_t count)
{
    size_t at;
    for (at = 0; at < count; at++) {
        if (left-- == 0) {
            if (leaves > 0) memset(to + at, leaves == 1 ? 0 : 0xFF, count - at);
            longjmp(power_off, 1);
        }
        to[at] = from[at];
    }
}

void last_block(struct box *b, size_t at, size_t count) { last(lasting.block + at, b->block + at, count); }
void last_spare(struct box *b, size_t count) { last(lasting.spare, b->spare, count); }
void last_page(struct box *b, uint32_t page, size_t count) { last(lasting.page[page], b->text, count); }

void last_record(struct box *b)
{
    if (left-- == 0) longjmp(power_off, 1);
    memcpy(lasting.record, b->record, sizeof lasting.record);
}

size_t read_page(struct box *b, uint32_t page)
{
    const uint8_t *end = (const uint8_t *)memchr(lasting.page[page], 0, PAGE);
    memcpy(b->text, lasting.page[page], PAGE);
    return end == NULL ? PAGE : (size_t)(end - lasting.page[page]);
}

/* Power comes: memory has what lasts, and all else is lost. */
static uint32_t power_on(void)
{
    memcpy(block, lasting.block, SIZE);
    memcpy(spare, lasting.spare, SPARE);
    memset(table, 0xA7, sizeof table);
    memset(copy, 0x58, sizeof copy);
    box.block = block;
    box.size = SIZE;
    box.table = table;
    box.copy = copy;
    box.cells = CELLS;
    box.spare = spare;
    box.spare_len = spare_len;
    box.text = text;
    box.page_len = PAGE;
    memcpy(box.record, lasting.record, sizeof box.record);
    return box_start(&box);
}

/* The greetings that the box holds: for each number from 1 to 12 a count and the octets. */
static void held(uint8_t out[12 * (SIZE + 1)])
{
    uint32_t number;
    uint64_t got[2];
    memset(out, 0, 12 * (SIZE + 1));
    for (number = 1; number <= 12; number++) {
        uint8_t *to = out + (number - 1) * (SIZE + 1);
        if (g7110_store_get(block, SIZE, table, CELLS, number, got) != G7110_OK) continue;
        to[0] = (uint8_t)got[1];
        memcpy(to + 1, block + got[0], (size_t)got[1]);
    }
}

/* A call: what it puts, deletes (no octets) or puts in the place of another. */
struct call {
    int replaces;
    uint32_t number;
    size_t count;
    uint8_t octet;
    uint32_t ending;
    uint64_t start, moved;
};
static const struct call calls[] = {
    {0, 7, 6, 0x41, 0, 0, 0},    {0, 1, 3, 0x42, 0, 6, 0},   {0, 8, 10, 0x81, 0, 9, 0}, {0, 2, 5, 0x82, 0, 19, 0},
    {0, 9, 8, 0x31, 0, 24, 0},   {0, 1, 0, 0, 0, 0, 0},      {0, 2, 0, 0, 0, 0, 0},     {0, 3, 3, 0xC1, 0, 6, 0},
    {0, 3, 3, 0xC1, 16, 0, 0},   {0, 3, 0, 0, 0, 0, 0},      {0, 4, 20, 0xC2, 0, 24, 18}, {0, 5, 5, 0x21, 20, 0, 0},
    {0, 7, 0, 0, 0, 0, 0},       {1, 9, 9, 0x22, 0, 38, 38},
};

static uint32_t make(const struct call *call, uint64_t told[2])
{
    uint8_t octets[SIZE];
    memset(octets, call->octet, call->count);
    told[0] = told[1] = 0;
    if (call->count == 0) return box_delete(&box, call->number);
    if (call->replaces) return box_replace(&box, 1, call->number, 12, octets, call->count, told);
    return box_put(&box, 1, call->number, octets, call->count, told);
}

static uint8_t before[12 * (SIZE + 1)], between[12 * (SIZE + 1)], after[12 * (SIZE + 1)], now[12 * (SIZE + 1)];

/* The store of before the call, of after it, or of a replace whose put is made. */
static int is_one_of_them(void)
{
    held(now);
    if (memcmp(now, before, sizeof now) == 0 || memcmp(now, after, sizeof now) == 0) return 1;
    return replaces && memcmp(now, between, sizeof now) == 0;
}

/* Starts behind a cut, and cuts that start at every octet: none loads anything else. */
static int starts(void)
{
    static unsigned long at;
    static int done;
    at_cut = lasting;
    for (at = 0, done = 0; !done; at++) {
        lasting = at_cut;
        left = at;
        if (setjmp(power_off) == 0) {
            if (power_on() != G7110_OK) return 0;
            done = 1;
        } else {
            cuts++;
            left = (unsigned long)-1;
            if (power_on() != G7110_OK) return 0;
        }
        if (!is_one_of_them()) return 0;
    }
    return 1;
}

int main(void)
{
    static const size_t spares[] = {0, 1, 7, 64};
    static size_t which, at;
    static unsigned long place;
    static int done;
    static uint64_t told[2];
    for (which = 0; which < sizeof spares / sizeof *spares; which++) {
        /* A fresh store: page 0 has the empty text, all else holds anything. */
        memset(&lasting, 0xEE, sizeof lasting);
        memset(lasting.record, 0, sizeof lasting.record);
        lasting.page[0][0] = 0;
        for (at = 0; at < sizeof calls / sizeof *calls; at++) {
            left = (unsigned long)-1;
            spare_len = spares[which];
            replaces = calls[at].replaces;
            before_call = lasting;
            if (power_on() != G7110_OK) return printf("call %d: no start\n", (int)at), 1;
            held(before);
            if (make(&calls[at], told) != calls[at].ending) return printf("call %d: another ending\n", (int)at), 1;
            if (told[0] != calls[at].start || told[1] != calls[at].moved) return printf("call %d: told otherwise\n", (int)at), 1;
            held(after);
            memcpy(between, after, sizeof between);
            if (calls[at].replaces) {
                /* Both are held between its two calls. */
                memcpy(between + 11 * (SIZE + 1), after + (calls[at].number - 1) * (SIZE + 1), SIZE + 1);
                memcpy(between + (calls[at].number - 1) * (SIZE + 1), before + (calls[at].number - 1) * (SIZE + 1), SIZE + 1);
            }
            if (calls[at].ending != G7110_OK && memcmp(&lasting, &before_call, sizeof lasting) != 0) return printf("call %d: written\n", (int)at), 1;
            for (leaves = 0; leaves < 3; leaves++) {
                for (place = 0, done = 0; !done; place++) {
                    lasting = before_call;
                    left = (unsigned long)-1;
                    if (power_on() != G7110_OK) return 1;
                    left = place;
                    if (setjmp(power_off) == 0) {
                        make(&calls[at], told);
                        done = 1;
                    } else {
                        cuts++;
                    }
                    if (!starts()) return printf("call %d, cut %lu: another store\n", (int)at, place), 1;
                }
            }
            /* On with the call made as a whole. */
            left = (unsigned long)-1;
            lasting = before_call;
            if (power_on() != G7110_OK) return 1;
            make(&calls[at], told);
        }
    }
    printf("ok %lu cuts\n", cuts);
    return 0;
}
