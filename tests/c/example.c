/* The example of include/g7110.h, and what a caller in C relies on beside it. Prints 'ok' if all of it holds. */
#include "g7110.h"

#include <stdio.h>
#include <string.h>

#define CHECK(holds) \
    do { \
        if (!(holds)) { \
            printf("line %d: %s\n", __LINE__, #holds); \
            return 1; \
        } \
    } while (0)

/* Keep a greeting's frame, and get it back. */
static int keep_and_get_back(const uint8_t *samples)
{
    uint8_t kept[G7110_MAX_WRITTEN], sound[G7110_MAX_SAMPLES];
    uint64_t wrote[3], got[5];
    if (g7110_write(samples, 160, G7110_LAW_MU, G7110_FIELD_TOOLS, kept, sizeof kept, wrote) != G7110_OK) return 1;
    if (g7110_read(kept, (size_t)wrote[G7110_WRITE_OCTETS], G7110_LAW_MU, G7110_ALL_TOOLS, G7110_ARRAY(sound), got) != G7110_OK) return 1;
    CHECK(got[G7110_READ_SAMPLES] == 160);
    CHECK(memcmp(sound, samples, 160) == 0);
    CHECK(got[1] == wrote[0] && got[2] == wrote[1] && got[3] == wrote[2]);
    CHECK(wrote[0] < 160);
    return 0;
}

/* A frame of linear values and back. The scale is 001's own, so 20,000 is clipped. */
static int to_linear_and_back(const uint8_t *samples)
{
    int16_t linear[161];
    uint8_t back[161];
    linear[160] = 77;
    back[160] = 0xA7;
    CHECK(g7110_to_linear(samples, 160, 1, linear, 160) == G7110_OK && linear[160] == 77);
    CHECK(g7110_from_linear(linear, 160, 1, back, 160) == G7110_OK && back[160] == 0xA7);
    CHECK(memcmp(back, samples, 160) == 0);
    linear[0] = 20000;
    linear[1] = -1;
    CHECK(g7110_from_linear(linear, 160, 0, back, 160) == G7110_OK && back[0] == 0xAA && back[1] == 0x55);
    CHECK(g7110_to_linear(samples, 41, 2, linear, 0) == G7110_LAW);
    CHECK(g7110_to_linear(samples, 41, 1, linear, 0) == G7110_LENGTH);
    CHECK(g7110_to_linear(samples, 40, 1, linear, 39) == G7110_ROOM);
    CHECK(g7110_from_linear(NULL, 0, 1, NULL, 0) == G7110_OK);
    return 0;
}

/* A length of 0 may come with NULL. */
static int nothing_lent(void)
{
    uint8_t pad = 0xA7;
    uint64_t read[5], wrote[3], walked[5];
    CHECK(g7110_read(NULL, 0, 1, G7110_ALL_TOOLS, NULL, 0, read) == G7110_SHORT);
    CHECK(g7110_read((const uint8_t *)"", 1, 1, 0, NULL, 0, read) == G7110_OK && read[1] == 1);
    CHECK(g7110_write(NULL, 0, 1, G7110_ALL_TOOLS, NULL, 0, wrote) == G7110_ROOM);
    CHECK(g7110_write(NULL, 0, 1, G7110_ALL_TOOLS, &pad, 1, wrote) == G7110_OK && pad == 0x00 && wrote[0] == 1);
    CHECK(g7110_walk(NULL, 0, 1, 0, NULL, 0, walked) == G7110_OK && walked[0] == 0);
    return 0;
}

/* The example of the listing, walked: three frames kept, and the fourth refused. */
static int walk_and_stop(void)
{
    static const uint8_t stream[5] = {0x41, 0x00, 0x56, 0x0F, 0x86};
    uint8_t out[200];
    uint64_t kept[5];
    memset(out, 0xA7, sizeof out);
    CHECK(g7110_walk(stream, sizeof stream, 1, G7110_ALL_TOOLS, out, sizeof out, kept) == G7110_SHORT);
    CHECK(kept[0] == 3 && kept[1] == 4 && kept[2] == 80 && kept[3] == 0 && kept[4] == 8);
    CHECK(out[78] == 0xFF && out[79] == 0x7F && out[80] == 0xA7 && out[199] == 0xA7);
    return 0;
}

/* A refused call leaves the output as lent, and reports nothing but the tool and the bit. */
static int refused(void)
{
    static const uint8_t pulse[2] = {0x28, 0x00}, run[2] = {0x57, 0x19};
    uint8_t out[G7110_MAX_SAMPLES], odd[41];
    uint64_t read[5] = {9, 9, 9, 9, 9}, wrote[3] = {9, 9, 9};
    size_t at;
    memset(out, 0xA7, sizeof out);
    memset(odd, 0xFF, sizeof odd);
    CHECK(g7110_read(pulse, 2, 1, G7110_ALL_TOOLS, out, sizeof out, read) == G7110_TOOL);
    CHECK(read[0] == 0 && read[1] == 0 && read[2] == 0 && read[3] == 8 && read[4] == 0);
    CHECK(g7110_read(run, 2, 1, G7110_ALL_TOOLS, out, sizeof out, read) == G7110_RUN);
    CHECK(read[0] == 0 && read[1] == 0 && read[2] == 0 && read[3] == 0 && read[4] == 9);
    CHECK(g7110_write(odd, 41, 1, G7110_ALL_TOOLS, out, sizeof out, wrote) == G7110_LENGTH);
    CHECK(g7110_write(odd, 40, 1, 2, out, sizeof out, wrote) == G7110_SET);
    CHECK(g7110_write(odd, 40, 2, 2, out, sizeof out, wrote) == G7110_LAW);
    CHECK(wrote[0] == 0 && wrote[1] == 0 && wrote[2] == 0);
    for (at = 0; at < sizeof out; at++) CHECK(out[at] == 0xA7);
    return 0;
}

/* A frame of few values, by tool 11, which sets up to 127 lack: 40 samples, 0 and 1 in turn, are a bit each. */
static int few_values(void)
{
    static const uint8_t wanted[6] = {0x02, 0x55, 0x55, 0x55, 0x55, 0x55}, no_digits[3] = {0x05, 0x79, 0xF3};
    uint8_t samples[40], kept[G7110_MAX_WRITTEN], sound[40];
    uint64_t wrote[3], got[5];
    size_t at;
    for (at = 0; at < sizeof samples; at++) samples[at] = at % 2 == 0 ? 0xFF : 0xFE;
    CHECK(G7110_ALL_TOOLS == 255 && G7110_FIELD_TOOLS == 127 && G7110_LAW_A == 0 && G7110_LAW_MU == 1);
    CHECK(g7110_write(samples, sizeof samples, 1, G7110_ALL_TOOLS, kept, sizeof kept, wrote) == G7110_OK);
    CHECK(wrote[0] == 6 && wrote[1] == 48 && wrote[2] == 11 && memcmp(kept, wanted, sizeof wanted) == 0);
    CHECK(g7110_read(kept, 6, 1, 128, sound, sizeof sound, got) == G7110_OK && got[3] == 11);
    CHECK(memcmp(sound, samples, sizeof samples) == 0);
    CHECK(g7110_read(kept, 6, 1, G7110_FIELD_TOOLS, sound, sizeof sound, got) == G7110_TOOL && got[3] == 11 && got[4] == 0);
    CHECK(g7110_write(samples, sizeof samples, 1, G7110_FIELD_TOOLS, kept, sizeof kept, wrote) == G7110_OK && wrote[2] == 1);
    CHECK(g7110_read(no_digits, 3, 1, 128, sound, sizeof sound, got) == G7110_PLACE && got[4] == 16);
    CHECK(g7110_read(no_digits, 3, 1, 256, sound, sizeof sound, got) == G7110_SET);
    return 0;
}

/* The octets of a box's block: those of its newest settings, or 16,384 where it has none. docs/STORE.md shows it. */
static uint32_t block_octets(const uint32_t state[G7110_SETTINGS])
{
    uint8_t text[G7110_SETTINGS_TEXT];
    uint64_t octets[1];
    uint32_t block = 0;
    const uint8_t *at;
    if (g7110_settings_read(state, state[0], text, octets) != G7110_OK) return G7110_NO_SETTINGS_BLOCK;
    for (at = text; *at != 'b'; at++) ; /* the third line is the first with a b */
    for (at += 6; *at != '\n'; at++) block = 10 * block + (uint32_t)(*at - '0');
    return block;
}

/* A box's settings: saved, put back, and wiped for the next tenant. */
static int settings(void)
{
    static const char first[] = "law=1\nset=255\nblock=16384\ngreeting=0\n";
    static const char other[] = "law=1\nset=1\nblock=65536\ngreeting=7\n";
    uint32_t state[G7110_SETTINGS] = {0};
    uint8_t text[G7110_SETTINGS_TEXT];
    uint64_t told[1];
    size_t at;
    CHECK(g7110_settings_read(state, state[0], text, told) == G7110_GONE && told[0] == 0);
    CHECK(block_octets(state) == 16384);
    CHECK(g7110_settings_save(state, (const uint8_t *)first, strlen(first), told) == G7110_OK && told[0] == 1);
    CHECK(g7110_settings_save(state, (const uint8_t *)other, strlen(other), told) == G7110_OK && told[0] == 2);
    CHECK(block_octets(state) == 65536);
    CHECK(g7110_settings_back(state, 1, told) == G7110_OK && told[0] == 3);
    CHECK(block_octets(state) == 16384);
    memset(text, 0xA7, sizeof text);
    CHECK(g7110_settings_read(state, state[0], text, told) == G7110_OK && told[0] == strlen(first));
    CHECK(memcmp(text, first, strlen(first)) == 0 && text[strlen(first)] == 0xA7 && text[79] == 0xA7);
    CHECK(g7110_settings_save(state, (const uint8_t *)first, strlen(first) - 1, told) == G7110_LINE && told[0] == 0);
    CHECK(g7110_settings_save(state, NULL, 0, told) == G7110_LINE);
    CHECK(g7110_settings_save(state, (const uint8_t *)other, strlen(other), told) == G7110_OK && block_octets(state) == 65536);
    CHECK(g7110_settings_wipe(state) == G7110_OK && state[0] == 4 && block_octets(state) == 16384);
    for (at = 1; at < G7110_SETTINGS; at++) CHECK(state[at] == 0);
    CHECK(g7110_settings_read(state, 4, text, told) == G7110_GONE);
    state[0] = UINT32_MAX;
    CHECK(g7110_settings_save(state, (const uint8_t *)first, strlen(first), told) == G7110_SPENT && told[0] == 0);
    CHECK(g7110_settings_back(state, 3, told) == G7110_GONE);
    return 0;
}

/* A recording from a studio: a frame, a loss of 80 samples, a loss of unknown length. It reads back as the same list. */
static int recording(const uint8_t *samples)
{
    static const uint16_t given[3] = {160, G7110_LOSS + 80, G7110_LOSS};
    uint8_t file[400], out[400];
    uint16_t items[4] = {9, 9, 9, 9};
    uint64_t wrote[1], told[6];
    CHECK(g7110_file_write(samples, 160, given, 3, G7110_LAW_MU, G7110_FIELD_TOOLS, file, sizeof file, wrote) == G7110_OK);
    CHECK(memcmp(file, "#!G7110M\n", G7110_HEADING) == 0 && file[wrote[0] - 1] == 0x01);
    memset(out, 0xA7, sizeof out);
    CHECK(g7110_file_read(file, (size_t)wrote[0], G7110_ALL_TOOLS, out, sizeof out, items, 4, told) == G7110_OK);
    CHECK(told[0] == 1 && told[1] == 3 && told[2] == wrote[0] - G7110_HEADING && told[3] == 160);
    CHECK(told[4] == 0 && told[5] == 0);
    CHECK(memcmp(items, given, sizeof given) == 0 && items[3] == 9);
    CHECK(memcmp(out, samples, 160) == 0 && out[160] == 0xA7);
    file[7] = 'm';
    CHECK(g7110_file_read(file, (size_t)wrote[0], G7110_ALL_TOOLS, out, sizeof out, items, 4, told) == G7110_HEAD);
    CHECK(told[0] == 0 && told[1] == 0 && told[2] == 0 && told[3] == 0);
    CHECK(g7110_file_read(NULL, 0, G7110_ALL_TOOLS, NULL, 0, NULL, 0, told) == G7110_HEAD);
    CHECK(g7110_file_write(samples, 159, given, 3, 1, G7110_ALL_TOOLS, file, sizeof file, wrote) == G7110_LENGTH);
    CHECK(g7110_file_write(NULL, 0, NULL, 0, 0, 1, NULL, 0, wrote) == G7110_ROOM && wrote[0] == 0);
    return 0;
}

/* A store: greetings put with their law, saved with their marks and loaded; and the lines of an early box, which are of law 1. */
static int store(void)
{
    static const char lines[] = "prompt=7\nstart=0\noctets=2\nlaw=0\nsamples=0\nmark=0,0\n"
                                "prompt=8\nstart=2\noctets=70\nlaw=1\nsamples=2800\nmark=0,0\nmark=64,2560\n";
    static const char early[] = "prompt=8\nstart=2\noctets=70\n";
    static uint8_t block[300], text[G7110_MAX_TABLE];
    static uint32_t table[G7110_MAX_CELLS];
    uint8_t frames[70];
    uint64_t told[2], octets[1], to[4];
    memset(frames, 0x41, sizeof frames);
    CHECK(g7110_store_cells(sizeof block) == 266 && g7110_store_cells(G7110_MAX_BLOCK) == G7110_MAX_CELLS);
    CHECK(g7110_store_put(block, sizeof block, table, 266, 0, 7, (const uint8_t *)"\0", 2, told) == G7110_OK && told[0] == 0);
    CHECK(g7110_store_put(block, sizeof block, table, 266, 1, 8, frames, 70, told) == G7110_OK && told[0] == 2);
    CHECK(g7110_store_put(block, sizeof block, table, 266, 2, 0, NULL, 0, told) == G7110_LAW && told[0] == 0);
    CHECK(g7110_store_jump(block, sizeof block, table, 266, 8, 2641, to) == G7110_OK);
    CHECK(to[0] == 66 && to[1] == 66 && to[2] == 1 && to[3] == 3); /* frame 66, two after the mark of frame 64 */
    CHECK(g7110_store_jump(block, sizeof block, table, 266, 8, 2559, to) == G7110_OK && to[0] == 63 && to[2] == 39 && to[3] == 64);
    CHECK(g7110_store_jump(block, sizeof block, table, 266, 8, 2800, to) == G7110_BEYOND && to[0] == 0 && to[3] == 0);
    CHECK(g7110_store_jump(block, sizeof block, table, 266, 7, 0, to) == G7110_BEYOND); /* pads hold no sample */
    CHECK(g7110_store_jump(block, sizeof block, table, 266, 9, UINT64_MAX, to) == G7110_ABSENT);
    CHECK(g7110_store_save(block, sizeof block, table, 266, text, sizeof text, octets) == G7110_OK);
    CHECK(octets[0] == strlen(lines) && memcmp(text, lines, strlen(lines)) == 0);
    CHECK(g7110_store_load((const uint8_t *)early, strlen(early), block, sizeof block, table, 265) == G7110_TABLE);
    CHECK(g7110_store_load((const uint8_t *)early, strlen(early), block, sizeof block, table, 266) == G7110_OK);
    CHECK(g7110_store_get(block, sizeof block, table, 266, 7, told) == G7110_ABSENT);
    CHECK(g7110_store_save(block, sizeof block, table, 266, text, sizeof text, octets) == G7110_OK);
    CHECK(memcmp(text, strstr(lines, "prompt=8"), (size_t)octets[0]) == 0 && octets[0] == strlen(strstr(lines, "prompt=8")));
    CHECK(g7110_store_load((const uint8_t *)lines, strlen(lines), block, sizeof block, table, 266) == G7110_OK);
    CHECK(g7110_store_load((const uint8_t *)lines, strlen(lines) - 2, block, sizeof block, table, 266) == G7110_TABLE);
    CHECK(g7110_store_get(block, sizeof block, table, 266, 7, told) == G7110_OK && told[1] == 2);
    return 0;
}

/* Longer greetings: a block of more than 65,535 octets, whose table is saved behind a first line. Without that line a start or octet
 * count above 65,535 is refused, and no number is ever shortened. */
static int long_greetings(void)
{
    static const char form[] = "form=2\n";
    static const char lines[] = "form=2\nprompt=7\nstart=70000\noctets=2\nlaw=1\nsamples=0\nmark=0,0\n";
    static uint8_t block[70002], pads[70001], text[G7110_MAX_TABLE];
    static uint32_t table[G7110_MAX_CELLS];
    uint64_t told[2], octets[1], walked[5];
    size_t cells = (size_t)g7110_store_cells(sizeof block);
    CHECK(g7110_walk(block, sizeof block, 1, 0, NULL, 0, walked) == G7110_OK && walked[0] == 70002 && walked[1] == 70002);
    CHECK(cells == 2444 && g7110_store_cells(UINT64_MAX) == G7110_MAX_CELLS);
    CHECK(g7110_store_save(block, sizeof block, table, cells, text, sizeof text, octets) == G7110_OK);
    CHECK(octets[0] == strlen(form) && memcmp(text, form, strlen(form)) == 0);
    CHECK(g7110_store_load((const uint8_t *)lines, strlen(lines), block, sizeof block, table, cells) == G7110_OK);
    CHECK(g7110_store_get(block, sizeof block, table, cells, 7, told) == G7110_OK && told[0] == 70000 && told[1] == 2);
    CHECK(g7110_store_save(block, sizeof block, table, cells, text, sizeof text, octets) == G7110_OK);
    CHECK(octets[0] == strlen(lines) && memcmp(text, lines, strlen(lines)) == 0);
    CHECK(g7110_store_load((const uint8_t *)lines + 7, strlen(lines) - 7, block, sizeof block, table, cells) == G7110_TABLE);
    CHECK(g7110_store_put(block, sizeof block, table, cells, 1, 8, pads, sizeof pads, told) == G7110_NOROOM && told[0] == 0);
    CHECK(g7110_store_get(block, sizeof block, table, cells, 7, told) == G7110_OK && told[0] == 70000);
    return 0;
}

int main(void)
{
    uint8_t samples[160];
    size_t at;
    for (at = 0; at < sizeof samples; at++) samples[at] = at % 20 == 0 ? 0xFE : 0xFF;
    if (keep_and_get_back(samples) || nothing_lent() || walk_and_stop() || refused() || few_values()) return 1;
    if (to_linear_and_back(samples) || settings() || recording(samples) || store() || long_greetings()) return 1;
    printf("ok\n");
    return 0;
}
