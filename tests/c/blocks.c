/* Each block of C of include/g7110.h, and each of docs/ that stands alone, as it stands there: the test takes them out, one file each,
 * by the words before a block of the header and by the heading above a block of a page. Here they have what they speak of, are run, and
 * what their comments say is looked at. Prints 'ok' and how many it ran. */
#include "g7110.h"

#include <stdio.h>
#include <string.h>

#include "store_how_a_box_starts.h"
#include "store_skipping.h"
#include "store_saving_and_loading.h"

#define CHECK(holds) \
    do { \
        if (!(holds)) { \
            printf("line %d: %s\n", __LINE__, #holds); \
            return 1; \
        } \
    } while (0)

static uint8_t samples[160], greeting[70];
static const size_t greeting_len = sizeof greeting;

static int frame_kept(void)
{
#include "keep_a_greeting_s_frame.h"
    CHECK(got[G7110_READ_SAMPLES] == 160 && memcmp(sound, samples, 160) == 0);
    CHECK(got[G7110_READ_OCTETS] == wrote[G7110_WRITE_OCTETS] && got[G7110_READ_BITS] == wrote[G7110_WRITE_BITS]);
    CHECK(got[G7110_READ_TOOL] == wrote[G7110_WRITE_TOOL] && got[G7110_READ_BIT] == 0);
    return 0;
}

/* A text is not ended by 0: it is printed by its count, and the octet behind it is as it was lent. */
static int reasons_asked(void)
{
#include "ask_why_a_frame_took_as_many_octets_as_it_did.h"
    CHECK(said[G7110_WHY_OCTETS] > 0 && text[said[G7110_WHY_OCTETS] - 1] == '\n');
    return 0;
}

static int settings_tried(void)
{
    static const uint8_t text[] = "law=1\nset=127\nblock=16384\ngreeting=7\n", other[] = "law=0\nset=1\nblock=65536\ngreeting=0\n";
    const size_t text_len = sizeof text - 1, other_len = sizeof other - 1;
    uint8_t back[G7110_SETTINGS_TEXT];
    uint64_t octets[1];
#include "try_other_settings.h"
    CHECK(g7110_settings_read(state, (uint32_t)now[G7110_SETTINGS_REVISION], back, octets) == G7110_OK);
    CHECK(octets[G7110_SETTINGS_OCTETS] == text_len && memcmp(back, text, text_len) == 0);
    CHECK(block_octets(state) == 16384);
    CHECK(g7110_settings_save(state, other, other_len, now) == G7110_OK && block_octets(state) == 65536);
    CHECK(g7110_settings_wipe(state) == G7110_OK && block_octets(state) == G7110_NO_SETTINGS_BLOCK);
    return 0;
}

static int greeting_mended(void)
{
    static uint8_t damaged[100];
    static const uint8_t cut[5] = {0x41, 0x00, 0x56, 0x0F, 0x86};
    const size_t damaged_len = sizeof damaged;
    uint64_t walked[5];
    memset(damaged, 0x31, sizeof damaged); /* 320 plus zeros each */
    damaged[99] = 0x01;
#include "mend_a_greeting_of_40_000_samples.h"
    CHECK(told[1] == 99 && told[2] == 99 && told[3] == 40000 - 99 * 320);
    CHECK(g7110_walk(mended, (size_t)told[0], G7110_LAW_MU, G7110_ALL_TOOLS, damaged, 0, walked) == G7110_ROOM);
    CHECK(walked[G7110_WALK_FRAMES] == 0 && walked[G7110_WALK_OCTETS] == 0 && walked[G7110_WALK_SAMPLES] == 0);
    CHECK(g7110_walk(cut, sizeof cut, G7110_LAW_MU, G7110_ALL_TOOLS, mended, sizeof mended, walked) == G7110_SHORT);
    CHECK(walked[G7110_WALK_FRAMES] == 3 && walked[G7110_WALK_OCTETS] == 4 && walked[G7110_WALK_SAMPLES] == 80);
    CHECK(walked[G7110_WALK_TOOL] == 0 && walked[G7110_WALK_BIT] == 8);
    return 0;
}

/* What a player does with a recording; here it counts. */
static unsigned long lost_ones, lost_samples, played;
static void lost(int count) { lost_ones++, lost_samples += (unsigned long)count; }
static void play(const uint8_t *sound, size_t count) { played += count + 0u * sound[0]; }

/* Nothing wrong, and where an octet that is none stands behind: what came before is played, and the end is looked at. */
static int recording_played(const uint8_t *file, size_t file_len)
{
    uint8_t out[1000];
    uint16_t items[9];
    const size_t out_len = sizeof out, items_len = sizeof items / sizeof items[0];
#include "to_play_a_recording.h"
    CHECK(told[G7110_FILE_READ_LAW] == G7110_LAW_MU && told[G7110_FILE_READ_ITEMS] == 3 && told[G7110_FILE_READ_SAMPLES] == 160);
    CHECK(told[G7110_FILE_READ_OCTETS] == file_len - G7110_HEADING && told[G7110_FILE_READ_TOOL] == 0 && told[G7110_FILE_READ_BIT] == 0);
    return 0;
}

static int recordings_played(void)
{
    static const uint16_t given[3] = {160, G7110_LOSS + 80, G7110_LOSS};
    uint8_t file[400];
    uint64_t wrote[1];
    CHECK(g7110_file_write(samples, 160, G7110_ARRAY(given), G7110_LAW_MU, G7110_FIELD_TOOLS, G7110_ARRAY(file), wrote) == G7110_OK);
    CHECK(recording_played(file, (size_t)wrote[G7110_FILE_WRITE_OCTETS]) == 0);
    CHECK(lost_ones == 2 && lost_samples == 80 && played == 160);
    file[wrote[G7110_FILE_WRITE_OCTETS] - 1] = 0xE0;
    CHECK(recording_played(file, (size_t)wrote[G7110_FILE_WRITE_OCTETS]) == 1);
    CHECK(lost_ones == 3 && lost_samples == 160 && played == 320);
    return 0;
}

/* Static memory, with the macros' sizes. What a greeting holds is handed to another put by a copy. */
static int store_made(void)
{
    uint8_t copy[70];
    uint64_t size;
#include "a_store_in_static_memory.h"
    CHECK(put[G7110_PUT_START] == 0 && put[G7110_PUT_MOVED] == 0 && table[0] == 1);
    memcpy(copy, block, sizeof copy);
    CHECK(g7110_store_put(G7110_ARRAY(block), G7110_TABLE(table), G7110_LAW_A, 8, G7110_ARRAY(copy), put) == G7110_OK);
    CHECK(put[G7110_PUT_START] == 70);
    CHECK(g7110_store_put(G7110_ARRAY(block), G7110_TABLE(table), G7110_LAW_A, 8, G7110_ARRAY(copy), put) == G7110_TAKEN);
    CHECK(strcmp(g7110_refusal_name(G7110_TAKEN), "TAKEN") == 0 && sizeof table / sizeof table[0] == 770);
    for (size = 0; size < 70000; size++) CHECK(g7110_store_cells(size) == G7110_CELLS(size));
    CHECK(g7110_store_cells(G7110_MAX_BLOCK) == G7110_CELLS(G7110_MAX_BLOCK) && G7110_CELLS(G7110_MAX_BLOCK) == G7110_MAX_CELLS);
    CHECK(g7110_store_cells(UINT64_MAX) == G7110_CELLS(UINT64_MAX));
    CHECK(G7110_PAGE(16384) == 8743 && G7110_PAGE(G7110_MAX_BLOCK) == G7110_MAX_TABLE && G7110_PAGE(UINT64_MAX) == G7110_MAX_TABLE);
    return 0;
}

static int greeting_played(const uint8_t *block, size_t block_len, const uint32_t *table, size_t cells)
{
#include "to_play_greeting_7.h"
#include "to_play_it_from_its_third_second_on.h"
    CHECK(got[G7110_GET_START] == 100 && got[G7110_GET_OCTETS] == 70);
    CHECK(to[G7110_JUMP_FRAME] == 50 && to[G7110_JUMP_OCTET] == 50 && to[G7110_JUMP_SAMPLE] == 0 && to[G7110_JUMP_READ] == 51);
    return 0;
}

/* A store that is saved, opened and skipped in: to a place, to place 0, past the end. */
static int store_opened(void)
{
    static uint8_t block[300], text[G7110_PAGE(300)], pads[100];
    static uint32_t table[G7110_CELLS(300)], opened[G7110_CELLS(300)];
    uint64_t put[2], octets[1], due[4];
    size_t from = 9, leave_out = 9;
    CHECK(g7110_store_put(G7110_ARRAY(block), G7110_TABLE(table), G7110_LAW_MU, 1, G7110_ARRAY(pads), put) == G7110_OK);
    CHECK(g7110_store_put(G7110_ARRAY(block), G7110_TABLE(table), G7110_LAW_MU, 7, greeting, greeting_len, put) == G7110_OK);
    CHECK(g7110_store_save(G7110_ARRAY(block), G7110_TABLE(table), G7110_ARRAY(text), octets) == G7110_OK);
    CHECK(open_store(text, (size_t)octets[G7110_STORE_SAVE_OCTETS], G7110_ARRAY(block), G7110_TABLE(opened)) == G7110_OK);
    CHECK(memcmp(opened, table, sizeof table) == 0);
    CHECK(greeting_played(G7110_ARRAY(block), G7110_TABLE(opened)) == 0);
    CHECK(skip_to(G7110_ARRAY(block), G7110_TABLE(opened), 7, 1, &from, &leave_out) == G7110_OK && from == 125 && leave_out == 0);
    from = leave_out = 9;
    CHECK(skip_to(G7110_ARRAY(block), G7110_TABLE(opened), 7, 9, &from, &leave_out) == G7110_BEYOND && from == 9 && leave_out == 9);
    CHECK(skip_to(G7110_ARRAY(block), G7110_TABLE(opened), 8, 0, &from, &leave_out) == G7110_ABSENT && from == 9 && leave_out == 9);
    CHECK(g7110_store_delete(G7110_ARRAY(block), G7110_TABLE(opened), 1) == G7110_OK);
    CHECK(g7110_store_next(G7110_ARRAY(block), G7110_TABLE(opened), due) == G7110_OK && due[G7110_MOVE_NUMBER] == 7);
    CHECK(due[G7110_MOVE_FROM] == 100 && due[G7110_MOVE_TO] == 0 && due[G7110_MOVE_OCTETS] == 70);
    memmove(block, block + 100, 70);
    CHECK(g7110_store_moved(G7110_ARRAY(block), G7110_TABLE(opened), 7, 0) == G7110_OK);
    CHECK(skip_to(G7110_ARRAY(block), G7110_TABLE(opened), 7, 0, &from, &leave_out) == G7110_OK && from == 0 && leave_out == 0);
    memset(text, 'x', 1);
    CHECK(open_store(text, (size_t)octets[G7110_STORE_SAVE_OCTETS], G7110_ARRAY(block), G7110_TABLE(opened)) == G7110_TABLE);
    return 0;
}

int main(void)
{
    static int (*const all[])(void) = {frame_kept,    reasons_asked, settings_tried, greeting_mended,
                                       recordings_played, store_made,    store_opened};
    size_t at;
    for (at = 0; at < sizeof samples; at++) samples[at] = at % 20 == 0 ? 0xFE : 0xFF;
    memset(greeting, 0x31, sizeof greeting); /* 320 plus zeros each */
    for (at = 0; at < sizeof all / sizeof all[0]; at++)
        if (all[at]() != 0) return printf("part %d failed\n", (int)at), 1;
    printf("ok\n");
    return 0;
}
