/* g7110.h: G.711.0 frames of the eight carried tools, read, written and walked; frames of samples to linear values and back;
 * why a frame takes its tool; a box's settings, saved and put back; a damaged greeting, mended; a store of greetings that
 * fills its gaps; recordings from studios, read and written. This header is also the manual.
 *
 * The archive libg7110.a is for x86-64 Linux alone.
 *
 * PROVED, TESTED, AND YOURS TO KEEP
 *   Proved, for all inputs: what a call answers, reports, writes and leaves as lent, and the order of its refusals, as this manual
 *   says it of each call. Each is proved equal to the project's definitions of documents 01 and 02 and of 001's sections 6.8, 7.11
 *   and 8.9. Proved too: a call ends, and reads and writes nothing but what is lent.
 *   Tested: the boundary. That this header declares the functions as they are, its numbers, names, macros and g7110_refusal_name,
 *   and that the compiled archive does what the proved code says. Every block of C in this manual and in docs/ is compiled, as C99 and
 *   as C++11, and run. The stack is a bound that is read from the archive's instructions (STACK).
 *   Not proved and not tested: the heading and the marks of a loss, which are remembered (RECORDINGS).
 *   Yours to keep: BUFFERS, and under POWER the order of writes.
 *
 * LAW         G7110_LAW_A is 0, G7110_LAW_MU is 1. The law is not in the octets; the caller must know it. Above 1: G7110_LAW.
 * SET         A number from 0 to 255: tool t (1 to 7) adds 2^(t-1), tool 11 adds 128. A reader takes only frames whose tool is
 *             in its set; pads need no tool. A writer's set must hold tool 1, so it is odd. G7110_ALL_TOOLS is 255.
 *             Versions before 12 lack tool 11: they refuse its frames with G7110_TOOL, and sets above 127 with G7110_SET. So read
 *             with G7110_ALL_TOOLS, and write with G7110_FIELD_TOOLS, 127, for boxes in the field: every version reads that.
 * TOOLS       0 pad, 1 uncompressed, 2 constant plus zero, 3 constant minus zero, 4 constant, 5 binary,
 *             6 plus-minus zero Rice, 7 value-location, 11 fractional-bit (few values; its frames begin with 02 to 1F).
 *             8, 9, 10, 12 and 13 are known by their first octet and refused with G7110_TOOL.
 * LENGTHS     A frame has 0, 40, 80, 160, 240 or 320 samples. A frame of 0 samples is a pad: one octet, 00.
 *
 * WHAT A CALL RETURNS
 *   0 (G7110_OK), or the number of a refusal; g7110_store_cells a count, g7110_version a version. A call that takes a report
 *   writes it in both cases.
 *   A refused g7110_read or g7110_write leaves the output as lent; its report is all 0, save that G7110_TOOL gives the tool
 *   and that a refused g7110_read gives the bit.
 *   A refused g7110_walk keeps the frames before the refused one: their samples stand in the output and are counted in
 *   the report. Past them the output is as lent.
 *   An accepted call too leaves the output past what it reports as lent.
 *   A conversion has no report: accepted, its samples_len or linear_len results stand at the output's start; refused, the
 *   output is as lent.
 *   g7110_refusal_name has the refusal's name. The places of each report have names, which stand beside the call.
 *
 * BIT
 *   Which bit was bad: counted from 0 at the refused frame's start, highest bit of an octet first.
 *     G7110_SHORT             the first bit that is missing: 8 times the octets from the frame's start
 *     G7110_CASE, _METHOD     the first bit of the range case, of the method
 *     G7110_RUN               the first bit of the run's code
 *     G7110_PLACE             the first bit of the listed place; where no place is left, the end of the count bits; in tool 11
 *                             the first bit of the number of five samples
 *     G7110_ALIGN             the first filling bit that is 1
 *   0 for every other refusal, and for an accepted call. docs/RETURNS.md has an example of each.
 *
 * VERSIONS
 *   This is version 13, major 4, minor 1. With an addition the minor goes up: calls and names are new, and all that was there answers as
 *   it did, so a program needs no change. Else the major goes up and the minor is 0. So a program that says
 *   `#if G7110_VERSION_MAJOR != 4 || G7110_VERSION_MINOR < 1` before its `#error` compiles with this header and with all additions to it.
 *   Version 1 was 1.0, versions 2 to 8 were 2.0 to 2.6, 9 to 11 were 3.0 to 3.2, and 12 was 4.0.
 *   G7110_VERSION goes up by one when a call is added, or a call or its report changes.
 *   13  the calls for a store whose power may be cut: g7110_store_try, g7110_store_next, g7110_store_moved, g7110_store_renumber and
 *       g7110_move_step, with G7110_MOVE. Block, table and text are as they were; every call of version 12 answers as it did.
 *       Calls that tell: g7110_version, g7110_check, g7110_head, g7110_file_head, g7110_file_next, g7110_store_info, g7110_store_at,
 *       g7110_store_totals, g7110_settings_get, g7110_settings_kept, g7110_mend_why; masters of 16 bits: g7110_to_master,
 *       g7110_from_master.
 *       G7110_STACK is 10,240, and was 8,192: g7110_store_load needs more, and its bound is told.
 *       Names for the laws, for the set of boxes in the field and for the places of reports; G7110_ARRAY, G7110_TABLE(t), G7110_CELLS and
 *       G7110_PAGE; g7110_refusal_name.
 *   12  tool 11, fractional-bit, and sets up to 255: G7110_ALL_TOOLS was 127. With a set up to 127 every call but g7110_why answers
 *       as in version 11. g7110_why writes a ninth line, that of tool 11. Mending and the store take frames of tool 11, so version
 *       11 refuses the saved table of such a greeting with G7110_BAD; a set line may say up to 255.
 *   11  walks, files and mending take up to G7110_MAX_STREAM octets, and a store's block may be that large: both were 65,535 and
 *       16,384. A saved table of a block above 65,535 octets begins with the line form=2; version 10 refuses it with G7110_TABLE.
 *       No call and no report changes, and a table of a block of up to 16,384 octets is as it was.
 *   10  g7110_store_jump.
 *   9   g7110_store_put takes the law, before the number. A store's table has more numbers: the law, the samples and the marks of
 *       each greeting. g7110_store_save writes them; g7110_store_load takes its text and that of version 7. A program that was
 *       compiled for an earlier version must be compiled again. A table's numbers of version 7 are refused with G7110_TABLE: load
 *       what was saved of it.
 *   8   g7110_file_read and g7110_file_write.
 *   7   the calls over a store of greetings.
 *   6   g7110_mend.
 *   5   g7110_why.
 *   4   the calls over settings.
 *   3   g7110_to_linear and g7110_from_linear.
 *   2   g7110_read and g7110_walk report five numbers: the bit is new, at the end. They write report[4], so a program that was
 *       compiled for version 1, which lends four, must be compiled again. A value-location frame that leaves no place for
 *       zero is accepted; version 1 refused it with G7110_PLACE.
 *   1   the first.
 *
 * BUFFERS
 *   A pointer comes with its length, in octets, or in values where it points to int16_t, uint16_t or uint32_t. A length of 0 may
 *   come with any pointer, NULL too. A pointer to one of these is aligned as such a pointer must be.
 *   Lent buffers must not overlap: not input and output, not output and report. So the octets of a greeting that lies in the block
 *   may not be handed to a put into that block: copy them first.
 *   A text is octets and their count. No 0 ends it: print it by its count, and hand strlen of a text of C, not sizeof.
 *   Where a buffer is an array, G7110_ARRAY(a) stands for the pointer and the length together: a, and sizeof a / sizeof a[0].
 *   G7110_TABLE(t) is the same of a table (without brackets the name is the refusal's). Of a pointer they count wrongly, so
 *   compile with -Wall, which warns of it.
 *   The calls use no heap, no global state and no lock: they may be called from several threads at once, each with its own buffers.
 *
 * STACK
 *   A call uses at most G7110_STACK octets of stack, its return address, its arguments and what it calls included. That is a bound, read
 *   from the archive's own instructions: of each function how deep it goes, and what it calls there. No function comes back to
 *   itself, and none is called by a pointer; a test sees to it. Beside the bound each greater call is measured, by tests/c/stack.c, on
 *   frames of every kind, few and many settings and greetings, and files with losses. The test prints both, and holds both against
 *   this figure and the measured one against the bound.
 *   Two functions of the C library are called, memcpy and memset; they are taken to use 256 octets at most. A lazy linker looks each of
 *   them up at its first call, on the same stack. That is not in the figure: some 3,000 octets more were measured, once. Where stack
 *   is short, link with `-z now` or statically.
 *
 * MEMORY
 *   What a box lends for its store, in octets, for the two sizes of a block; G7110_CELLS(size) is g7110_store_cells(size), and
 *   G7110_PAGE(size) has room for every text of such a block's table, both for the size of an array:
 *     block                                16,384      1,048,576
 *     table, G7110_CELLS(size)                770         33,026 cells of 4 octets each
 *       in octets                           3,080        132,104
 *     text of the table, at most            7,392        379,687
 *       G7110_PAGE(size)                    8,743        379,687
 *     stack, G7110_STACK                   10,240         10,240
 *   Where power may be cut, a second table, a second page and the spare come beside it. A greeting that is put is lent besides.
 *   A store in static memory, and a greeting put into it:
 *
 *     static uint8_t block[G7110_NO_SETTINGS_BLOCK];
 *     static uint32_t table[G7110_CELLS(sizeof block)]; // all 0: a fresh one
 *     uint64_t put[2];
 *     uint32_t end = g7110_store_put(G7110_ARRAY(block), G7110_TABLE(table), G7110_LAW_MU, 7, greeting, greeting_len, put);
 *     if (end != G7110_OK) return printf("greeting 7: %s\n", g7110_refusal_name(end)), 1;
 *     // it lies from block + put[G7110_PUT_START] on
 *
 * WHY
 *   g7110_why tells why g7110_write takes the tool that it takes. Its text is nine lines, each ended by octet 0A: tools 1 to 7 in
 *   order, tool 11, and the winner.
 *     tool=6 state=fits why=0 octets=2
 *     winner=6 by=octets
 *   state=out    the tool is not in the set.
 *   state=no     it does not apply: why= is the first of its conditions that fails. Value-location (7) has three: 1 the length, 80
 *                samples or more; 2 the row, that least and greatest are a row's and the length fits it; 3 the frequency of 0, that no
 *                value is more frequent. Every other tool has one, numbered 1. why= is 0 in the other states.
 *   state=fits   it applies: octets= is what its form needs. octets= is 0 in the other states.
 *   winner=      the tool that g7110_write reports: fewest octets, and on equal octets the first of 2, 3, 4, 5, 6, 7, 11, 1.
 *   by=tie       another tool in the set needs as few octets as the winner; else by=octets.
 *   A frame of no samples: condition 1 of every tool in the set fails, and the winner is tool 0 by octets.
 *   The text has at most 508 octets. It stands at the start of the lent G7110_WHY_TEXT; the rest stays as lent. A refused call leaves
 *   all of it as lent and reports 0.
 *
 * SETTINGS
 *   A box keeps its last eight settings. They lie in G7110_SETTINGS numbers that the caller lends and keeps, in whatever store it has:
 *   the last number given, then eight revisions of five numbers (number, law, set, block, greeting), the oldest first, empty
 *   ones all 0 and last. A fresh state is all 0. Any content is a state: a row whose number is 0 is none; of two rows with
 *   one number the first is meant; a new number is one more than the state's first, whatever the rows say.
 *   The text of settings is four lines in this order, each ended by octet 0A, and nothing after them:
 *     law=       0 or 1
 *     set=       0 to 255
 *     block=     1 to 1048576, the octets of the box's block
 *     greeting=  0 to 65535, 0 for none
 *   A number is decimal, without sign, space or leading zero; one too large is refused, never wrapped.
 *   A save, and going back, adds a revision numbered one more than the last, from 1; the ninth pushes out the oldest, which
 *   may be the one gone back to. A wipe for the next tenant sets the numbers of the revisions to 0 and leaves the numbering
 *   running. A refused call leaves the state and the text as lent and reports 0.
 *   When a box starts it reads its newest settings (revision state[0]) and lends a block of that size; with G7110_GONE there
 *   are none, and the block has G7110_NO_SETTINGS_BLOCK octets. docs/STORE.md shows it.
 *
 * MENDING
 *   Whole frames are kept from the greeting's start as long as the walk with G7110_ALL_TOOLS accepts them and they don't pass
 *   the total; pads right behind the last of them are kept too, also at the total. The first frame that is refused or passes
 *   the total ends the keeping, and nothing behind it is looked at. Constant plus zero frames fill up to the total, the
 *   longest first: 320, 240, 160, 80, 40 samples, one octet each. So the result is accepted by the walk and holds exactly the
 *   total; an undamaged greeting of the right total comes back unchanged, and mending twice changes nothing more.
 *   The total is a multiple of 40, at most G7110_MOST_TOTAL; 0 is allowed. A refused call writes nothing and reports zeros.
 *
 * STORE
 *   A block of at most G7110_MAX_BLOCK octets keeps up to G7110_MAX_GREETINGS greetings, each with a number from 1 to
 *   G7110_MAX_NUMBER and 1 or more octets that the walk accepts with G7110_ALL_TOOLS. The caller lends the block and a table, and
 *   keeps both; the calls keep nothing. A longer block is used up to G7110_MAX_BLOCK; octets past that are never touched.
 *   The table has g7110_store_cells(size) numbers, 194 + 2 * (size / 64 + 32) of them; a fresh one is all 0:
 *     cells 0 to 96      how many greetings there are, then number, start and octets of each, in order of start
 *     cells 97 to 193    how many greetings there are, then law, samples and how many marks of each, in the same order
 *     from cell 194 on   the marks of all, greeting after greeting, two cells each: octets, samples
 *   Cells that no greeting uses stay as they were; those past g7110_store_cells(size) are never looked at or changed.
 *   A mark stands for frame 0, 64, 128 and so on of a greeting, pads counted: the octets and the samples before that frame, from the
 *   greeting's start. It stands for a frame that is there: after exactly 64 frames there is no second one. Samples and marks are
 *   what the walk gives by the greeting's law; a greeting that is moved keeps them. All marks always have room.
 *   A put takes the lowest gap that holds the greeting; the room behind the last one is a gap like any other. If none holds
 *   it, all greetings first close up from 0 in their order: those whose start changes are moved, and the octets moved are
 *   reported. So G7110_NOROOM is given only when the octets held and the new ones exceed the block. No other octet of the
 *   block is written, and every other greeting reads the same. Deleting writes nothing into the block.
 *   A jump names the frame that holds a sample of a greeting: it begins at the last mark at or before the sample, and reads 1 to 64
 *   frames, whatever the greeting's length. What it names is what a walk from the greeting's start would.
 *   Refusals, in order: G7110_TABLE, G7110_LAW (put), G7110_NUMBER, G7110_TAKEN (put) or G7110_ABSENT (get, delete, jump), G7110_BAD
 *   (put), G7110_FULL, G7110_NOROOM; of a jump G7110_BEYOND, then G7110_BAD. G7110_TABLE is for a table that is too short, or that calls
 *   do not leave for a block of this size: more than 32 greetings, starts not in order, greetings that overlap, are empty or pass the
 *   block's end, a number out of range or used twice; another count in cell 97 than in cell 0, a law above 1, or more marks of a
 *   greeting than its octets / 64 + 1.
 *   What the cells of samples and marks say is not judged; a save writes it as it stands, and a jump goes by it: G7110_BEYOND is by
 *   the table's samples, and where the frames from the mark on do not reach the sample, or one of them is refused, it is G7110_BAD.
 *   From calls alone G7110_TABLE can't arise, nor G7110_BAD of a jump, and samples and marks are true. A refused call leaves block
 *   and table as lent and reports zeros.
 *   To play greeting 7:
 *
 *     uint64_t got[2];
 *     if (g7110_store_get(block, block_len, table, cells, 7, got) != G7110_OK) return 1;
 *     // its octets are the got[G7110_GET_OCTETS] octets from block + got[G7110_GET_START] on
 *
 *   To play it from its third second on, at 8,000 samples a second:
 *
 *     uint64_t to[4];
 *     if (g7110_store_jump(block, block_len, table, cells, 7, 16000, to) != G7110_OK) return 1;
 *     // read from block + got[G7110_GET_START] + to[G7110_JUMP_OCTET] on; of the first frame play from sample to[G7110_JUMP_SAMPLE] on
 *
 * POWER
 *   Where power may be cut in the middle of a write, five calls close up one greeting at a time, so that no greeting is ever lost: after
 *   a start the store is the one before the call that was cut or the one after it. What lasts is the block, two pages for the table's
 *   text, a spare of any number of octets, 0 too, and a record of eight numbers that changes in one write; the caller writes it, in the
 *   order of docs/STORE.md, which has the loop in C. A fresh record is all 0:
 *     page, record[0]            the page in use, 0 or 1
 *     state, record[1]           0 still, 1 moving, 2 moving and the chunk is whole in the spare
 *     from, to, octets           record[2] to [4], the move: where the greeting's octets lie, where they go, how many there are
 *     done, record[5]            how many of them are there
 *     record[6] and record[7]    0
 *   With d = from - to and left = octets - done a step of g7110_move_step is this. In state 1, where d is the spare's length or more,
 *   min(left, d) octets go from block + from + done to block + to + done, and done grows by as many; where d is less, min(left, the
 *   spare's length) octets go from block + from + done to the start of the spare, and the state is 2. In state 2 as many go from
 *   the spare to block + to + done, done grows by as many, and the state is 1. Where done reaches octets the next record is still:
 *   the other page, and zeros. A step that was cut is made again from the same record, to the same end.
 *   The record tells of a move in a block where the page is 0 or 1, the state 1 or 2, to below from, from + octets at most the block's
 *   length (at most G7110_MAX_BLOCK), done below octets, in state 2 d below the spare's length, and the last two are 0; else the
 *   step is refused with G7110_MOVE.
 *
 * RECORDINGS
 *   Studios send the G.711.0 storage file of RFC 7655. It is a heading and then items one after another, at most G7110_MAX_STREAM
 *   octets of them. The RFC was not at hand: the heading and the marks of a loss are as they are remembered (docs/DECISIONS.md).
 *   The heading is ten octets: "#!G7110A" or "#!G7110M" (A-law, mu-law), octet 0A, and the version, 00. The law comes from it.
 *   An item is a frame or a loss. A loss is a lost frame. It is handed on as lost, never as sound, and two marks stand for it:
 *     an erasure frame   an ordinary frame of 40 samples or more, by any tool, whose samples are all 0++ or all 0--, the second
 *                        levels from zero (FE or 7E of mu-law, D4 or 54 of A-law). It is a loss of as many samples.
 *     the octet 01       a loss whose length is not known. g7110_walk refuses it with G7110_PREFIX.
 *   In a list of items, each of 16 bits, a frame is its number of samples, 0 for a pad; a loss is G7110_LOSS plus its length, or
 *   G7110_LOSS alone where that is not known. The samples beside the list are those of the frames, one after another; a loss
 *   has none there.
 *   What is written reads back as the same list, by every reader whose set holds the writer's, save that a frame given whose
 *   samples are all 0++ or all 0-- is an erasure frame, and reads back as a loss of its length.
 *   A refused g7110_file_read keeps the items before the refused one, as a walk does: they stand in out and items and are
 *   counted. A refused g7110_file_write writes nothing and reports 0.
 *   To play a recording, and to hear of each loss:
 *
 *     uint64_t told[6];
 *     uint32_t end = g7110_file_read(file, file_len, G7110_ALL_TOOLS, out, out_len, items, items_len, told);
 *     size_t at, from = 0;
 *     for (at = 0; at < told[G7110_FILE_READ_ITEMS]; at++) {
 *         if (items[at] >= G7110_LOSS) lost(items[at] - G7110_LOSS); // samples lost, 0 if that is not known
 *         else play(out + from, items[at]), from += items[at];
 *     }
 *     if (end != G7110_OK) return 1; // the items before the refused one were played; told[G7110_FILE_READ_OCTETS] is its place
 *
 * ROOM
 *   The output's length is the room. Reading needs the frame's samples (G7110_MAX_SAMPLES are always enough), writing the
 *   form's octets (G7110_MAX_WRITTEN are always enough), walking the samples of all frames together.
 *
 *   Converting needs as many values as the frame has samples. Mending needs the result's octets (G7110_MAX_STREAM are always
 *   enough). Reading a file needs the samples of its frames, and an erasure frame's while it is read, and a place in items for each
 *   item (as many as octets behind the heading are always enough); writing one the heading and all items' octets (G7110_MAX_FILE
 *   are always enough).
 *
 * LINEAR VALUES
 *   They are in the scale of 001's section 6.8, not of 16 bits: A-law has 13 bits, -4096 to 4095, mu-law 14, -8159 to 8158.
 *   Other values are clipped to these ends. A master of 16 bits is brought to scale first, by an arithmetic shift right of 3
 *   for A-law and 2 for mu-law, and back by a shift left: g7110_to_master and g7110_from_master do so, the other two don't shift.
 *   All 256 octets of A-law return to themselves, and all of mu-law but 7F (minus zero), which returns as FF. In the ranges
 *   above a value returns at most 2^e away, e as in (6-6) and (6-8): 64 at most for A-law, 128 for mu-law.
 *
 * EXAMPLE
 *   Keep a greeting's frame, and get it back:
 *
 *     uint8_t kept[G7110_MAX_WRITTEN], sound[G7110_MAX_SAMPLES];
 *     uint64_t wrote[3], got[5];
 *     if (g7110_write(samples, 160, G7110_LAW_MU, G7110_FIELD_TOOLS, kept, sizeof kept, wrote) != G7110_OK) return 1;
 *     if (g7110_read(kept, wrote[G7110_WRITE_OCTETS], G7110_LAW_MU, G7110_ALL_TOOLS, sound, sizeof sound, got) != G7110_OK) return 1;
 *     // got[G7110_READ_SAMPLES] is 160, and sound holds the samples again
 *
 *   Ask why a frame took as many octets as it did:
 *
 *     uint8_t text[G7110_WHY_TEXT];
 *     uint64_t said[1];
 *     if (g7110_why(samples, 160, G7110_LAW_MU, G7110_FIELD_TOOLS, text, said) != G7110_OK) return 1;
 *     fwrite(text, 1, said[G7110_WHY_OCTETS], stdout);
 *
 *   Try other settings, and put the old ones back:
 *
 *     uint32_t state[G7110_SETTINGS] = {0};
 *     uint64_t old[1], now[1];
 *     if (g7110_settings_save(state, text, text_len, old) != G7110_OK) return 1;
 *     if (g7110_settings_save(state, other, other_len, now) != G7110_OK) return 1;
 *     if (g7110_settings_back(state, (uint32_t)old[G7110_SETTINGS_REVISION], now) != G7110_OK) return 1;
 *     // revision now[G7110_SETTINGS_REVISION] has the old values
 *
 *   Mend a greeting of 40,000 samples, and say what was lost:
 *
 *     static uint8_t mended[G7110_MAX_STREAM];
 *     uint64_t told[4];
 *     if (g7110_mend(damaged, damaged_len, G7110_LAW_MU, 40000, mended, sizeof mended, told) != G7110_OK) return 1;
 *     // the first told[0] octets of mended are a greeting of 40,000 samples; the last told[3] of them are plus zeros
 */
#ifndef G7110_H
#define G7110_H

#include <stddef.h>
#include <stdint.h>

#ifdef __cplusplus
extern "C" {
#endif

#define G7110_VERSION 13
#define G7110_VERSION_MAJOR 4
#define G7110_VERSION_MINOR 1

#define G7110_MAX_SAMPLES 320 /* samples of a frame */
#define G7110_MAX_WRITTEN 321 /* octets of a written frame */
#define G7110_MAX_FRAME 402   /* octets of an accepted frame */
#define G7110_MAX_STREAM 1048576 /* octets of a walk */
#define G7110_ALL_TOOLS 255
#define G7110_FIELD_TOOLS 127  /* all but tool 11: what every version reads */
#define G7110_STACK 10240      /* octets of stack, as the manual says under STACK */
#define G7110_WHY_TEXT 512     /* octets lent for the text of g7110_why */
#define G7110_SETTINGS 41      /* numbers of a box's settings */
#define G7110_SETTINGS_TEXT 80 /* octets lent for their text, which has at most 67 */
#define G7110_NO_SETTINGS_BLOCK 16384 /* octets of the block of a box that has no settings */
#define G7110_MOST_TOTAL 1000000      /* samples of a greeting that is mended */
#define G7110_MAX_BLOCK 1048576 /* octets of a store's block */
#define G7110_MAX_GREETINGS 32 /* greetings of a store */
#define G7110_MAX_NUMBER 65535 /* the greatest number of a greeting */
#define G7110_MAX_CELLS 33026  /* numbers of the table of the largest block */
#define G7110_MAX_TABLE 379687 /* octets of the text of a table that calls left */
#define G7110_HEADING 10       /* octets of a file's heading */
#define G7110_MAX_FILE 1048586 /* octets of a file, its heading too */
#define G7110_LOSS 32768       /* what is added to a loss's length in a list of items */

/* An array and how many it has, for a pointer and its length; the same of a store's table. */
#define G7110_ARRAY(a) (a), (sizeof(a) / sizeof((a)[0]))
#define G7110_TABLE(t) G7110_ARRAY(t)

/* For the size of an array: g7110_store_cells(size), and room for every text of the table of a block of size octets. */
#define G7110_USED(size) ((size) < G7110_MAX_BLOCK ? (size) : G7110_MAX_BLOCK)
#define G7110_CELLS(size) (194 + 2 * (G7110_USED(size) / 64 + 32))
#define G7110_PAGE(size) (7 + 66 * 32 + 23 * (G7110_USED(size) / 64 + 32))

/* The laws. */
enum { G7110_LAW_A = 0, G7110_LAW_MU = 1 };

/* The refusals, by number. */
enum {
    G7110_OK = 0,
    G7110_SHORT = 1,   /* octets end before the frame does; also one frame asked of no octets */
    G7110_PREFIX = 2,  /* first octet not assigned */
    G7110_TOOL = 3,    /* the tool is 8, 9, 10, 12 or 13, or a carried one and not in the set; the number is given */
    G7110_ROOM = 4,    /* output has fewer octets left than the frame needs; no place left in the list of items */
    G7110_CASE = 5,    /* range case or flag not allowed */
    G7110_METHOD = 6,  /* method 110 */
    G7110_RUN = 7,     /* run longer than the places left */
    G7110_PLACE = 8,   /* listed place not below D or not rising; also where no place is left to list (D = 0); in tool 11 five
                          samples that are no digits */
    G7110_ALIGN = 9,   /* a filling bit isn't 0 */
    G7110_LENGTH = 10, /* writer or conversion given other than 0, 40, 80, 160, 240, 320 samples; a list of items that is none */
    G7110_SET = 11,    /* set above 255, or even for a writer */
    G7110_LAW = 12,    /* law above 1 */
    G7110_LONG = 13,   /* walk given more than 1,048,576 octets; a file with more behind its heading */
    G7110_HEAD = 14,   /* the first ten octets of a file are no heading: another letter or version, or fewer octets */
    G7110_NUMBER = 15, /* a greeting's number is 0 or above 65,535 */
    G7110_TAKEN = 16,  /* put, renumber: a greeting has the number */
    G7110_ABSENT = 17, /* get, delete, jump, moved, renumber: no greeting has the number */
    G7110_BAD = 18,    /* the greeting is empty, or the walk refuses it with G7110_ALL_TOOLS and room enough; jump: false marks */
    G7110_FULL = 19,   /* the store has 32 greetings */
    G7110_NOROOM = 20, /* the octets held and the new ones exceed the block's size */
    G7110_BEYOND = 21, /* jump: the sample number isn't below the greeting's samples */
    G7110_TOTAL = 22,  /* total of samples not a multiple of 40, or above 1,000,000 */
    G7110_LINE = 23,   /* text not of the settings' form, or a value out of its range */
    G7110_GONE = 24,   /* revision not kept; 0 is never kept */
    G7110_SPENT = 25,  /* the new revision's number would pass 4,294,967,295 */
    G7110_TABLE = 26,  /* a store's table is too short, or is not one that calls leave for this block */
    G7110_MOVE = 27    /* the record tells of no move in this block; moved: it is not the next move */
};

/* The name of a refusal, as above without G7110_; "OK" for 0, "?" for a number that is none. A text of C, ended by 0. */
static inline const char *g7110_refusal_name(uint32_t number)
{
    static const char *const names[] = {
        "OK",     "SHORT", "PREFIX", "TOOL",   "ROOM", "CASE", "METHOD", "RUN",    "PLACE", "ALIGN", "LENGTH", "SET",  "LAW",   "LONG",
        "HEAD",   "NUMBER", "TAKEN", "ABSENT", "BAD",  "FULL", "NOROOM", "BEYOND", "TOTAL", "LINE",  "GONE",   "SPENT", "TABLE", "MOVE"};
    return number < sizeof names / sizeof names[0] ? names[number] : "?";
}

/* The version of the calls that the archive has: its own G7110_VERSION. */
uint32_t g7110_version(void);

/* Reads one frame at the start of the octets. report: samples, octets used, bits, tool, bit. */
enum { G7110_READ_SAMPLES, G7110_READ_OCTETS, G7110_READ_BITS, G7110_READ_TOOL, G7110_READ_BIT };
uint32_t g7110_read(const uint8_t *octets, size_t octets_len, uint32_t law, uint32_t set,
                    uint8_t *out, size_t out_len, uint64_t report[5]);

/* Writes one frame of samples_len samples in the chosen form: of the set's tools that apply, the fewest octets.
 * At most samples_len + 1 octets. report: octets, bits, tool. */
enum { G7110_WRITE_OCTETS, G7110_WRITE_BITS, G7110_WRITE_TOOL };
uint32_t g7110_write(const uint8_t *samples, size_t samples_len, uint32_t law, uint32_t set,
                     uint8_t *out, size_t out_len, uint64_t report[3]);

/* Tells why g7110_write takes its tool for these samples, as the manual says under WHY. Refusals as of g7110_write, in its order,
 * G7110_ROOM left out: G7110_LAW, G7110_SET, G7110_LENGTH. report: octets of text. */
enum { G7110_WHY_OCTETS };
uint32_t g7110_why(const uint8_t *samples, size_t samples_len, uint32_t law, uint32_t set, uint8_t text[G7110_WHY_TEXT],
                   uint64_t report[1]);

/* Walks a stream, frame after frame. report: frames, octets (also the place of a refused frame), samples, tool, bit (of the
 * refused frame, counted from its start).
 * G7110_LAW, G7110_SET and G7110_LONG refuse before any frame. A walk over no octets is accepted. */
enum { G7110_WALK_FRAMES, G7110_WALK_OCTETS, G7110_WALK_SAMPLES, G7110_WALK_TOOL, G7110_WALK_BIT };
uint32_t g7110_walk(const uint8_t *octets, size_t octets_len, uint32_t law, uint32_t set,
                    uint8_t *out, size_t out_len, uint64_t report[5]);

/* The places of the report of g7110_check. */
enum { G7110_CHECK_FRAMES = 0, G7110_CHECK_OCTETS = 1, G7110_CHECK_SAMPLES = 2, G7110_CHECK_TOOL = 3, G7110_CHECK_BIT = 4 };

/* Judges a stream without room for its samples: answers and reports what g7110_walk would with room never short.
 * report: frames, octets (also the place of a refused frame), samples, tool, bit. */
uint32_t g7110_check(const uint8_t *octets, size_t octets_len, uint32_t law, uint32_t set, uint64_t report[5]);

/* The places of the report of g7110_head. */
enum { G7110_HEAD_TOOL = 0, G7110_HEAD_SAMPLES = 1 };

/* Tells the tool and the samples of the frame at the start, from its first one or two octets; nothing past them is looked at, so a
 * frame that is cut, or that g7110_read refuses for its body, has a head too. A pad is 0, 0 and needs no tool. Refusals, in order:
 * G7110_SET, G7110_SHORT (no octets, or a second one that must decide is missing), G7110_PREFIX, G7110_TOOL. report: tool, samples;
 * refused zeros, save that G7110_TOOL gives the tool. */
uint32_t g7110_head(const uint8_t *octets, size_t octets_len, uint32_t set, uint64_t report[2]);

/* Converts a frame of samples to linear values, by (6-1) to (6-4) of 001. Refusals, in order: G7110_LAW, G7110_LENGTH,
 * G7110_ROOM (out_len counts values). */
uint32_t g7110_to_linear(const uint8_t *samples, size_t samples_len, uint32_t law, int16_t *out, size_t out_len);

/* Converts a frame of linear values to samples, by (6-5) to (6-8) of 001. Refusals, in order: G7110_LAW, G7110_LENGTH,
 * G7110_ROOM. */
uint32_t g7110_from_linear(const int16_t *linear, size_t linear_len, uint32_t law, uint8_t *out, size_t out_len);

/* As g7110_to_linear, each value brought to 16 bits by a shift left, 3 for A-law and 2 for mu-law. */
uint32_t g7110_to_master(const uint8_t *samples, size_t samples_len, uint32_t law, int16_t *out, size_t out_len);

/* As g7110_from_linear, each value of 16 bits brought to the law's scale first, by the same shift right, which is arithmetic. */
uint32_t g7110_from_master(const int16_t *master, size_t master_len, uint32_t law, uint8_t *out, size_t out_len);

/* Saves the settings that the text says. Refused with G7110_LINE, then G7110_SPENT. report: the new revision. */
enum { G7110_SETTINGS_REVISION }; /* g7110_settings_back too */
uint32_t g7110_settings_save(uint32_t state[G7110_SETTINGS], const uint8_t *text, size_t text_len, uint64_t report[1]);

/* Saves the values of a kept revision under a new number. Refused with G7110_GONE, then G7110_SPENT.
 * report: the new revision. */
uint32_t g7110_settings_back(uint32_t state[G7110_SETTINGS], uint32_t revision, uint64_t report[1]);

/* Writes a kept revision's text at the start of the lent G7110_SETTINGS_TEXT octets; the rest stays as lent. Refused with G7110_GONE.
 * From a state that the calls have left, it is the text that was saved. report: octets of text. */
enum { G7110_SETTINGS_OCTETS };
uint32_t g7110_settings_read(const uint32_t state[G7110_SETTINGS], uint32_t revision, uint8_t text[G7110_SETTINGS_TEXT],
                             uint64_t report[1]);

/* Empties the list for the next tenant; the numbering runs on. Never refused. */
uint32_t g7110_settings_wipe(uint32_t state[G7110_SETTINGS]);

/* Tells a kept revision's values, as they stand. Refused with G7110_GONE; then the report is zeros. */
enum { G7110_VALUES_LAW, G7110_VALUES_SET, G7110_VALUES_BLOCK, G7110_VALUES_GREETING };
uint32_t g7110_settings_get(const uint32_t state[G7110_SETTINGS], uint32_t revision, uint64_t report[4]);

/* Tells the numbers of the kept revisions, the oldest first, then 0. Never refused. Of a state that no calls left: the rows whose number
 * is not 0, in their order; a number in two rows is told twice. */
uint32_t g7110_settings_kept(const uint32_t state[G7110_SETTINGS], uint64_t report[8]);

/* Mends a damaged greeting whose true total of samples is known; the result stands at the output's start.
 * Refusals, in order: G7110_LAW, G7110_LONG (the greeting), G7110_TOTAL, G7110_LONG (the result), G7110_ROOM.
 * report: octets of the result, frames kept, octets kept, samples filled. */
uint32_t g7110_mend(const uint8_t *octets, size_t octets_len, uint32_t law, uint64_t total,
                    uint8_t *out, size_t out_len, uint64_t report[4]);

/* Tells what g7110_mend would report with room enough, and how the walk of what is kept stopped: its number, 0 where it went to the end or
 * up to the total; its place, which is the octets kept; its tool and its bit, as g7110_walk has them. At the total a next frame is judged
 * by its first octets alone. Refused as g7110_mend, G7110_ROOM left out; then the report is zeros. */
enum { G7110_MENDED_OCTETS, G7110_MENDED_FRAMES, G7110_MENDED_KEPT, G7110_MENDED_FILLED,
       G7110_STOP_NUMBER, G7110_STOP_PLACE, G7110_STOP_TOOL, G7110_STOP_BIT };
uint32_t g7110_mend_why(const uint8_t *octets, size_t octets_len, uint32_t law, uint64_t total, uint64_t report[8]);

/* How many numbers a store's table needs for a block of size octets; of a size above G7110_MAX_BLOCK that of the greatest. */
uint64_t g7110_store_cells(uint64_t size);

/* Puts a greeting of a law. Refused with G7110_TABLE, G7110_LAW, G7110_NUMBER, G7110_TAKEN, G7110_BAD, G7110_FULL, G7110_NOROOM.
 * report: its start, octets moved. */
enum { G7110_PUT_START, G7110_PUT_MOVED }; /* g7110_store_try too */
uint32_t g7110_store_put(uint8_t *block, size_t block_len, uint32_t *table, size_t table_len, uint32_t law, uint32_t number,
                         const uint8_t *octets, size_t octets_len, uint64_t report[2]);

/* Tells where a greeting lies. Refused with G7110_TABLE, G7110_NUMBER, G7110_ABSENT. report: its start, its octets. */
enum { G7110_GET_START, G7110_GET_OCTETS };
uint32_t g7110_store_get(const uint8_t *block, size_t block_len, const uint32_t *table, size_t table_len, uint32_t number,
                         uint64_t report[2]);

/* Tells all that stands in the table of a greeting: where it starts, its octets, its law, its samples, and how many marks it has. Refused
 * with G7110_TABLE, G7110_NUMBER, G7110_ABSENT; then the report is zeros. */
enum { G7110_INFO_START, G7110_INFO_OCTETS, G7110_INFO_LAW, G7110_INFO_SAMPLES, G7110_INFO_MARKS };
uint32_t g7110_store_info(const uint8_t *block, size_t block_len, const uint32_t *table, size_t table_len, uint32_t number,
                          uint64_t report[5]);

/* Tells the same, its number before it, of the greeting at a place in order of start, counted from 0. Refused with G7110_TABLE, and with
 * G7110_ABSENT from the number of greetings on; so a program lists all by counting up until it is refused. */
enum { G7110_AT_NUMBER, G7110_AT_START, G7110_AT_OCTETS, G7110_AT_LAW, G7110_AT_SAMPLES, G7110_AT_MARKS };
uint32_t g7110_store_at(const uint8_t *block, size_t block_len, const uint32_t *table, size_t table_len, uint64_t index,
                        uint64_t report[6]);

/* Tells how many greetings there are, the octets held, the octets free, and the largest gap, the room before the first greeting and behind
 * the last being gaps too: a put of at most so many octets moves none. Refused with G7110_TABLE. */
enum { G7110_TOTALS_GREETINGS, G7110_TOTALS_HELD, G7110_TOTALS_FREE, G7110_TOTALS_GAP };
uint32_t g7110_store_totals(const uint8_t *block, size_t block_len, const uint32_t *table, size_t table_len, uint64_t report[4]);

/* Takes a greeting out; its room is used again. Refused with G7110_TABLE, G7110_NUMBER, G7110_ABSENT. */
uint32_t g7110_store_delete(const uint8_t *block, size_t block_len, uint32_t *table, size_t table_len, uint32_t number);

/* Names the frame of a greeting that holds a sample, counted from 0 (document 02, R-9). Refused with G7110_TABLE, G7110_NUMBER,
 * G7110_ABSENT, G7110_BEYOND, G7110_BAD. report: the frame, pads counted, its octet place from the greeting's start, the sample's place
 * in the frame, and the frames read, 1 to 64: from the last mark at or before the sample up to and including the frame. */
enum { G7110_JUMP_FRAME, G7110_JUMP_OCTET, G7110_JUMP_SAMPLE, G7110_JUMP_READ };
uint32_t g7110_store_jump(const uint8_t *block, size_t block_len, const uint32_t *table, size_t table_len, uint32_t number,
                          uint64_t sample, uint64_t report[4]);

/* Saves a store's table as text (document 02, R-6, R-8 and R-11): the line `form=2` where the block has more than 65,535 octets, and
 * only then, so that an older version refuses the text; then for each greeting in order of start the lines `prompt=`, `start=`,
 * `octets=`, `law=`, `samples=`, and for each of its marks a line `mark=` with the octets, a comma and the samples; decimal without
 * leading zeros, each line ended by octet 0A; of a table that calls left at most G7110_MAX_TABLE octets. The text stands at the start
 * of the lent octets; the rest stays as lent. Refused with G7110_TABLE where the table is not one that calls leave for this block,
 * then with G7110_ROOM where the text does not fit; then nothing is written. report: octets of text. */
enum { G7110_STORE_SAVE_OCTETS };
uint32_t g7110_store_save(const uint8_t *block, size_t block_len, const uint32_t *table, size_t table_len,
                          uint8_t *out, size_t out_len, uint64_t report[1]);

/* Loads a table's text, with its block, into the lent table, which is output: only its length is judged. The text is all in the
 * lines that save writes, with the line `form=2` first or without it, or all in those of version 7, `prompt=`, `start=` and `octets=`
 * alone: then each greeting is of law 1, as the early boxes' were, with the samples and marks of its walk. Without the first line a
 * start or a count of octets is at most 65,535. Refused, each time over the whole text: with G7110_TABLE for other
 * lines, a law above 1, a number out of range or used twice, greetings that overlap or pass the block's end; only then with
 * G7110_BAD for a greeting that is empty or that the walk refuses with G7110_ALL_TOOLS; only then with G7110_TABLE for samples or marks that
 * the walk does not give. A refused call leaves the table as lent. What save writes of a table that calls left, load takes;
 * docs/STORE.md says what to write first. */
uint32_t g7110_store_load(const uint8_t *text, size_t text_len, const uint8_t *block, size_t block_len,
                          uint32_t *table, size_t table_len);

/* Where power may be cut, as the manual says under POWER. Tells exactly what g7110_store_put would answer and report, refusals too;
 * nothing is changed. */
uint32_t g7110_store_try(const uint8_t *block, size_t block_len, const uint32_t *table, size_t table_len, uint32_t law,
                         uint32_t number, const uint8_t *octets, size_t octets_len, uint64_t report[2]);

/* Tells the next move of closing up: that of the first greeting, in order of start, that is not where closing up puts it. Refused
 * with G7110_TABLE. report: its number, where it lies, where it goes, its octets; zeros where all are closed up. */
enum { G7110_MOVE_NUMBER, G7110_MOVE_FROM, G7110_MOVE_TO, G7110_MOVE_OCTETS };
uint32_t g7110_store_next(const uint8_t *block, size_t block_len, const uint32_t *table, size_t table_len, uint64_t report[4]);

/* Changes the table: the greeting of the next move is at its new place. No octet moves; of the block only the length is used. Refused
 * with G7110_TABLE, G7110_NUMBER, G7110_ABSENT, and with G7110_MOVE where it is not the next move; where there is none, that is every
 * greeting, also to its own start. A refused call leaves the table as lent. */
uint32_t g7110_store_moved(const uint8_t *block, size_t block_len, uint32_t *table, size_t table_len, uint32_t number, uint64_t to);

/* Gives a greeting another number; nothing else changes. Refused with G7110_TABLE, G7110_NUMBER (either of the two), G7110_ABSENT, and
 * with G7110_TAKEN where a greeting has the new one, also where both are one. A refused call leaves the table as lent. */
uint32_t g7110_store_renumber(const uint8_t *block, size_t block_len, uint32_t *table, size_t table_len, uint32_t number,
                              uint32_t to);

/* Makes one step of the move that the record tells of, in the block or from it into the spare, and writes the record after it to
 * next. Refused with G7110_MOVE where the record tells of no move in this block; then block, spare and next are as lent. */
enum { G7110_RECORD_PAGE, G7110_RECORD_STATE, G7110_RECORD_FROM, G7110_RECORD_TO, G7110_RECORD_OCTETS, G7110_RECORD_DONE };
uint32_t g7110_move_step(uint8_t *block, size_t block_len, uint8_t *spare, size_t spare_len, const uint32_t record[8],
                         uint32_t next[8]);

/* Reads a recording. The samples of its frames stand at the start of out, its items at the start of items (items_len counts them);
 * the rest stays as lent. Refusals, in order: G7110_SET, G7110_HEAD, G7110_LONG (octets behind the heading); then item by item
 * G7110_ROOM where items has no place left, before the item is looked at, and those of g7110_read. report: law, items, octets
 * behind the heading (also the place of a refused item), samples, tool, bit (of the refused item, counted from its start).
 * G7110_SET and G7110_HEAD report zeros, G7110_LONG the law and zeros. */
enum { G7110_FILE_READ_LAW, G7110_FILE_READ_ITEMS, G7110_FILE_READ_OCTETS, G7110_FILE_READ_SAMPLES,
       G7110_FILE_READ_TOOL, G7110_FILE_READ_BIT };
uint32_t g7110_file_read(const uint8_t *octets, size_t octets_len, uint32_t set, uint8_t *out, size_t out_len,
                         uint16_t *items, size_t items_len, uint64_t report[6]);

/* Writes a recording of items_len items, whose frames' samples are given one after another. Each frame is written as g7110_write
 * writes it, a loss of N samples as N times 0++, one whose length is not known as the octet 01. Refusals, in order: G7110_LAW,
 * G7110_SET, G7110_LENGTH (an item that is none; samples left over or missing), G7110_LONG (octets behind the heading),
 * G7110_ROOM (heading and all). report: octets of the file. */
enum { G7110_FILE_WRITE_OCTETS };
uint32_t g7110_file_write(const uint8_t *samples, size_t samples_len, const uint16_t *items, size_t items_len,
                          uint32_t law, uint32_t set, uint8_t *out, size_t out_len, uint64_t report[1]);

/* The places of the report of g7110_file_head. */
enum { G7110_FILE_HEAD_LAW = 0, G7110_FILE_HEAD_OCTETS = 1 };

/* Tells the law that a recording's heading says. Any octets may follow. Refused with G7110_HEAD. report: law, octets of the heading. */
uint32_t g7110_file_head(const uint8_t *octets, size_t octets_len, uint64_t report[2]);

/* The places of the report of g7110_file_next, from 0 on. */
enum { G7110_NEXT_KIND, G7110_NEXT_SAMPLES, G7110_NEXT_OCTETS, G7110_NEXT_TOOL, G7110_NEXT_BIT, G7110_NEXT_PLACE };

/* Reads one item at the place `at` of the octets that stand behind a recording's heading: so a player needs room for one frame, not for
 * the file. From place 0 on, each call at the next place of the last, the items are those of g7110_file_read. A frame's samples
 * stand at the start of out; a loss writes nothing, though an erasure frame needs its room while it is read. Refusals, in order:
 * G7110_LAW, G7110_SET, G7110_LONG (all octets), G7110_SHORT (at is not below the octets), those of g7110_read. report: kind, samples (of
 * a loss its length, 0 where that is not known), octets, tool, bit, the next place; refused 0, 0, 0, tool, bit, at. */
uint32_t g7110_file_next(const uint8_t *octets, size_t octets_len, uint64_t at, uint32_t law, uint32_t set,
                         uint8_t *out, size_t out_len, uint64_t report[6]);

#ifdef __cplusplus
}
#endif

#endif
