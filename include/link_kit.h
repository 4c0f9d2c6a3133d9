/* The link kit for C and C++ on x86-64, eight functions: link with liblink_kit.a, which `bash build archive` writes. Table files, sections, frames,
 * block sheets and outcomes are those of document 01, the customer's paper on tables, sections and outcomes, with what the requests of document 02
 * changed; docs/FORMATS.md says all of them, with a worked table. The outcome numbers are the LINK_ constants below.
 *
 * Each call returns an outcome number and puts the numbers returned with it into `values` in order, 0 in the places not used; one over 4,294,967,295
 * is stored as 4,294,967,295. Calls end for all contents of their arguments, keep nothing between them, and use no heap.
 *
 * Each pointer is not null, aligned for its type, and good for the length beside it (`values` for 4 places); lengths count elements, not bytes.
 * A buffer that a call writes to (a pointer without const) overlaps no other argument. */
#ifndef LINK_KIT_H
#define LINK_KIT_H

#include <stddef.h>
#include <stdint.h>

#ifdef __cplusplus
extern "C" {
#endif

/* Outcomes, what values holds, and what the buffers hold then; "unchanged" means every buffer but values. */
#define LINK_SUCCESS 0u         /* section's, file's or text's length, distance, number of paths, or 1 or 0 for two sections that are the same or not;
                                 * places beyond those written are unchanged */
#define LINK_FILE_LENGTH 1u     /* file length: under 5 bytes, or not 5 + 4 W; unchanged */
#define LINK_SIZE 2u            /* 0 to 3, the first of q, n, S, W outside its bounds; unchanged */
#define LINK_WORD 3u            /* first word with a state not below S, a label not below 4^n, or a symbol not below q; unchanged */
#define LINK_ORDER 4u           /* first word not above the word before it; unchanged */
#define LINK_SHORT_MAP 5u       /* W (n + 1), the places that the map needs; unchanged */
#define LINK_NOT_RECTANGULAR 6u /* depth, and words i, j, k that force a word which is missing; first W (n + 1) places of the map 0, else unchanged */
#define LINK_SHORT_SECTION 7u   /* length that the section needs; map as on success, others unchanged */
#define LINK_UNUSABLE 8u        /* K if outside its bounds; else the first unusable section; else K, for numbers left over; of two sections the first
                                 * that is unusable or has numbers left over, 0 or 1; unchanged */
#define LINK_BLOCK 9u           /* first bad block, or B for a fault of lengths or states; unchanged */
#define LINK_SHORT_BUFFER 10u   /* least length that the first short buffer needs; unchanged */
#define LINK_NO_PATH 11u        /* nothing; cost table as on success, others unchanged */
#define LINK_TOO_MANY_WORDS 12u /* nothing: the section has over 1,024 words; unchanged */
#define LINK_PATH_COUNT 13u     /* how many paths are asked for, outside 1 to 16; unchanged */
#define LINK_ROWS 14u           /* number of rows if state bits, n or it is outside its bounds; else the first row with bits above its width; unchanged */
#define LINK_DEPENDENT 15u      /* first row that is a sum of earlier ones, as a row of zeros is; unchanged */

/* Bounds. */
#define LINK_MOST_WORDS 1024u
#define LINK_MOST_STATES 16u   /* S, and the cost table's places a block */
#define LINK_MOST_SYMBOLS 8u   /* n */
#define LINK_MOST_SECTIONS 16u /* K */
#define LINK_MOST_BLOCKS 256u  /* B */
#define LINK_MOST_PATHS 16u    /* paths of a list */
#define LINK_MOST_STATE_BITS 4u /* bits of a state in a row */
#define LINK_MOST_ROWS 10u
#define LINK_NO_COST 4294967295u /* in the cost table: no path from here */

/* Lengths, in elements. */
#define LINK_ROW_WORDS(rows) (1u << (rows)) /* words of a table of sums of rows */
#define LINK_FILE_LEN(words) (5u + 4u * (words))
#define LINK_MAP_LEN(words, n) ((words) * ((n) + 1u))
#define LINK_COSTS_LEN(blocks) (LINK_MOST_STATES * (blocks))
#define LINK_LIST_LEN(paths, blocks) ((paths) * (blocks)) /* labels of a list, and goals */
/* The place of a path's block in the labels and goals of a list. */
#define LINK_LIST_PLACE(path, blocks, block) ((path) * (blocks) + (block))
/* The place in the cost table of the least distance from a state before a block to the end state after the last. */
#define LINK_COST_PLACE(block, state) (LINK_MOST_STATES * (block) + (state))

/* Lengths that are enough for every table. */
#define LINK_ANY_FILE LINK_FILE_LEN(LINK_MOST_WORDS)                  /* 4,101 bytes */
#define LINK_ANY_MAP LINK_MAP_LEN(LINK_MOST_WORDS, LINK_MOST_SYMBOLS) /* 9,216 numbers */
#define LINK_ANY_TEXT 1024u                                           /* bytes of a listing */
#define LINK_ANY_SHEET 8192u                                          /* bytes of a block sheet, whatever its input */
#define LINK_MOST_INPUT 323919u /* bytes of a block sheet's input: whatever follows them changes nothing, so a caller need not read it */
/* 24,628 numbers: the sizes, all states as roots and as goals, and as many edges as words at each step. */
#define LINK_ANY_SECTION (4u + 2u * LINK_MOST_SYMBOLS + 2u * LINK_MOST_STATES + 3u * LINK_MOST_SYMBOLS * LINK_MOST_WORDS)

/* Stack, in bytes: what a call takes of its thread's stack, with all that it calls. A program whose loader binds memcpy and memset only when they are
 * first called needs some 4,096 bytes more for that one call. */
#define LINK_MERGE_STACK 35840u
#define LINK_MERGE_ROWS_STACK 22016u
#define LINK_READ_BACK_STACK 19456u
#define LINK_SAME_SECTION_STACK 29696u
#define LINK_DECODE_STACK 20992u
#define LINK_DECODE_LIST_STACK 91648u
#define LINK_LISTING_STACK 55296u
#define LINK_BLOCK_SHEET_STACK 66560u

/* Merges a table file. Success returns the section's length; the map's place t W + i is then the vertex of word i at depth t.
 * Outcomes 0 to 7, checked in the order 1, 2, 3, 4, 5, 6, 7. */
uint32_t link_merge(const uint8_t *file, size_t file_len, uint16_t *map, size_t map_len, uint16_t *section, size_t section_len,
                    uint32_t values[4]);

/* Makes the table of a binary code from rows of bits, and merges it. A row has state_bits bits of a start state, n symbols and state_bits bits of an end
 * state, the first highest: start << n + state_bits | symbols << state_bits | end. The words are all sums of rows modulo 2, each bit by itself, that of no
 * row included; q is 2 and S is 2^state_bits. state_bits is 0 to 4, n is 1 to 8, and there are 1 to 10 rows, none of them a sum of others.
 * Success returns the section's length, and writes the table file (LINK_FILE_LEN(LINK_ROW_WORDS(rows_len)) bytes), and the map and the section that
 * link_merge makes of it, which refuses no such table with 6.
 * Outcomes 0, 14 (the sizes before the rows), 15, 10 (the file), 5 and 7, checked in this order. */
uint32_t link_merge_rows(size_t state_bits, size_t n, const uint16_t *rows, size_t rows_len, uint8_t *file, size_t file_len, uint16_t *map,
                         size_t map_len, uint16_t *section, size_t section_len, uint32_t values[4]);

/* Writes the table file of a section's words. Success returns the file's length.
 * Outcomes 0, 8 (with 0, for numbers left over too), 12, 10, checked in this order. */
uint32_t link_read_back(const uint16_t *section, size_t section_len, uint8_t *file, size_t file_len, uint32_t values[4]);

/* Says whether two sections are the same but for the numbers of inner vertices. Success returns 1 if they have the same q, n, S and words: then there is
 * just one matching of the vertices of each depth that keeps end states and symbols and carries edges to edges. Else it returns 0. Words are not listed,
 * and there may be any number of them; a and b may be the same memory. Nothing but values is written.
 * Outcomes 0 and 8 (with 0 for a, else with 1 for b, for numbers left over too). */
uint32_t link_same_section(const uint16_t *a, size_t a_len, const uint16_t *b, size_t b_len, uint32_t values[4]);

/* Finds the first path of least distance through a chain of blocks over k sections, which stand one behind another in `sections`. Block b goes
 * through section indices[b]; received[b] is its received label and erased[b] its erasure mask of n bits, the first symbol highest; an erased
 * symbol has digit 0 in the label and costs nothing, any other costs 1 where it differs. Success returns the distance, and writes the labels and goals
 * of the path, its masks and the cost table (LINK_COSTS_LEN(blocks) places). masks[b] says which symbols of block b were wrong: it has n bits, the first
 * symbol highest, and 1 for each symbol of the path's label that differs from the received one and is not erased. The number of ones in all masks is
 * the distance.
 * Outcomes 0, 8, 9, 10 (cost table, labels, goals, masks) and 11, checked in this order. */
uint32_t link_decode(const uint16_t *sections, size_t sections_len, size_t k, const uint8_t *indices, size_t blocks,
                     const uint16_t *received, size_t received_len, const uint8_t *erased, size_t erased_len, uint8_t start, uint8_t end,
                     uint32_t *costs, size_t costs_len, uint16_t *labels, size_t labels_len, uint8_t *goals, size_t goals_len,
                     uint8_t *masks, size_t masks_len, uint32_t values[4]);

/* Lists the best paths through a chain, as many as `paths` says, 1 to 16, or all where fewer exist: by distance, and those of one distance in the order
 * of their words, compared block by block from the first. So the first is the path of link_decode, and a list of fewer is the start of a longer one.
 * The frame, from `sections` to `end`, is that of link_decode. Success returns how many are listed, and writes the cost table as link_decode does, and
 * path after path a distance (`paths` places are needed) and the labels and goals of its words (LINK_LIST_LEN(paths, blocks) places each); those of
 * block b of path p, from 0, are at place LINK_LIST_PLACE(p, blocks, b). Places of paths that are not listed are unchanged. There are no masks.
 * Outcomes 0, 8, 9, 13, 10 (cost table, distances, labels, goals) and 11, checked in this order. */
uint32_t link_decode_list(const uint16_t *sections, size_t sections_len, size_t k, const uint8_t *indices, size_t blocks,
                          const uint16_t *received, size_t received_len, const uint8_t *erased, size_t erased_len, uint8_t start, uint8_t end,
                          size_t paths, uint32_t *costs, size_t costs_len, uint32_t *distances, size_t distances_len, uint16_t *labels,
                          size_t labels_len, uint8_t *goals, size_t goals_len, uint32_t values[4]);

/* Writes the printed sizes of a table's section as text, or the line of its refusal. Success, also for a table that is refused, returns the text's
 * length; no 0 byte is put behind it. Outcomes 0 and 10. */
uint32_t link_listing(const uint8_t *file, size_t file_len, uint8_t *text, size_t text_len, uint32_t values[4]);

/* Writes the block sheet of an input as text, or the line of its refusal. The input is K in one byte, B in two, low byte first, a section index of
 * one byte for each block, then K table files one behind another; a missing byte of K or B counts as 0. The sheet has a line `block` for each block,
 * with its index, its section and that section's additions and selections, then a line `total` with both sums.
 * Refusals are text here, the first one met in this order: 8 with K if it is outside its bounds; 9 with B if it is outside its bounds or there are
 * fewer indices; 9 with the first block whose index is not below K; 1, 2, 3, 4 or 6 of the first table that has one, a table cut short as 1 with the
 * bytes that it has; 8 with K for bytes left over. Success, also for an input that is refused, returns the text's length; no 0 byte is put behind it.
 * Outcomes 0 and 10. */
uint32_t link_block_sheet(const uint8_t *input, size_t input_len, uint8_t *text, size_t text_len, uint32_t values[4]);

#ifdef __cplusplus
}
#endif

#endif
