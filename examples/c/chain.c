/* Merges the table of labels 00 and 11 (marked case 3) and prints its sizes, compares its section with one that is numbered otherwise, decodes two blocks
 * received as 01 and 11 (marked case 7), prints the path and which symbols were wrong, lists the best paths up to the first whose check sum is right, prints
 * what both blocks cost, and makes the table and the section of a code from its generator rows. Valid C and C++. */
#include "link_kit.h"

#include <stdio.h>
#include <string.h>

/* q 2, n 2, S 1, two words: pairs (root, goal), then labels, low byte first. */
static const uint8_t file[LINK_FILE_LEN(2)] = {2, 2, 1, 2, 0, /* */ 0, 0, 0, 0, /* */ 0, 0, 5, 0};

/* Two blocks over one section, with no symbol erased. */
#define BLOCKS 2u
static const uint8_t indices[BLOCKS] = {0, 0}, erased[BLOCKS] = {0, 0};
static const uint16_t received[BLOCKS] = {1, 5};

static uint16_t section[LINK_ANY_SECTION];
static uint32_t costs[LINK_COSTS_LEN(BLOCKS)];

static int refused(const char *call, uint32_t number, const uint32_t values[4]) {
    fprintf(stderr, "%s: refused %u, %u %u %u %u\n", call, number, values[0], values[1], values[2], values[3]);
    return 1;
}

/* The section as somebody else may draw it, with the two vertices at depth 1 in the other order: 00 goes through vertex 1 and 11 through vertex 0. */
static int print_same(size_t length) {
    static const uint16_t drawn[] = {2, 2, 1, /* */ 1, 2, 1, /* */ 2, 2, /* */ 0, 0, /* */ 0, 1, 0, 0, 0, 0, 1, 0, /* */ 0, 1, 1, 0};
    uint32_t values[4];
    uint32_t number = link_same_section(section, length, drawn, sizeof drawn / sizeof drawn[0], values);
    if (number != LINK_SUCCESS)
        return refused("same section", number, values);
    printf("with inner vertices in another order: %s\n", values[0] == 1 ? "the same section" : "another section");
    return 0;
}

static int print_path(size_t length) {
    uint16_t labels[BLOCKS];
    uint8_t goals[BLOCKS], masks[BLOCKS];
    uint32_t values[4];
    uint32_t number = link_decode(section, length, 1, indices, BLOCKS, received, BLOCKS, erased, BLOCKS, 0, 0, costs, LINK_COSTS_LEN(BLOCKS),
                                  labels, BLOCKS, goals, BLOCKS, masks, BLOCKS, values);
    if (number != LINK_SUCCESS)
        return refused("decode", number, values);
    printf("distance %u\n", values[0]);
    for (unsigned b = 0; b < BLOCKS; b++)
        printf("block %u: label %u%u, mask of wrong symbols %u%u, goal %u, distance from state 0 onward %u\n", b, labels[b] >> 2 & 3, labels[b] & 3,
               masks[b] >> 1 & 1, masks[b] & 1, goals[b], costs[LINK_COST_PLACE(b, 0)]);
    return 0;
}

/* The outer check sum of a path is right if its labels add up to 0, each bit by itself. */
static int is_right(const uint16_t *labels) {
    unsigned sum = 0;
    for (unsigned b = 0; b < BLOCKS; b++)
        sum ^= labels[b];
    return sum == 0;
}

/* The listed paths, up to the first with a right check sum: that is the one to take. */
static int print_list(size_t length) {
    uint32_t distances[LINK_MOST_PATHS], values[4];
    uint16_t labels[LINK_LIST_LEN(LINK_MOST_PATHS, BLOCKS)];
    uint8_t goals[LINK_LIST_LEN(LINK_MOST_PATHS, BLOCKS)];
    uint32_t number = link_decode_list(section, length, 1, indices, BLOCKS, received, BLOCKS, erased, BLOCKS, 0, 0, LINK_MOST_PATHS, costs,
                                       LINK_COSTS_LEN(BLOCKS), distances, LINK_MOST_PATHS, labels, LINK_LIST_LEN(LINK_MOST_PATHS, BLOCKS),
                                       goals, LINK_LIST_LEN(LINK_MOST_PATHS, BLOCKS), values);
    if (number != LINK_SUCCESS)
        return refused("decode list", number, values);
    printf("%u paths\n", values[0]);
    for (uint32_t p = 0; p < values[0]; p++) {
        const uint16_t *path = labels + LINK_LIST_PLACE(p, BLOCKS, 0);
        printf("path %u: distance %u, labels", p, distances[p]);
        for (unsigned b = 0; b < BLOCKS; b++)
            printf(" %u%u", path[b] >> 2 & 3, path[b] & 3);
        printf(", check sum %s\n", is_right(path) ? "right" : "wrong");
        if (is_right(path))
            return 0;
    }
    return 0;
}

/* The sheet of two blocks over one section: K, B low byte first, the section of each block, the table. */
static int print_sheet(void) {
    static uint8_t text[LINK_ANY_SHEET];
    uint8_t input[5 + sizeof file] = {1, 2, 0, 0, 0};
    uint32_t values[4];
    memcpy(input + 5, file, sizeof file);
    uint32_t number = link_block_sheet(input, sizeof input, text, sizeof text, values);
    if (number != LINK_SUCCESS)
        return refused("block sheet", number, values);
    fwrite(text, 1, values[0], stdout);
    return 0;
}

/* A section of the convolutional code with generators 7 and 5: state before, two symbols, state behind. A state is the last two inputs, the later first. */
static int print_rows(void) {
    static const uint16_t rows[3] = {2 << 4 | 2 << 2 | 1, 1 << 4 | 3 << 2 | 0, 0 << 4 | 3 << 2 | 2};
    enum { STATE_BITS = 2, N = 2, WORDS = LINK_ROW_WORDS(3) };
    uint8_t made[LINK_FILE_LEN(WORDS)];
    uint16_t map[LINK_MAP_LEN(WORDS, N)];
    uint32_t values[4];
    uint32_t number = link_merge_rows(STATE_BITS, N, rows, 3, made, sizeof made, map, LINK_MAP_LEN(WORDS, N), section, LINK_ANY_SECTION, values);
    if (number != LINK_SUCCESS)
        return refused("merge rows", number, values);
    printf("from rows: section of %u numbers, vertices %u %u %u\n", values[0], section[3], section[4], section[5]);
    for (unsigned i = 0; i < WORDS; i++)
        printf("%u to %u by %u%u\n", made[5 + 2 * i], made[6 + 2 * i], made[5 + 2 * WORDS + 2 * i] >> 2, made[5 + 2 * WORDS + 2 * i] & 3);
    return 0;
}

int main(void) {
    uint16_t map[LINK_MAP_LEN(2, 2)];
    uint32_t values[4];
    uint32_t number = link_merge(file, sizeof file, map, LINK_MAP_LEN(2, 2), section, LINK_ANY_SECTION, values);
    if (number != LINK_SUCCESS)
        return refused("merge", number, values);
    size_t length = values[0];
    printf("section of %zu numbers, vertices %u %u %u, edges %u %u\n", length, section[3], section[4], section[5], section[6], section[7]);

    uint8_t text[LINK_ANY_TEXT];
    number = link_listing(file, sizeof file, text, sizeof text, values);
    if (number != LINK_SUCCESS)
        return refused("listing", number, values);
    fwrite(text, 1, values[0], stdout);

    uint8_t again[sizeof file];
    number = link_read_back(section, length, again, sizeof again, values);
    if (number != LINK_SUCCESS || values[0] != sizeof file || memcmp(file, again, sizeof file) != 0)
        return refused("read back", number, values);

    return print_same(length) || print_path(length) || print_list(length) || print_sheet() || print_rows();
}
