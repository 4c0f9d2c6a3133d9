/* Works out what docs/FORMATS.md shows, from what it gives. Use: formats WHAT < text of the page, with no comments. .ci/formats compares the two. */
#include "link_kit.h"

#include <stdio.h>
#include <string.h>

/* The page's own code for labels: packed, symbol_of. */
#include "labels.h"

static uint8_t file[LINK_ANY_FILE];
static uint16_t map[LINK_ANY_MAP], section[LINK_ANY_SECTION];
static uint32_t values[4];

static int refused(const char *call, uint32_t number) {
    printf("%s: refused %u, %u %u %u %u\n", call, number, values[0], values[1], values[2], values[3]);
    return 1;
}

/* Symbols as the page writes them, and their label. */
static uint16_t label_of(const char *text, unsigned n) {
    uint8_t symbols[LINK_MOST_SYMBOLS] = {0};
    for (unsigned t = 0; t < n && text[t]; t++)
        symbols[t] = (uint8_t)(text[t] - '0');
    return packed(symbols, n);
}

static void put_low_first(unsigned number) {
    printf(" %02x %02x", number & 255, number >> 8);
}

/* Lines of q, n and symbols, then what follows from them: the label is taken apart again, so that both ways are tried. */
static int labels(void) {
    char line[128], text[LINK_MOST_SYMBOLS + 1];
    unsigned q, n;
    while (fgets(line, sizeof line, stdin))
        if (sscanf(line, "%u %u %8s", &q, &n, text) == 3) {
            const uint16_t label = label_of(text, n);
            printf("%u %u ", q, n);
            for (unsigned t = 0; t < n; t++)
                printf("%u", symbol_of(label, n, t));
            printf(" ");
            for (unsigned bit = 2 * n; bit-- > 0;)
                printf("%u", label >> bit & 1u);
            printf(" %u", label);
            put_low_first(label);
            printf("\n");
        }
    return 0;
}

/* The bytes of a table given as q, n, S and its words. */
static int bytes(void) {
    static unsigned roots[LINK_MOST_WORDS], goals[LINK_MOST_WORDS], packed_labels[LINK_MOST_WORDS];
    char text[LINK_MOST_SYMBOLS + 1];
    unsigned q, n, states, words = 0;
    if (scanf("q %u n %u S %u", &q, &n, &states) != 3)
        return 1;
    while (words < LINK_MOST_WORDS && scanf("%u %8s %u", &roots[words], text, &goals[words]) == 3)
        packed_labels[words++] = label_of(text, n);
    printf("%02x %02x %02x", q, n, states);
    put_low_first(words);
    for (unsigned i = 0; i < words; i++)
        printf(" %02x %02x", roots[i], goals[i]);
    for (unsigned i = 0; i < words; i++)
        put_low_first(packed_labels[i]);
    printf("\n");
    return 0;
}

static size_t read_file(void) {
    size_t length = 0;
    unsigned byte;
    while (length < sizeof file && scanf("%x", &byte) == 1)
        file[length++] = (uint8_t)byte;
    return length;
}

/* The section, or with `rows` the map, of a table file. */
static int merged(int rows) {
    const size_t length = read_file();
    const uint32_t number = link_merge(file, length, map, LINK_ANY_MAP, section, LINK_ANY_SECTION, values);
    if (number != LINK_SUCCESS)
        return refused("merge", number);
    const unsigned words = file[3] + 256u * file[4], places = rows ? LINK_MAP_LEN(words, file[1]) : values[0];
    for (unsigned place = 0; place < places; place++)
        printf("%u ", rows ? map[place] : section[place]);
    printf("\n");
    return 0;
}

/* Rows as the page writes them: state bits and n, then a row a line, as bits with spaces anywhere. Gives how many rows there are. */
static size_t read_rows(size_t *state_bits, size_t *n, uint16_t *numbers) {
    char line[128];
    size_t count = 0;
    if (!fgets(line, sizeof line, stdin) || sscanf(line, "%zu %zu", state_bits, n) != 2)
        return 0;
    while (count < LINK_MOST_ROWS && fgets(line, sizeof line, stdin)) {
        unsigned number = 0;
        for (const char *at = line; *at; at++)
            if (*at == '0' || *at == '1')
                number = 2 * number + (unsigned)(*at - '0');
        numbers[count++] = (uint16_t)number;
    }
    return count;
}

/* The section, or with `in_bytes` the table file, of the sums of rows; or their refusal. */
static int merged_rows(int in_bytes) {
    uint16_t numbers[LINK_MOST_ROWS];
    size_t state_bits = 0, n = 0;
    const size_t count = read_rows(&state_bits, &n, numbers);
    const uint32_t number =
        link_merge_rows(state_bits, n, numbers, count, file, sizeof file, map, LINK_ANY_MAP, section, LINK_ANY_SECTION, values);
    if (number != LINK_SUCCESS)
        return printf("refused %u %u\n", number, values[0]), 1;
    const unsigned places = in_bytes ? LINK_FILE_LEN(LINK_ROW_WORDS(count)) : values[0];
    for (unsigned place = 0; place < places; place++)
        printf(in_bytes ? "%02x " : "%u ", in_bytes ? file[place] : section[place]);
    printf("\n");
    return 0;
}

/* How many numbers stand on standard input, at most `most`; they are left in `numbers`. */
static size_t read_numbers(uint16_t *numbers, size_t most) {
    size_t length = 0;
    unsigned number;
    while (length < most && scanf("%u", &number) == 1)
        numbers[length++] = (uint16_t)number;
    return length;
}

static int read_back(void) {
    const size_t length = read_numbers(section, LINK_ANY_SECTION);
    const uint32_t number = link_read_back(section, length, file, sizeof file, values);
    if (number != LINK_SUCCESS)
        return refused("read back", number);
    for (unsigned place = 0; place < values[0]; place++)
        printf("%02x ", file[place]);
    printf("\n");
    return 0;
}

/* A chain over one section. */
static uint8_t indices[LINK_MOST_BLOCKS], erased[LINK_MOST_BLOCKS], start, end;
static uint16_t received[LINK_MOST_BLOCKS];
static uint32_t costs[LINK_COSTS_LEN(LINK_MOST_BLOCKS)];
static size_t section_length, blocks;

/* Reads the length and the numbers of a section, then the frame: B indices, B received labels, B masks, start state, end state. */
static int read_chain(void) {
    static uint16_t frame[3 * LINK_MOST_BLOCKS + 2];
    if (scanf("%zu", &section_length) != 1 || section_length > LINK_ANY_SECTION || read_numbers(section, section_length) != section_length)
        return 0;
    const size_t given = read_numbers(frame, 3 * LINK_MOST_BLOCKS + 2);
    if (given < 2 || given % 3 != 2)
        return 0;
    blocks = (given - 2) / 3;
    for (size_t b = 0; b < blocks; b++) {
        indices[b] = (uint8_t)frame[b];
        received[b] = frame[blocks + b];
        erased[b] = (uint8_t)frame[2 * blocks + b];
    }
    start = (uint8_t)frame[3 * blocks];
    end = (uint8_t)frame[3 * blocks + 1];
    return 1;
}

static int decoded(void) {
    static uint16_t best[LINK_MOST_BLOCKS];
    static uint8_t goals[LINK_MOST_BLOCKS], masks[LINK_MOST_BLOCKS];
    if (!read_chain())
        return 1;
    const uint32_t number = link_decode(section, section_length, 1, indices, blocks, received, blocks, erased, blocks, start, end, costs,
                                        LINK_COSTS_LEN(LINK_MOST_BLOCKS), best, blocks, goals, blocks, masks, blocks, values);
    printf("%u\n%u\n", number, values[0]);
    for (size_t b = 0; b < blocks; b++)
        printf("%u ", best[b]);
    for (size_t b = 0; b < blocks; b++)
        printf("%u ", goals[b]);
    for (size_t b = 0; b < blocks; b++)
        printf("%u ", masks[b]);
    /* The page shows the states below S; the others have no path. */
    for (size_t b = 0; b < blocks; b++)
        for (size_t s = 0; s < LINK_MOST_STATES; s++)
            if (s < section[2])
                printf("%u ", costs[LINK_COST_PLACE(b, s)]);
            else if (costs[LINK_COST_PLACE(b, s)] != LINK_NO_COST)
                printf("and %u at state %zu before block %zu ", costs[LINK_COST_PLACE(b, s)], s, b);
    printf("\n");
    return 0;
}

/* The page asks for four paths. */
static int listed(void) {
    enum { paths = 4 };
    static uint32_t distances[paths];
    static uint16_t labels[LINK_LIST_LEN(paths, LINK_MOST_BLOCKS)];
    static uint8_t goals[LINK_LIST_LEN(paths, LINK_MOST_BLOCKS)];
    if (!read_chain())
        return 1;
    const size_t words = LINK_LIST_LEN(paths, blocks);
    const uint32_t number = link_decode_list(section, section_length, 1, indices, blocks, received, blocks, erased, blocks, start, end, paths, costs,
                                             LINK_COSTS_LEN(LINK_MOST_BLOCKS), distances, paths, labels, words, goals, words, values);
    printf("%u\n%u\n", number, values[0]);
    for (size_t p = 0; p < values[0]; p++)
        printf("%u ", distances[p]);
    for (size_t place = 0; place < LINK_LIST_LEN(values[0], blocks); place++)
        printf("%u ", labels[place]);
    for (size_t place = 0; place < LINK_LIST_LEN(values[0], blocks); place++)
        printf("%u ", goals[place]);
    printf("\n");
    return 0;
}

int main(int count, char **words) {
    const char *what = count == 2 ? words[1] : "";
    if (strcmp(what, "labels") == 0)
        return labels();
    if (strcmp(what, "bytes") == 0)
        return bytes();
    if (strcmp(what, "section") == 0)
        return merged(0);
    if (strcmp(what, "map") == 0)
        return merged(1);
    if (strcmp(what, "row_section") == 0)
        return merged_rows(0);
    if (strcmp(what, "row_bytes") == 0)
        return merged_rows(1);
    if (strcmp(what, "read_back") == 0)
        return read_back();
    if (strcmp(what, "decoded") == 0)
        return decoded();
    if (strcmp(what, "listed") == 0)
        return listed();
    return 2;
}
