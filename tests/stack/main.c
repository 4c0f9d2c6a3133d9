/* Calls each function of the archive on a stack of just as many bytes as the header says that it takes, with a page behind it that may not be touched:
 * a call that takes more ends this program. The calls go along every branch that has arrays of its own. It also says where the header asks for over a
 * page too much: the stack is painted before the call, so it shows how deep the call went. */
#define _GNU_SOURCE
#include "link_kit.h"
#include <stdio.h>
#include <string.h>
#include <sys/mman.h>
#include <ucontext.h>

enum { PAGE = 4096, PAINT = 0xA5 };

/* Two words, 00 and 11; and three words that force a fourth. */
static const uint8_t table[] = {2, 2, 1, 2, 0, 0, 0, 0, 0, 0, 0, 5, 0};
static const uint8_t broken[] = {2, 2, 1, 3, 0, 0, 0, 0, 0, 0, 0, 0, 0, 1, 0, 4, 0};

static uint8_t file[LINK_ANY_FILE], text[LINK_ANY_TEXT], sheet[LINK_ANY_SHEET];
static uint16_t map[LINK_ANY_MAP], section[LINK_ANY_SECTION], row_section[LINK_ANY_SECTION];
static uint8_t indices[LINK_MOST_BLOCKS], erased[LINK_MOST_BLOCKS], goals[LINK_MOST_BLOCKS], masks[LINK_MOST_BLOCKS];
static uint16_t received[LINK_MOST_BLOCKS], labels[LINK_MOST_BLOCKS];
static uint32_t costs[LINK_COSTS_LEN(LINK_MOST_BLOCKS)], values[4], outcome;
static size_t row_length;

/* The largest list. */
enum { WORDS = LINK_LIST_LEN(LINK_MOST_PATHS, LINK_MOST_BLOCKS) };
static uint32_t distances[LINK_MOST_PATHS];
static uint16_t listed_labels[WORDS];
static uint8_t listed_goals[WORDS];

/* The largest input of a block sheet: K, B and the indices, then as many of the largest tables as there can be. */
enum { HEAD = 3 + LINK_MOST_BLOCKS, LAST = HEAD + (LINK_MOST_SECTIONS - 1) * LINK_ANY_FILE, LARGEST = LAST + LINK_ANY_FILE };
static uint8_t chain[LARGEST];

static void merge_table(void) {
    outcome = link_merge(table, sizeof table, map, LINK_ANY_MAP, section, LINK_ANY_SECTION, values);
}

static void merge_broken(void) {
    outcome = link_merge(broken, sizeof broken, map, LINK_ANY_MAP, section, LINK_ANY_SECTION, values);
}

/* As many rows as there can be, of as many bits: row j has bits j and j + 5, so none is a sum of others. */
static void merge_rows(void) {
    uint16_t rows[LINK_MOST_ROWS];
    for (unsigned j = 0; j < LINK_MOST_ROWS; j++)
        rows[j] = (uint16_t)(33u << j);
    outcome = link_merge_rows(LINK_MOST_STATE_BITS, LINK_MOST_SYMBOLS, rows, LINK_MOST_ROWS, file, LINK_ANY_FILE, map, LINK_ANY_MAP,
                              row_section, LINK_ANY_SECTION, values);
    row_length = values[0];
}

static void read_section(void) {
    outcome = link_read_back(section, 22, file, LINK_ANY_FILE, values);
}

/* The largest section that is left here, compared with itself. */
static void compare_sections(void) {
    outcome = link_same_section(row_section, row_length, row_section, row_length, values);
}

static void decode_frame(void) {
    outcome = link_decode(section, 22, 1, indices, LINK_MOST_BLOCKS, received, LINK_MOST_BLOCKS, erased, LINK_MOST_BLOCKS, 0, 0, costs,
                          LINK_COSTS_LEN(LINK_MOST_BLOCKS), labels, LINK_MOST_BLOCKS, goals, LINK_MOST_BLOCKS, masks, LINK_MOST_BLOCKS, values);
}

static void list_paths(void) {
    outcome = link_decode_list(section, 22, 1, indices, LINK_MOST_BLOCKS, received, LINK_MOST_BLOCKS, erased, LINK_MOST_BLOCKS, 0, 0, LINK_MOST_PATHS,
                               costs, LINK_COSTS_LEN(LINK_MOST_BLOCKS), distances, LINK_MOST_PATHS, listed_labels, WORDS, listed_goals, WORDS, values);
}

static void list_table(void) {
    outcome = link_listing(table, sizeof table, text, LINK_ANY_TEXT, values);
}

static void list_broken(void) {
    outcome = link_listing(broken, sizeof broken, text, LINK_ANY_TEXT, values);
}

static void sheet_of_chain(void) {
    outcome = link_block_sheet(chain, LARGEST, sheet, LINK_ANY_SHEET, values);
}

/* All labels of five symbols of q 4 from the one state to itself: 1,024 words. */
static void put_table(uint8_t *at) {
    const uint8_t sizes[5] = {4, 5, 1, LINK_MOST_WORDS & 255u, LINK_MOST_WORDS >> 8};
    memcpy(at, sizes, sizeof sizes);
    for (unsigned label = 0; label < LINK_MOST_WORDS; label++) {
        at[5 + 2 * LINK_MOST_WORDS + 2 * label] = (uint8_t)(label & 255u);
        at[6 + 2 * LINK_MOST_WORDS + 2 * label] = (uint8_t)(label >> 8);
    }
}

static void put_head(void) {
    chain[0] = LINK_MOST_SECTIONS;
    chain[2] = LINK_MOST_BLOCKS >> 8;
    for (unsigned b = 0; b < LINK_MOST_BLOCKS; b++)
        chain[3 + b] = (uint8_t)(b % LINK_MOST_SECTIONS);
}

static void put_chain(void) {
    put_head();
    for (unsigned i = 0; i < LINK_MOST_SECTIONS; i++)
        put_table(chain + HEAD + i * LINK_ANY_FILE);
}

/* S is 2, and the last word of the last table goes to state 1, so that its words force another one. */
static void break_chain(void) {
    chain[LAST + 2] = 2;
    chain[LAST + 4 + 2 * LINK_MOST_WORDS] = 1;
}

/* Runs a call on a stack of `size` bytes above a page that may not be touched, and gives how many of them it used. */
static size_t used_by(void (*call)(void), size_t size) {
    static ucontext_t here, there;
    size_t whole = (size + PAGE - 1) / PAGE * PAGE, used = size;
    unsigned char *guard = mmap(NULL, PAGE + whole, PROT_READ | PROT_WRITE, MAP_PRIVATE | MAP_ANONYMOUS, -1, 0);
    unsigned char *stack = guard + PAGE;
    if (guard == MAP_FAILED || mprotect(guard, PAGE, PROT_NONE) != 0 || getcontext(&there) != 0)
        return 0;
    memset(stack, PAINT, size);
    there.uc_stack.ss_sp = stack;
    there.uc_stack.ss_size = size;
    there.uc_link = &here;
    makecontext(&there, call, 0);
    swapcontext(&here, &there);
    while (used > 0 && stack[size - used] == PAINT)
        used--;
    munmap(guard, PAGE + whole);
    return used;
}

static void show(const char *name, void (*call)(void), size_t size) {
    size_t used = used_by(call, size);
    printf("%s: outcome %u within the header's %zu bytes\n", name, (unsigned)outcome, size);
    if (used == 0 || used + PAGE < size)
        printf("    the header asks for over a page more than that\n");
}

/* Shows the text's last line too: whether the chain was accepted is not in the outcome. */
static void show_sheet(const char *name) {
    show(name, sheet_of_chain, LINK_BLOCK_SHEET_STACK);
    size_t end = values[0], begin = end;
    while (begin > 0 && (begin == end || sheet[begin - 1] != '\n'))
        begin--;
    printf("    %.*s", (int)(end - begin), (const char *)sheet + begin);
}

int main(void) {
    /* What is bound at its first call is bound here, on a stack that has room for it. */
    merge_table();
    merge_rows();
    read_section();
    compare_sections();
    decode_frame();
    list_paths();
    list_table();
    put_chain();
    sheet_of_chain();
    show("link_merge, accepted", merge_table, LINK_MERGE_STACK);
    show("link_merge_rows", merge_rows, LINK_MERGE_ROWS_STACK);
    show("link_read_back", read_section, LINK_READ_BACK_STACK);
    show("link_same_section", compare_sections, LINK_SAME_SECTION_STACK);
    show("link_decode", decode_frame, LINK_DECODE_STACK);
    show("link_decode_list", list_paths, LINK_DECODE_LIST_STACK);
    show("link_merge, not rectangular", merge_broken, LINK_MERGE_STACK);
    show("link_listing, accepted", list_table, LINK_LISTING_STACK);
    show("link_listing, not rectangular", list_broken, LINK_LISTING_STACK);
    show_sheet("link_block_sheet, accepted");
    break_chain();
    show_sheet("link_block_sheet, not rectangular");
    return 0;
}
