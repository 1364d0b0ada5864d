/*
 * A record server in small: two slots, a disk of 4,096 pages, and the calls of sabre.h.
 * The look-back room (level 3) reads the page of a donation while the issue desk
 * (level 0) books on it. The program prints each answer and ends with 1 if one is not
 * as expected. README.md has the command that builds and runs it.
 */
#include "sabre.h"

#include <stdio.h>
#include <stdlib.h>
#include <string.h>

#define SLOTS 2
#define DELAY 1
#define PAGES 4096
#define RECORD 16
#define NO_PAGE PAGES

static uint8_t area[SABRE_AREA_SIZE];
static uint8_t list[SABRE_LIST_SIZE];
static uint64_t answer[4];
static unsigned number = 0;

/* What the server itself has: the disk, the slots, and which page it read into each slot. */
static char disk[PAGES][RECORD];
static char slots[SLOTS][RECORD];
static uint32_t page_in[SLOTS];

static void fail(const char *text)
{
    fprintf(stderr, "embed: %s\n", text);
    exit(1);
}

/* A slot or a page, `-` for none. */
static void print_or_dash(int place)
{
    if (place < 0) {
        printf(" -");
    } else {
        printf(" %d", place);
    }
}

/* One line: number, word, value, and for the server alone slot and page to write back. */
static void print_line(uint64_t word, uint64_t value, int slot, int back)
{
    printf("%u %s %lu |", number, sabre_word_text(word), (unsigned long)value);
    print_or_dash(slot);
    print_or_dash(back);
    printf("\n");
}

/* The line of the call that was made last. */
static void print_answer(void)
{
    number++;
    print_line(answer[0], answer[1], sabre_slot(answer), sabre_back(answer));
}

/* The call was accepted and the answer is this word with this value. */
static void expect(uint32_t status, enum sabre_word word, uint64_t value)
{
    print_answer();
    if (status != SABRE_ACCEPTED) {
        fail("refused");
    }
    if (answer[0] != (uint64_t)word || answer[1] != value) {
        fail("another answer than expected");
    }
}

/* The call was refused by this number. */
static void expect_refusal(uint32_t status, enum sabre_refusal number)
{
    print_answer();
    if (status != (uint32_t)number || answer[0] != SABRE_REFUSED || answer[1] != status) {
        fail("not refused, or by another number");
    }
}

/* A page goes into its slot, and the page to write back, if there is one, to disk before it. */
static void move_pages(uint32_t page, int slot, int back)
{
    if (back >= 0) {
        memcpy(disk[back], slots[slot], RECORD);
    }
    if (page_in[slot] != page) {
        memcpy(slots[slot], disk[page], RECORD);
        page_in[slot] = page;
    }
}

/* The part of the server on ready and fetch of a request; returns the slot of the page. */
static int into_slot(uint32_t page)
{
    int slot = sabre_slot(answer);

    if (slot < 0) {
        fail("no slot is told");
    }
    move_pages(page, slot, sabre_back(answer));
    return slot;
}

/* A tick to this clock, and the part of the server on each entry, in turn; returns their number. */
static unsigned tick(uint64_t clock)
{
    struct sabre_fill fill;
    unsigned entries = 0;

    expect(sabre_tick(area, sizeof area, list, sizeof list, answer), SABRE_CLOCK, clock);
    while (sabre_read_fill(list, entries, &fill)) {
        print_line(SABRE_FILL, (uint64_t)(8 * fill.level + fill.row), fill.slot, fill.back);
        move_pages((uint32_t)fill.page, fill.slot, fill.back);
        entries++;
    }
    return entries;
}

int main(void)
{
    static uint8_t before[SABRE_AREA_SIZE];
    int slot;
    uint32_t status;

    strcpy(disk[7], "bag in stock");
    for (slot = 0; slot < SLOTS; slot++) {
        page_in[slot] = NO_PAGE;
    }
    printf("call word value | slot back\n");

    expect(sabre_start(area, sizeof area, SLOTS, DELAY, answer), SABRE_STARTED, 0);
    if (area[8] != SABRE_LAYOUT_VERSION) {
        fail("the library has another layout than sabre.h");
    }

    /* Few pages are confidential here: class 1 begins at page 3,000, and class 3 is empty. */
    status = sabre_borders(area, sizeof area, 3000, 2048, 4096, answer);
    expect_refusal(status, SABRE_REFUSAL_BORDERS);
    expect(sabre_borders(area, sizeof area, 3000, 3500, 4096, answer), SABRE_BORDERS, 0);

    /* The look-back room reads page 7. */
    expect(sabre_begin(area, sizeof area, 3, 0, 100, answer), SABRE_BEGUN, 0);
    expect_refusal(sabre_borders(area, sizeof area, 1024, 2048, 3072, answer), SABRE_REFUSAL_HAS_BEGUN);
    expect(sabre_request(area, sizeof area, 3, 0, 7, SABRE_MODE_READ, answer), SABRE_FETCH, 1);
    into_slot(7);
    tick(1);
    expect(sabre_look(area, sizeof area, 3, 0, answer), SABRE_IDLE, 0);

    /* The desk does not see that. It books on the page, which stays in its one slot. */
    expect(sabre_count(area, sizeof area, 0, answer), SABRE_OPEN, 2);
    expect(sabre_view(area, sizeof area, 0, 7, answer), SABRE_UNSEEN, 0);
    expect(sabre_begin(area, sizeof area, 0, 0, 50, answer), SABRE_BEGUN, 0);
    expect(sabre_request(area, sizeof area, 0, 0, 7, SABRE_MODE_WRITE, answer), SABRE_FETCH, 2);
    slot = into_slot(7);
    expect(sabre_look(area, sizeof area, 3, 0, answer), SABRE_TAKEN, 0);
    tick(2);
    expect(sabre_look(area, sizeof area, 0, 0, answer), SABRE_IDLE, 0);
    strcpy(slots[slot], "bag issued");
    expect(sabre_view(area, sizeof area, 0, 7, answer), SABRE_WRITE, 2);
    expect(sabre_unpin(area, sizeof area, 0, 0, 7, answer), SABRE_UNPINNED, 0);
    expect(sabre_end(area, sizeof area, 0, 0, answer), SABRE_ENDED, 0);

    /* Level 1 may not read a page of class 2. After the refusal every byte is as before. */
    expect(sabre_begin(area, sizeof area, 1, 0, 60, answer), SABRE_BEGUN, 0);
    memcpy(before, area, sizeof area);
    status = sabre_request(area, sizeof area, 1, 0, 3500, SABRE_MODE_READ, answer);
    expect_refusal(status, SABRE_REFUSAL_READ_ABOVE);
    if (memcmp(before, area, sizeof area) != 0) {
        fail("a refused call changed the area");
    }

    /* Level 1 takes the empty slot, then that of page 7, which is written back first. */
    expect(sabre_request(area, sizeof area, 1, 0, 3000, SABRE_MODE_WRITE, answer), SABRE_FETCH, 3);
    slot = into_slot(3000);
    tick(3);
    strcpy(slots[slot], "unit tested");
    expect(sabre_request(area, sizeof area, 1, 0, 3001, SABRE_MODE_WRITE, answer), SABRE_FETCH, 4);
    into_slot(3001);
    expect(sabre_count(area, sizeof area, 1, answer), SABRE_OPEN, 0);
    if (strcmp(disk[7], "bag issued") != 0) {
        fail("the booking is lost");
    }

    /* Another row of level 1 waits, since a better row has both slots. A tick tries it in vain. */
    expect(sabre_begin(area, sizeof area, 1, 1, 70, answer), SABRE_BEGUN, 0);
    expect(sabre_request(area, sizeof area, 1, 1, 7, SABRE_MODE_READ, answer), SABRE_WAIT, 0);
    expect_refusal(sabre_tick(area, sizeof area, list, SABRE_LIST_SIZE - 1, answer), SABRE_REFUSAL_LIST);
    if (tick(4) != 0) {
        fail("a row is filled while a better one has both slots");
    }
    expect(sabre_look(area, sizeof area, 1, 1, answer), SABRE_WAIT, 0);

    /* The better row ends, and the next tick fills the other: page 3,000 goes to disk, page 7 comes in. */
    expect(sabre_end(area, sizeof area, 1, 0, answer), SABRE_ENDED, 0);
    if (tick(5) != 1) {
        fail("the tick does not fill the row that waits");
    }
    expect(sabre_look(area, sizeof area, 1, 1, answer), SABRE_FETCH, 6);
    if (strcmp(disk[3000], "unit tested") != 0 || strcmp(slots[slot], "bag issued") != 0) {
        fail("the pages of the fill were not moved");
    }
    tick(6);
    expect(sabre_look(area, sizeof area, 1, 1, answer), SABRE_IDLE, 0);
    return 0;
}
