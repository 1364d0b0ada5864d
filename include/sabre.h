/*
 * The SABRE buffer manager of a record server: ten calls on a state that the
 * server lends as bytes. Link with libsabre.a (x86-64).
 *
 * The state. `area` points to `len` bytes. The first 65,536 of them are the
 * state, laid out as docs/LAYOUT.md says. Bytes past them are never read or
 * written. The area may stand at any address, with any alignment. The library
 * keeps no state of its own: two areas are two buffer managers.
 *
 * An older area. Ticks and deadlines have 64 bits, in layout version 4. A sound area of
 * version 3, the last with 32 bits, is taken as well: sabre_look, sabre_view and
 * sabre_count answer from it and leave it as it is, as every refused call does; any other
 * call that is accepted, but sabre_start, goes on from its state, and leaves an area of
 * version 4, which the library of version 3 refuses. Every call but sabre_start refuses
 * an area of another version.
 *
 * The answer. Each call, refused or not, fills all of `answer`:
 *   answer[0]  the word, of enum sabre_word
 *   answer[1]  the value, 0 if the word has none:
 *                refused        the refusal's number
 *                fetch          the due tick
 *                clock          the new clock
 *                active, read,
 *                write          the least arrival tick among the holdings seen
 *                dormant        the arrival tick of the slot
 *                open           the number of open slots
 *   answer[2]  slot + 1, for ready and fetch of a request; else 0
 *   answer[3]  page to write back + 1; 0 if there is none
 * sabre_slot, sabre_back and sabre_word_text, at the end of this file, read it.
 * Word and value may go to the clearance that made the call, and to no other. Start,
 * tick and borders are the server's calls: word and value of a tick may go to every
 * clearance, those of a start and of borders are for the server alone.
 * answer[2] and answer[3] depend on what higher clearances do. They are for the
 * server alone: never pass them, or anything of the area, on to a clearance.
 *
 * The list. A tick also has the server's `list` of `list_len` bytes, and writes
 * the first 256 of them: 8 bytes for each waiting row that it made ready or
 * fetching, in the order in which it did so, then zeros:
 *   byte 0      the level
 *   byte 1      the row, 0 to 7
 *   byte 2      the slot
 *   byte 3      the flag: 1, no page is to be written back; 2, a page is
 *   byte 4, 5   the page, the higher byte first
 *   byte 6, 7   the page to write back, the higher byte first; 0 if there is none
 * The flag of an entry is never 0, so where it is 0 the entries are over; there
 * are 32 at most. Bytes past 256 are never read or written. The list may stand at
 * any address, with any alignment. sabre_read_fill, at the end of this file, reads
 * an entry. The list tells of the rows of all clearances, and its slots and pages
 * to write back depend on the higher ones. It is for the server alone: never pass
 * an entry, or the number of entries, on to a clearance. A clearance learns of its
 * own rows by a look.
 *
 * The status. A call returns 0 where it is accepted, else the refusal's number,
 * of enum sabre_refusal. Of the refusals that apply the smallest is given, but
 * that 21 comes before 17. After a refusal every byte of the area and of the list
 * is as before, and the answer is { SABRE_REFUSED, number, 0, 0 }. Any numbers and
 * any bytes may be passed.
 *
 * What the caller must see to: `area` is not null and its `len` bytes may be
 * read and, where it is not const, written; so for `list` and its `list_len`
 * bytes; `answer` is not null, has room for four numbers and is aligned for
 * uint64_t; area, list and answer do not overlap. There are no locks inside:
 * make one call at a time on one area, and let nobody else write there. How long
 * a call runs on the machine is no part of an answer, and may depend on the whole
 * state.
 *
 * The stack. A tick needs up to 270 KiB of the caller's stack, any other call up to
 * 227 KiB. Nothing is allocated elsewhere, and no call recurses.
 * `host stack` measures it (host/README.md) and fails at 512 KiB.
 */
#ifndef SABRE_H
#define SABRE_H

#include <stddef.h>
#include <stdint.h>

#ifdef __cplusplus
extern "C" {
#endif

/* The bytes of the state. */
#define SABRE_AREA_SIZE 65536

/* The bytes of a list that a tick writes, those of an entry, and the most entries. */
#define SABRE_LIST_SIZE 256
#define SABRE_ENTRY_SIZE 8
#define SABRE_ENTRIES 32

/* The version of the layout of docs/LAYOUT.md that is written; it stands in an area from byte 8 on. */
#define SABRE_LAYOUT_VERSION 4

/* answer[0]. Other words may be added at the end. */
enum sabre_word {
    SABRE_REFUSED = 0,
    SABRE_STARTED = 1,
    SABRE_BEGUN = 2,
    SABRE_READY = 3,     /* request */
    SABRE_FETCH = 4,     /* request, look */
    SABRE_WAIT = 5,      /* request, look */
    SABRE_UNPINNED = 6,
    SABRE_ENDED = 7,
    SABRE_CLOCK = 8,     /* tick */
    SABRE_NONE = 9,      /* look: the row is free */
    SABRE_IDLE = 10,     /* look */
    SABRE_LATE = 11,     /* look: killed, its deadline has passed */
    SABRE_TAKEN = 12,    /* look: killed, another row needed its page or slot */
    SABRE_UNSEEN = 13,   /* view */
    SABRE_ACTIVE = 14,   /* view: held, and no pin is seen */
    SABRE_READ = 15,     /* view: pinned to read; not a mode */
    SABRE_WRITE = 16,    /* view: pinned to write; not a mode */
    SABRE_DORMANT = 17,  /* view, level 3 alone: in a slot, held by nobody */
    SABRE_OPEN = 18,     /* count */
    SABRE_BORDERS = 19,
    SABRE_FILL = 20      /* the player's word for an entry of a list, no call answers it */
};

/* What a call returns. */
enum sabre_refusal {
    SABRE_ACCEPTED = 0,
    SABRE_REFUSAL_AREA = 1,         /* area under 65,536 bytes, or (not for start) unsound in versions 4 and 3 */
    SABRE_REFUSAL_SLOTS = 2,        /* slots not 1 to 64 */
    SABRE_REFUSAL_DELAY = 3,        /* delay not 1 to 255 */
    SABRE_REFUSAL_LEVEL = 4,        /* level above 3 */
    SABRE_REFUSAL_ROW = 5,          /* row number above 7 */
    SABRE_REFUSAL_PAGE = 6,         /* page above 4,095 */
    SABRE_REFUSAL_MODE = 7,         /* mode not 0, 1 */
    SABRE_REFUSAL_NOT_FREE = 8,     /* the row is not free */
    SABRE_REFUSAL_FREE = 9,         /* the row is free */
    SABRE_REFUSAL_KILLED = 10,      /* the row is killed */
    SABRE_REFUSAL_BUSY = 11,        /* the row is fetching or waiting */
    SABRE_REFUSAL_PAST = 12,        /* the deadline is below the clock */
    SABRE_REFUSAL_READ_ABOVE = 13,  /* the page's class is above the level */
    SABRE_REFUSAL_WRITE_BELOW = 14, /* the page's class is below the level */
    SABRE_REFUSAL_NOT_PINNED = 15,  /* the row does not pin the page */
                                    /* 16 is not used */
    SABRE_REFUSAL_LAST_CLOCK = 17,  /* the clock is 9,000,000,000,000,000,000 */
    SABRE_REFUSAL_RECORD = 18,      /* bad record: the player's, no call returns it */
    SABRE_REFUSAL_BORDERS = 19,     /* the borders fall, or exceed 4,096 */
    SABRE_REFUSAL_HAS_BEGUN = 20,   /* a row has begun since the start */
    SABRE_REFUSAL_LIST = 21         /* list under 256 bytes; it comes before 17 */
};

/* The mode of a request. */
enum sabre_mode {
    SABRE_MODE_READ = 0,
    SABRE_MODE_WRITE = 1
};

/*
 * Begins anew, whatever the area held before: clock 0, every row free, every
 * slot and holding empty, the borders 1,024, 2,048 and 3,072. The server's own call.
 * slots  1 to 64
 * delay  1 to 255, the ticks charged for every page that a level does not see
 * Answers started. Refusals 1 (a short area alone), 2, 3.
 */
uint32_t sabre_start(uint8_t *area, size_t len, uint32_t slots, uint64_t delay, uint64_t answer[4]);

/*
 * Begins a transaction in a free row. Of rows of one level with equal deadlines the one that
 * began earlier has the better priority, whatever their numbers.
 * level     0 (issue desk) to 3 (look-back room)
 * row       0 to 7, a row of that level
 * deadline  at or above the clock; the row may finish at it, and the tick that takes the clock
 *           above it kills the row as late
 * Answers begun. Refusals 1, 4, 5, 8, 12.
 */
uint32_t sabre_begin(uint8_t *area, size_t len, uint32_t level, uint32_t row, uint64_t deadline, uint64_t answer[4]);

/*
 * An idle row asks for a page.
 * page  0 to 4,095; its class is that of sabre_borders; reading needs level >= class, writing level <= class
 * mode  SABRE_MODE_READ or SABRE_MODE_WRITE
 * Answers
 *   ready  the row pins the page and may use it now
 *   fetch  the row pins the page and may use it from the due tick on, when a look says idle
 *   wait   the request is not granted and is stored, and each tick tries it; what the row held
 *          it still holds
 * Refusals 1, 4, 5, 6, 7, 9, 10, 11, 13, 14.
 *
 * For the server, on ready and fetch: the page is, or is to be, in slot answer[2] - 1.
 * If answer[3] is not 0, first write page answer[3] - 1 from that slot to disk. Then, if
 * another page or none was in that slot, read the page into it. If the page itself was
 * there, do not read it again: the copy in the slot may be newer than the one on disk.
 */
uint32_t sabre_request(uint8_t *area, size_t len, uint32_t level, uint32_t row, uint32_t page, uint32_t mode, uint64_t answer[4]);

/*
 * An idle row's pin on the page becomes none; it still holds the page.
 * Answers unpinned. Refusals 1, 4, 5, 6, 9, 10, 11, 15.
 */
uint32_t sabre_unpin(uint8_t *area, size_t len, uint32_t level, uint32_t row, uint32_t page, uint64_t answer[4]);

/*
 * Ends the row's transaction, live or killed: it lets go of every page and is free.
 * Answers ended. Refusals 1, 4, 5, 9.
 */
uint32_t sabre_end(uint8_t *area, size_t len, uint32_t level, uint32_t row, uint64_t answer[4]);

/*
 * The clock goes on by one; then fetching rows that are due become idle; then live rows
 * whose deadline is below the clock are killed as late; then the stored request of each waiting
 * row is tried a single time, the best priority first, unless an earlier try has killed the row.
 * A row so made ready is idle, and a look says so; one made fetching is idle from its due tick on;
 * one tried in vain waits as before. The server's own call. A page counts as arrived at its
 * arrival tick: tick on to there only once it has been read from disk.
 * list  at least 256 bytes; has an entry for each row made ready or fetching
 * Answers clock, the value is the new clock; answer[2] and answer[3] are 0. Refusals 1, 21, 17,
 * in this order. Word and value may go to every clearance, the list to none.
 *
 * What a waiting row means. After an accepted tick a row waits for its page only if
 *   - a better row that it sees pins the page in conflict: another row of its level or of a lower
 *     one, and before it in priority, writes the page, or reads it where the waiting row wants to
 *     write; or
 *   - a view of the page at its level answers unseen, and every slot is held by a row of lower
 *     level or by a better row of its own level, or is pinned by the row itself.
 * So it waits for rows of lower levels, for better rows of its own level and for its own pins, and
 * never for a higher level or a worse row. An unpin may end the first. For the second a slot must
 * lose a holder or get the page, and an unpin does neither. A row that waits for an unseen page and
 * pins every slot itself waits until it is ended or killed, since a waiting row cannot unpin. The
 * best live row of all, if it waits, is idle or fetching after one tick, unless that tick makes it
 * late or it pins every slot itself.
 *
 * For the server, on each entry, in turn: the same as on ready and fetch of a request. The entry's
 * page is, or is to be, in its slot. If the flag is 2, first write the page to write back from that
 * slot to disk. Then, if another page or none was in that slot, read the page into it; a page that
 * one entry writes back may be the page of a later one.
 */
uint32_t sabre_tick(uint8_t *area, size_t len, uint8_t *list, size_t list_len, uint64_t answer[4]);

/*
 * What a row is. Changes nothing.
 * Answers none, idle, fetch (the value is the due tick), wait, late or taken; answer[2]
 * and answer[3] are 0. Refusals 1, 4, 5.
 */
uint32_t sabre_look(const uint8_t *area, size_t len, uint32_t level, uint32_t row, uint64_t answer[4]);

/*
 * What a level sees of a page. Changes nothing.
 * Answers unseen, active, read or write (the strongest pin seen; the value is the least
 * arrival tick seen) or, at level 3, dormant (the value is the slot's arrival tick).
 * Refusals 1, 4, 6.
 */
uint32_t sabre_view(const uint8_t *area, size_t len, uint32_t level, uint32_t page, uint64_t answer[4]);

/*
 * The number of slots that are open to a level: those that no row of that level or below
 * holds. Changes nothing.
 * Answers open. Refusals 1, 4.
 */
uint32_t sabre_count(const uint8_t *area, size_t len, uint32_t level, uint64_t answer[4]);

/*
 * Sets the borders of the classes: class 0 lies below the first, class 1 below the second,
 * class 2 below the third, class 3 at or above it. Equal borders give an empty class. The
 * server's own call, for after a start and before the first begin that is accepted; until
 * then it may be made again.
 * first, second, third  at most 4,096, and none below the one before it
 * Answers borders. Refusals 1, 19, 20.
 */
uint32_t sabre_borders(uint8_t *area, size_t len, uint32_t first, uint32_t second, uint32_t third, uint64_t answer[4]);

/* The slot of an answer that a call has filled; -1 if there is none. For the server alone. */
static inline int sabre_slot(const uint64_t answer[4])
{
    return answer[2] == 0 ? -1 : (int)(answer[2] - 1);
}

/* The page to write back of an answer that a call has filled; -1 if there is none. For the server alone. */
static inline int sabre_back(const uint64_t answer[4])
{
    return answer[3] == 0 ? -1 : (int)(answer[3] - 1);
}

/* An entry of a list. */
struct sabre_fill {
    int level;
    int row;
    int slot;
    int page;
    int back; /* the page to write back; -1 if there is none */
};

/*
 * Reads an entry, number 0 to 31, of the list of an accepted tick. Returns 1, or 0 if there is no
 * such entry. For the server alone.
 */
static inline int sabre_read_fill(const uint8_t list[SABRE_LIST_SIZE], unsigned number, struct sabre_fill *fill)
{
    const uint8_t *entry;

    if (number >= SABRE_ENTRIES || list[SABRE_ENTRY_SIZE * number + 3] == 0) {
        return 0;
    }
    entry = list + SABRE_ENTRY_SIZE * number;
    fill->level = entry[0];
    fill->row = entry[1];
    fill->slot = entry[2];
    fill->page = 256 * entry[4] + entry[5];
    fill->back = entry[3] == 2 ? 256 * entry[6] + entry[7] : -1;
    return 1;
}

/* The text of a word, answer[0]; "unknown" for a number that is not of enum sabre_word. */
static inline const char *sabre_word_text(uint64_t word)
{
    static const char *const texts[] = {
        "refused", "started", "begun", "ready", "fetch", "wait", "unpinned", "ended", "clock", "none",
        "idle", "late", "taken", "unseen", "active", "read", "write", "dormant", "open",
        "borders", "fill"
    };

    return word < sizeof texts / sizeof texts[0] ? texts[word] : "unknown";
}

#ifdef __cplusplus
}
#endif

#endif
