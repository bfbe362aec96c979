/* Platewright's exact-one layout search, for C and C++.
 *
 * A set is n placements and a table of groups. Every placement is taken or left out, and in each group exactly one
 * entry must hold. This header has every operation on such sets: check, search, list, settle, index, add, take back,
 * preview, read, save, and the drawing window's call.
 *
 * LISTS. A list is lent as a pointer and its number of elements (not bytes). A list of no elements may have any
 * pointer that is not null. A list that is written must not overlap any other that is lent to the same call. Elements
 * that a function's comment doesn't name are never changed, so a longer list than needed is fine.
 *
 * REFUSALS. No call has a condition on its numbers or on what the lists hold: what it can't do it refuses, with the
 * number of the first fault in the order that its comment gives, and then no lent element has changed (but the
 * window's receipt, which tells the refusal).
 *
 * THREADS. Calls share nothing and keep nothing: any number may run side by side, on lists of their own. A call needs
 * at most PLATEWRIGHT_STACK bytes of stack: give a thread that calls at least that much, and what it needs itself (on
 * Linux a thread's stack also holds its thread-local variables). A smaller stack ends in a crash at its guard page.
 *
 * No call allocates memory, reads a file, or runs without end: a search makes at most as many splits as its
 * allowance says. */
#ifndef PLATEWRIGHT_H
#define PLATEWRIGHT_H

#include <stdbool.h>
#include <stddef.h>
#include <stdint.h>

#ifdef __cplusplus
extern "C" {
#endif

/* The version: 4, and the last request of document 02 that it has. */
#define PLATEWRIGHT_VERSION "4.7.0"
#define PLATEWRIGHT_VERSION_MAJOR 4
#define PLATEWRIGHT_VERSION_MINOR 7
#define PLATEWRIGHT_VERSION_PATCH 0

/* The stack that a call needs at most, in bytes: a search may go 254 splits deep, and remembers parts of its tree. */
#define PLATEWRIGHT_STACK (1024 * 1024)

/* The limits of a set, over the whole table. */
#define PLATEWRIGHT_MAX_PLACEMENTS 256
#define PLATEWRIGHT_MAX_GROUPS 512
#define PLATEWRIGHT_MAX_ENTRIES 2048

/* The elements of the longest table, which has so many entries and closing zeros: a table that is lent to read into
 * needs no more. */
#define PLATEWRIGHT_MAX_TABLE (PLATEWRIGHT_MAX_ENTRIES + PLATEWRIGHT_MAX_GROUPS)

/* The bytes of the longest strip that is read, and of the longest that is saved (4, 2 for each group and 3 for each
 * entry). */
#define PLATEWRIGHT_MAX_STRIP 16384
#define PLATEWRIGHT_MAX_SAVED (4 + 2 * PLATEWRIGHT_MAX_GROUPS + 3 * PLATEWRIGHT_MAX_ENTRIES)

/* The bytes of the window's receipt. */
#define PLATEWRIGHT_RECEIPT 16

/* What an answer's number says: outcomes first, then refusals. */
#define PLATEWRIGHT_LAID_OUT 0              /* a layout was found */
#define PLATEWRIGHT_NO_LAYOUT 10            /* there is none; of settle and preview: a dead end */
#define PLATEWRIGHT_STOPPED 11              /* the tree needs more splits than allowed */
#define PLATEWRIGHT_SETTLED 13              /* settle, preview: no dead end */
#define PLATEWRIGHT_GROUP_ADDED 15          /* add */
#define PLATEWRIGHT_STRIP_READ 16           /* read */
#define PLATEWRIGHT_INDEXED 17              /* index */
#define PLATEWRIGHT_DONE 18                 /* check, take back, save */
#define PLATEWRIGHT_TOO_MANY_PLACEMENTS 1   /* n above 256 */
#define PLATEWRIGHT_TOO_MANY_GROUPS 2       /* more than 512 over the whole set */
#define PLATEWRIGHT_TOO_MANY_ENTRIES 3      /* more than 2,048 over the whole set */
#define PLATEWRIGHT_OPEN_GROUP 4            /* the table isn't empty, and its last element isn't 0 */
#define PLATEWRIGHT_UNKNOWN_PLACEMENT 5     /* an entry's size is above n, or 0 where an entry must stand */
#define PLATEWRIGHT_PLAN_SHORT 6            /* under n */
#define PLATEWRIGHT_TRAIL_SHORT 7           /* under n */
#define PLATEWRIGHT_HEADS_SHORT 8           /* under the number of groups */
#define PLATEWRIGHT_RECEIPT_SHORT 9         /* under 16 bytes; nothing is written */
#define PLATEWRIGHT_USED_LENGTH_WRONG 12    /* above the buffer's length */
#define PLATEWRIGHT_STATE_SHORT 14          /* under n */
#define PLATEWRIGHT_REASONS_SHORT 19        /* under n */
#define PLATEWRIGHT_UNKNOWN_MARK 20         /* a byte of a strip is no command */
#define PLATEWRIGHT_CUT_STRIP 21            /* an operand or the end mark is missing */
#define PLATEWRIGHT_OUT_OF_TURN 22          /* a command isn't allowed there, or stands after the end mark */
#define PLATEWRIGHT_TABLE_SHORT 23          /* no room for the next element */
#define PLATEWRIGHT_STRIP_TOO_LONG 24       /* over 16,384 bytes */
#define PLATEWRIGHT_STRIP_SHORT 25          /* no room for the strip */
#define PLATEWRIGHT_UNNAMED_PLACEMENT 26    /* a placement of the strip stands in none of its entries */
#define PLATEWRIGHT_ROWS_SHORT 27           /* under k times n */
#define PLATEWRIGHT_NOTHING_TO_TAKE_BACK 28 /* the used part has no group */

/* What settle and preview write for a placement that is settled. */
#define PLATEWRIGHT_STATE_TAKEN 257
#define PLATEWRIGHT_STATE_LEFT_OUT (-257)

/* The marks of a strip, each with its operand's bytes, high byte first. A strip is placements, then chapters and
 * groups in any number, then the end. */
#define PLATEWRIGHT_MARK_PLACEMENTS 0x50 /* 2: n; first, and once */
#define PLATEWRIGHT_MARK_CHAPTER 0x43    /* 1, any; outside a group; changes nothing */
#define PLATEWRIGHT_MARK_GROUP 0x47      /* 0: opens a group */
#define PLATEWRIGHT_MARK_TAKEN 0x54      /* 2, a placement; inside a group */
#define PLATEWRIGHT_MARK_LEFT_OUT 0x4C   /* 2, a placement; inside a group */
#define PLATEWRIGHT_MARK_CLOSE 0x45      /* 0: closes the group */
#define PLATEWRIGHT_MARK_END 0x5A        /* 0: ends the strip, outside a group */

/* What a call answers. Everything is 0 or false where an operation's comment says nothing else. */
typedef struct platewright_answer {
    uint32_t number; /* one of the numbers above */
    uint32_t count;  /* search, list: the splits of the tree, up to where it ends or is stopped */
    size_t place;    /* refusals 5 and those of a strip: where, from 0; list: the rows, save: the bytes written */
    size_t n;        /* read: the number of placements */
    size_t used;     /* read, add, take back: the used length of the table */
    size_t rows;     /* list: the rows written */
    uint32_t group;  /* with number 5 alone: the group that holds the wrong entry, counted from 1 */
    bool more;       /* list: there is a layout more than the rows written */
} platewright_answer;

/* A table is a list of 16-bit entries: +p says that placement p is taken, -p that it is left out, 0 closes a group.
 * Placements and groups are counted from 1. A group is met when exactly one of its entries holds; an entry written
 * twice counts twice; a group with nothing in it can't be met. A layout is a choice that meets every group. Layouts
 * are ordered from placement 1 on, left out before taken. */

/* CHECK. Is the table within the limits? 18, done. Refusals: 1, 2, 3, 4, 5; place and group of 5 are those of the
 * first wrong entry. Every operation on a table makes this check first, and refuses alike. */
platewright_answer platewright_check(const int16_t *table, size_t table_len, size_t n);

/* CHECK IN PARTS. A table may be handed over in any number of parts, cut anywhere: begin, then each part with the
 * pass that the one before left, then end on the last pass. The answer is that of the whole table, at every point of
 * the way: an editor keeps the passes and goes on from where something changed. A pass is a few numbers; keep it as
 * it came. */
typedef struct platewright_pass {
    size_t placements; /* n */
    size_t place;      /* of the first unknown placement, where one was met within the limits */
    uint16_t group;    /* its group */
    uint16_t groups;   /* closed ones so far, at most 513 */
    uint16_t entries;  /* so far, at most 2,049 */
    bool open;         /* the last element is an entry */
    bool unknown;      /* an unknown placement was met */
} platewright_pass;

platewright_pass platewright_check_begin(size_t n);
platewright_pass platewright_check_part(platewright_pass pass, const int16_t *part, size_t part_len);
platewright_answer platewright_check_end(platewright_pass pass);

/* SEARCH. The first layout. 0, laid out: the first n bytes of the plan become the choice, 1 taken and 0 left out; the
 * first n of the trail become the splits on the path to it, +p taken and -p left out, in order, then zeros. 10, no
 * layout, and 11, stopped: the first n of both become 0. The count is the number of splits of the tree (those of a
 * part that is remembered count too), of a stop the allowance. A search that finishes answers alike with every larger
 * allowance. Refusals: 1 to 5, 6, 7. */
platewright_answer platewright_search(const int16_t *table, size_t table_len, size_t n, uint32_t allowance,
                                      uint8_t *plan, size_t plan_len, int16_t *trail, size_t trail_len);

/* LIST. All layouts in order, up to k, a row of n bytes each. 0 if there is a layout, 10 if there is none; rows and
 * place are the rows written, more says whether there is a further layout; unused rows of the k become 0. 11,
 * stopped: no rows, all k become 0. The count is the splits of its own tree. k may be 0, to ask whether there is a
 * layout. Refusals: 1 to 5, 27. */
platewright_answer platewright_list(const int16_t *table, size_t table_len, size_t n, size_t k, uint32_t allowance,
                                    uint8_t *rows, size_t rows_len);

/* SETTLE. What is already settled, without a split. 13, settled: the first n of the list become, for each placement
 * p, 257 taken, -257 left out, +p open, or +r or -r: tied to the lower placement r as equal or as opposite; the first
 * n of the reasons become the group that settled or tied it, 0 if it is open. 10, a dead end: there is no layout; the
 * first n of both become 0. Refusals: 1 to 5, 14, 19. */
platewright_answer platewright_settle(const int16_t *table, size_t table_len, size_t n, int16_t *list, size_t list_len,
                                      uint16_t *reasons, size_t reasons_len);

/* INDEX. Where the groups are. 17, indexed: for group number i + 1 starts[i] becomes the index of its first element
 * (of its 0 if it is empty) and entries[i] the number of its entries. There is room for as many groups as the shorter
 * list has elements. Refusals: 1 to 5, 8. */
platewright_answer platewright_index(const int16_t *table, size_t table_len, size_t n,
                                     size_t *starts, size_t starts_len, size_t *entries, size_t entries_len);

/* ADD. One more group at the end of the table that the first `used` elements of the buffer are. 15, group added: the
 * group's entries and a closing 0 are stored from `used` on, and the answer's used is the new used length. The group
 * is lent without a closing 0. Refusals: 12; 1 to 5 on the used part; 2 and 3 with the group added; 5 on the group,
 * with `used` plus its index there as the place; 23. */
platewright_answer platewright_add(int16_t *buffer, size_t buffer_len, size_t used, size_t n,
                                   const int16_t *group, size_t group_len);

/* TAKE BACK. The last group of the used part goes. 18, done: its entries and its closing 0 become 0, and the answer's
 * used is the new used length (which may be 0: the number tells). Refusals: 12; 1 to 5 on the used part; 28. */
platewright_answer platewright_take_back(int16_t *buffer, size_t buffer_len, size_t used, size_t n);

/* PREVIEW. What settle would answer and write if the group were added. The buffer is only read, and needs no room for
 * the group. The reasons count the new group as the last. Refusals: add's without 23, then 14, 19. */
platewright_answer platewright_preview(const int16_t *buffer, size_t buffer_len, size_t used, size_t n,
                                       const int16_t *group, size_t group_len, int16_t *list, size_t list_len,
                                       uint16_t *reasons, size_t reasons_len);

/* READ. A strip into a table. 16, strip read: n and used say how many placements and elements; the first `used`
 * elements of the table become the set's. A strip must name every placement in some entry. Refusals: 24, place 0;
 * then command by command, each with the command's place: 20, 22, 21, 1 or 5, 2 or 3, 23, and 26 at the end mark; a
 * missing end mark is 21 at the strip's length. */
platewright_answer platewright_read(const uint8_t *strip, size_t strip_len, int16_t *table, size_t table_len);

/* SAVE. A table as a strip, without chapters. 18, done: place is the number of bytes written. Reading it brings back
 * n and the same table. Refusals: 1 to 5, 26, 25. */
platewright_answer platewright_save(const int16_t *table, size_t table_len, size_t n, uint8_t *strip, size_t strip_len);

/* The drawing WINDOW's call: reads a strip and searches it. The answer is the number: 0 (the first n bytes of the
 * plan become the choice), 10, 11 (they become 0), or a refusal. The receipt's first 16 bytes become number, place,
 * count and group, four bytes each, high byte first. Refusals: 9, a receipt under 16 bytes, which changes nothing;
 * read's without 23; 6. */
uint32_t platewright_window(const uint8_t *strip, size_t strip_len, uint32_t allowance, uint8_t *plan, size_t plan_len,
                            uint8_t *receipt, size_t receipt_len);

#ifdef __cplusplus
}
#endif

#endif
