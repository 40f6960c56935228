/* kapkyrem.h: thin out an exact cover problem with colours before it is searched.
 *
 * The problem. Items are numbered from 0: np primary items first, then ns secondary ones; n = np + ns. An option is a list of
 * entries, each an item and a colour; colour 0 means none. A cover is a set of options, each with a primary item, such that
 * every primary item is in exactly one of them, and any two that share a secondary item hold it with one equal colour above 0.
 * The calls drop options that are in no cover and items that say nothing new, and nothing else: the covers of the result are
 * the covers of the problem.
 *
 * The lists. M options and E entries are handed in as three lists: the item of each entry, the colour of each entry, and for each
 * option the end of its entries (the number of entries up to and with it, so the last end is E).
 *
 * Two calls do the same work:
 *   kapkyrem_reduce        for a desk: byte lists, four bytes to a number, lowest first; small figures; working room of its own
 *   kapkyrem_reduce_lists  for large problems: lists of 32-bit numbers; full figures; the caller lends the working room
 * and kapkyrem_compact gives the items of a result new numbers without gaps.
 *
 * Rules for every call:
 * - A list is a pointer and a length. NULL with length 0 is taken. Any other pointer must be good for the whole length.
 * - No list that is written to may overlap another list. (Lists that are only read may.)
 * - Any numbers may be handed in: what cannot be taken is refused, never misread.
 * - A refusal writes nothing anywhere.
 * - Nothing is kept from one call to the next and there is no global state: calls may run at the same time in several threads, as
 *   long as no thread writes to a list that another one uses.
 * - No heap. Each call takes less than 64 KiB of stack.
 *
 * C99 or later, and C++. Link with libkapkyrem.a.
 */
#ifndef KAPKYREM_H
#define KAPKYREM_H

#include <stddef.h>
#include <stdint.h>

#ifdef __cplusplus
extern "C" {
#endif

/* ---- The figures: the most that is taken ---- */

/* kapkyrem_reduce */
#define KAPKYREM_MOST_ITEMS 64u
#define KAPKYREM_MOST_OPTIONS 256u
#define KAPKYREM_MOST_ENTRIES 1024u
/* A run at these figures has settled, or found the problem infeasible, within so many rounds: a cap that is always enough. */
#define KAPKYREM_MOST_ROUNDS 319u

/* kapkyrem_reduce_lists */
#define KAPKYREM_LISTS_MOST_ITEMS 1024u
#define KAPKYREM_LISTS_MOST_OPTIONS 4096u
#define KAPKYREM_LISTS_MOST_ENTRIES 16384u
#define KAPKYREM_LISTS_MOST_ROUNDS 5119u

/* both */
#define KAPKYREM_MOST_COLOUR 255u

/* ---- The number of an answer: its lowest byte, kapkyrem_number() ---- */

#define KAPKYREM_REDUCED 0u    /* thinned; the result lists are written */
#define KAPKYREM_INFEASIBLE 1u /* there is no cover; no result is written */
#define KAPKYREM_DONE 0u       /* kapkyrem_compact only: the outcome list is written */

/* Refusals of kapkyrem_reduce and kapkyrem_reduce_lists, tried in this order; 19 to 22 go entry by entry, and within an entry by
 * number. The place, kapkyrem_place(), is 0 except where a comment says "option" or "entry": then it is the number of that
 * option, or of that entry in the whole list of entries, from 0. */
#define KAPKYREM_NO_PRIMARY 10u        /* np is 0 */
#define KAPKYREM_TOO_MANY_ITEMS 11u    /* np + ns is over the figure (the true sum, never wrapped) */
#define KAPKYREM_NO_OPTION 12u         /* M is 0 */
#define KAPKYREM_TOO_MANY_OPTIONS 13u  /* M is over the figure */
#define KAPKYREM_UNEVEN_LISTS 14u      /* item and colour lists differ in length; or a byte list's length is not a multiple of 4 */
#define KAPKYREM_TOO_MANY_ENTRIES 15u  /* E is over the figure */
#define KAPKYREM_BAD_END 16u           /* option: its end is below the one before or above E; else the last end is not E */
#define KAPKYREM_WORKING_ROOM 17u      /* a working list is too short (kapkyrem_reduce never gives it) */
#define KAPKYREM_RESULT_ROOM 18u       /* a result list is too short (kapkyrem_compact: the outcome list) */
#define KAPKYREM_BAD_ITEM 19u          /* entry: its item number is not below n */
#define KAPKYREM_BAD_COLOUR 20u        /* entry: its colour is over 255 */
#define KAPKYREM_COLOURED_PRIMARY 21u  /* entry: a colour on a primary item */
#define KAPKYREM_ITEM_TWICE 22u        /* entry: its item is already in this option, whatever the colours */
/* Refusals of kapkyrem_compact: 14, 24, 18, 25, in this order. */
#define KAPKYREM_BAD_KEPT 24u          /* the kept list is not strictly rising, or the count is 0 or above its length */
#define KAPKYREM_NOT_KEPT 25u          /* place: the first item, by its index in the item list, that is not in the kept list */

/* ---- The cause of infeasible: kapkyrem_cause() ---- */

#define KAPKYREM_CAUSE_UNUSED 1u    /* no option with a primary item has it, from the start; the round is 0, whatever the cap */
#define KAPKYREM_CAUSE_REDUNDANT 2u /* its last option went with a redundant item: it would use up what another item always needs */
#define KAPKYREM_CAUSE_BLOCKED 3u   /* its last options went as blocked: each would leave another primary item without an option */

/* ---- The calls ---- */

/* Thins out a problem of at most 64 items, 256 options and 1,024 entries.
 *
 *   np, ns        how many primary and secondary items there are
 *   cap           how many rounds are run at most; KAPKYREM_MOST_ROUNDS is always enough. Any number is taken, 0 too: then no round
 *                 is run, and only unused secondary items and options without a primary item are dropped.
 *   items         E numbers: the item of each entry, option after option
 *   colours       E numbers: the colour of each entry, 0 to 255
 *   ends          M numbers: the end of each option's entries
 *   kept          room for n numbers:   the items that are kept, rising, so primaries first
 *   out_ends      room for M numbers:   the end of each kept option's entries
 *   numbers       room for M numbers:   the number, in the problem, of each kept option
 *   out_items     room for E numbers:   the item of each entry that is left, by its number in the problem
 *   out_colours   room for E numbers:   the colour of each entry that is left
 *
 * Every length is in BYTES, four to a number. M is a quarter of ends_len, E of items_len. A length that is not a multiple of four is
 * refused with 14, in 14's turn; until then counts use the whole fours.
 *
 * On reduced the fronts of the result lists are written: primaries + secondaries numbers of kept; as many numbers of out_ends and of
 * numbers as options are kept, which is at least one; and of out_items and out_colours as many as the last end written, which is
 * the count of entries left. Nothing behind them is written. Options stand by the item of their first entry upward, then by
 * option number; entries in the given order. On infeasible and on a refusal nothing is written.
 *
 * Answer:
 *   refused      number + 2^8 x place
 *   infeasible   1 + 2^8 x item + 2^24 x cause + 2^32 x round
 *   reduced      0 + 2^8 x rounds + 2^24 x settled + 2^32 x primaries + 2^40 x secondaries + 2^48 x options
 * settled is 1 if the last round removed nothing, 0 if the cap stopped the work. */
uint64_t kapkyrem_reduce(
    uint32_t np, uint32_t ns, uint32_t cap,
    const uint8_t *items, size_t items_len,
    const uint8_t *colours, size_t colours_len,
    const uint8_t *ends, size_t ends_len,
    uint8_t *kept, size_t kept_len,
    uint8_t *out_ends, size_t out_ends_len,
    uint8_t *numbers, size_t numbers_len,
    uint8_t *out_items, size_t out_items_len,
    uint8_t *out_colours, size_t out_colours_len);

/* The same for at most 1,024 items, 4,096 options and 16,384 entries, over lists of numbers, with working room that is lent.
 *
 *   heads, up, down, tints   working room: at least n + 2 + E + M numbers each, see kapkyrem_lists_room()
 *   marks                    working room: at least n + 1 numbers
 *   all others               as in kapkyrem_reduce
 *
 * Every length is in NUMBERS. What the working lists hold at the call does not matter. After reduced and after infeasible every number
 * of the five is zero, to the end of each list; after a refusal they are as they were. The result lists are written as in
 * kapkyrem_reduce.
 *
 * Answer:
 *   refused      number + 2^8 x place
 *   infeasible   1 + 2^8 x item + 2^24 x cause + 2^32 x round
 *   reduced      0 + 2^8 x rounds + 2^24 x settled + 2^25 x primaries + 2^36 x secondaries + 2^47 x options */
uint64_t kapkyrem_reduce_lists(
    uint32_t np, uint32_t ns, uint32_t cap,
    const uint32_t *items, size_t items_len,
    const uint32_t *colours, size_t colours_len,
    const uint32_t *ends, size_t ends_len,
    int32_t *heads, size_t heads_len,
    uint32_t *up, size_t up_len,
    uint32_t *down, size_t down_len,
    uint32_t *tints, size_t tints_len,
    uint32_t *marks, size_t marks_len,
    uint32_t *kept, size_t kept_len,
    uint32_t *out_ends, size_t out_ends_len,
    uint32_t *numbers, size_t numbers_len,
    uint32_t *out_items, size_t out_items_len,
    uint32_t *out_colours, size_t out_colours_len);

/* Gives items new numbers without gaps: the place in the kept list. The kept list is the map back. No bound on lengths or numbers.
 *
 *   kept        the items that were kept, strictly rising
 *   primaries   how many of them, the first ones, are primary: at least 1
 *   items       the items to be numbered anew
 *   out         room for as many numbers as items has: their new numbers
 *
 * Every length is in BYTES, four to a number: of kept and items exactly the part that was written by kapkyrem_reduce.
 * On 0 the front of out is written, as many numbers as items has, and nothing behind it; on a refusal nothing.
 *
 * Answer: 0 (KAPKYREM_DONE), or number + 2^8 x place. */
uint64_t kapkyrem_compact(
    const uint8_t *kept, size_t kept_len, uint32_t primaries,
    const uint8_t *items, size_t items_len,
    uint8_t *out, size_t out_len);

/* ---- Taking an answer apart ---- */

/* The number of an answer of any call: 0, 1, or a refusal. */
static inline uint32_t kapkyrem_number(uint64_t answer) { return (uint32_t)(answer & 0xFFu); }

/* Which of the three it is. An answer of kapkyrem_compact is reduced (read: done) or refused. */
static inline int kapkyrem_is_reduced(uint64_t answer) { return kapkyrem_number(answer) == KAPKYREM_REDUCED; }
static inline int kapkyrem_is_infeasible(uint64_t answer) { return kapkyrem_number(answer) == KAPKYREM_INFEASIBLE; }
static inline int kapkyrem_is_refused(uint64_t answer) { return kapkyrem_number(answer) >= KAPKYREM_NO_PRIMARY; }

/* Of a refusal, by any call: the option, entry or item that it names, or 0. */
static inline uint64_t kapkyrem_place(uint64_t answer) { return answer >> 8; }

/* Of infeasible, by either call: the primary item left without an option, why, and in which round. */
static inline uint32_t kapkyrem_item(uint64_t answer) { return (uint32_t)(answer >> 8 & 0xFFFFu); }
static inline uint32_t kapkyrem_cause(uint64_t answer) { return (uint32_t)(answer >> 24 & 0xFFu); }
static inline uint32_t kapkyrem_round(uint64_t answer) { return (uint32_t)(answer >> 32); }

/* Of reduced, by either call: the rounds run, and 1 if the last one removed nothing, else 0. */
static inline uint32_t kapkyrem_rounds(uint64_t answer) { return (uint32_t)(answer >> 8 & 0xFFFFu); }
static inline int kapkyrem_settled(uint64_t answer) { return (int)(answer >> 24 & 1u); }

/* Of reduced, by kapkyrem_reduce: how many primary items, secondary items and options are kept. */
static inline uint32_t kapkyrem_primaries(uint64_t answer) { return (uint32_t)(answer >> 32 & 0xFFu); }
static inline uint32_t kapkyrem_secondaries(uint64_t answer) { return (uint32_t)(answer >> 40 & 0xFFu); }
static inline uint32_t kapkyrem_options(uint64_t answer) { return (uint32_t)(answer >> 48); }

/* Of reduced, by kapkyrem_reduce_lists: the same. */
static inline uint32_t kapkyrem_lists_primaries(uint64_t answer) { return (uint32_t)(answer >> 25 & 0x7FFu); }
static inline uint32_t kapkyrem_lists_secondaries(uint64_t answer) { return (uint32_t)(answer >> 36 & 0x7FFu); }
static inline uint32_t kapkyrem_lists_options(uint64_t answer) { return (uint32_t)(answer >> 47); }

/* ---- Bytes and room ---- */

/* A number as four bytes, lowest first, and back. */
static inline void kapkyrem_put32(uint8_t *four, uint32_t number) {
    four[0] = (uint8_t)(number & 0xFFu);
    four[1] = (uint8_t)(number >> 8 & 0xFFu);
    four[2] = (uint8_t)(number >> 16 & 0xFFu);
    four[3] = (uint8_t)(number >> 24);
}
static inline uint32_t kapkyrem_get32(const uint8_t *four) {
    return (uint32_t)four[0] | (uint32_t)four[1] << 8 | (uint32_t)four[2] << 16 | (uint32_t)four[3] << 24;
}

/* The numbers that heads, up, down and tints must have room for, for counts that are taken. marks needs np + ns + 1. */
static inline size_t kapkyrem_lists_room(uint32_t np, uint32_t ns, size_t options, size_t entries) {
    return (size_t)np + ns + 2u + entries + options;
}

#ifdef __cplusplus
}
#endif

#endif
