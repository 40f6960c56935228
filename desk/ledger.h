/* The ledger as the desk holds it: what stands in the file, in the file's order, with the line of each thing. */
#ifndef LEDGER_H
#define LEDGER_H

#include <stddef.h>
#include <stdint.h>
#include <stdio.h>

#include "kapkyrem.h"

/* What a file may hold. The room for items, matches and entries is far above the figures of kapkyrem_reduce, so that for all
 * but the largest files it is the call that says that a ledger is too large. */
enum {
    LONGEST_LINE = 4000, /* bytes */
    LONGEST_NAME = 31,   /* bytes */
    ROOM_ITEMS = KAPKYREM_LISTS_MOST_ITEMS,
    ROOM_MATCHES = KAPKYREM_LISTS_MOST_OPTIONS,
    ROOM_ENTRIES = KAPKYREM_LISTS_MOST_ENTRIES,
    ROOM_RULES = KAPKYREM_MOST_COLOUR
};

/* How the desk ends. */
enum {
    EXIT_THINNED = 0,
    EXIT_NO_MATCH = 1,  /* infeasible */
    EXIT_REFUSED = 2,   /* the call refuses what the file says */
    EXIT_TOO_LARGE = 3, /* over the desk's figures */
    EXIT_BAD_FILE = 4,  /* the file cannot be read or understood */
    EXIT_BAD_USE = 5    /* wrong arguments, or the answer could not be written */
};

/* Receipts and invoice lines are primary items, invoices secondary ones. */
enum kind { RECEIPT, LINE, INVOICE, KINDS };

struct item {
    char name[LONGEST_NAME + 1];
    enum kind kind;
    uint32_t number; /* for the call: primaries first */
};

struct rule {
    char name[LONGEST_NAME + 1];
    uint32_t colour;
};

struct entry {
    size_t item; /* its index in items */
    uint32_t colour;
};

struct match {
    size_t end;    /* of its entries */
    unsigned line; /* of the file */
};

struct ledger {
    const char *file;
    struct item items[ROOM_ITEMS];
    struct rule rules[ROOM_RULES];
    struct entry entries[ROOM_ENTRIES];
    struct match matches[ROOM_MATCHES];
    size_t item_count, rule_count, entry_count, match_count;
    size_t kind_count[KINDS];
    uint32_t cap;
};

/* read.c: fills an empty ledger from the open file. 0, or the exit code after a message to standard error. */
int read_ledger(struct ledger *ledger, FILE *in);

/* The answer and its lists, as numbers. */
struct result {
    uint64_t answer;
    uint32_t kept[KAPKYREM_MOST_ITEMS];
    uint32_t ends[KAPKYREM_MOST_OPTIONS];
    uint32_t numbers[KAPKYREM_MOST_OPTIONS];
    uint32_t items[KAPKYREM_MOST_ENTRIES];
    uint32_t colours[KAPKYREM_MOST_ENTRIES];
};

/* say.c: says the answer in words, to standard output, or a refusal, to standard error. The exit code. */
int say_result(const struct ledger *ledger, const struct result *result);

#endif
