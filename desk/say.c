/* Says an answer in words that a clerk can read, under the names of the file and the numbers of the call. */
#include "ledger.h"

static const char *const kind_words[KINDS] = {"receipt", "invoice line", "invoice"};

/* ---- Names for numbers ---- */

static const struct item *item_numbered(const struct ledger *ledger, uint32_t number) {
    size_t i = 0;
    while (ledger->items[i].number != number) i++;
    return &ledger->items[i];
}

/* NAME, or NAME:RULE; the rule by its number if it has no name. */
static void say_entry(const struct ledger *ledger, const char *name, uint32_t colour) {
    size_t i = 0;
    printf("%s", name);
    if (colour == 0) return;
    while (i < ledger->rule_count && ledger->rules[i].colour != colour) i++;
    if (i < ledger->rule_count) {
        printf(":%s", ledger->rules[i].name);
    } else {
        printf(":%u", (unsigned)colour);
    }
}

static void say_item(const struct item *item) {
    printf("  %3u  %s %s\n", (unsigned)item->number, kind_words[item->kind], item->name);
}

static void say_count(size_t count, const char *one, const char *then) {
    printf("%u %s%s%s", (unsigned)count, one, count == 1 ? "" : "s", then);
}

static size_t first_entry(const struct ledger *ledger, size_t match) { return match ? ledger->matches[match - 1].end : 0; }

static const struct item *item_of(const struct ledger *ledger, size_t entry) { return &ledger->items[ledger->entries[entry].item]; }

/* The match that has this entry. */
static size_t match_with(const struct ledger *ledger, size_t entry) {
    size_t match = 0;
    while (ledger->matches[match].end <= entry) match++;
    return match;
}

/* ---- Reduced ---- */

static void say_rounds(const struct ledger *ledger, uint64_t answer) {
    printf("Thinned in ");
    say_count(kapkyrem_rounds(answer), "round", ", ");
    if (kapkyrem_settled(answer)) {
        printf("settled: another round would drop nothing.\n");
    } else {
        printf("not settled: the file allows %u, and more might drop more.\n", (unsigned)ledger->cap);
    }
}

static void say_match_number(const struct ledger *ledger, uint32_t match) {
    printf("  %3u  (file line %u)", (unsigned)match, ledger->matches[match].line);
}

/* The k-th match of the result: what is left of it as it is, what was dropped in brackets. Both are in the file's order. */
static void say_kept_match(const struct ledger *ledger, const struct result *result, size_t k) {
    uint32_t match = result->numbers[k];
    size_t at = k ? result->ends[k - 1] : 0;
    say_match_number(ledger, match);
    for (size_t i = first_entry(ledger, match); i < ledger->matches[match].end; i++) {
        const struct item *item = item_of(ledger, i);
        if (at < result->ends[k] && result->items[at] == item->number) {
            printf(" ");
            say_entry(ledger, item->name, result->colours[at++]);
        } else {
            printf(" (");
            say_entry(ledger, item->name, ledger->entries[i].colour);
            printf(")");
        }
    }
    printf("\n");
}

static void say_dropped_match(const struct ledger *ledger, uint32_t match) {
    int primary = 0;
    say_match_number(ledger, match);
    for (size_t i = first_entry(ledger, match); i < ledger->matches[match].end; i++) {
        const struct item *item = item_of(ledger, i);
        printf(" ");
        say_entry(ledger, item->name, ledger->entries[i].colour);
        primary |= item->kind != INVOICE;
    }
    printf(primary ? "\n" : " [names no receipt or invoice line]\n");
}

static int among(uint32_t number, const uint32_t *list, size_t count) {
    size_t i = 0;
    while (i < count && list[i] != number) i++;
    return i < count;
}

static int say_reduced(const struct ledger *ledger, const struct result *result) {
    size_t kept = kapkyrem_primaries(result->answer) + kapkyrem_secondaries(result->answer);
    size_t options = kapkyrem_options(result->answer);
    say_rounds(ledger, result->answer);
    printf("\nKept items: %u of %u\n", (unsigned)kept, (unsigned)ledger->item_count);
    for (size_t i = 0; i < kept; i++) say_item(item_numbered(ledger, result->kept[i]));
    printf("\nKept matches: %u of %u (what was dropped of them in brackets)\n", (unsigned)options, (unsigned)ledger->match_count);
    for (size_t k = 0; k < options; k++) say_kept_match(ledger, result, k);
    printf("\nDropped items: %u (they leave no choice of their own)\n", (unsigned)(ledger->item_count - kept));
    for (uint32_t i = 0; i < ledger->item_count; i++) {
        if (!among(i, result->kept, kept)) say_item(item_numbered(ledger, i));
    }
    printf("\nDropped matches: %u (no full matching has one of them)\n", (unsigned)(ledger->match_count - options));
    for (uint32_t k = 0; k < ledger->match_count; k++) {
        if (!among(k, result->numbers, options)) say_dropped_match(ledger, k);
    }
    return EXIT_THINNED;
}

/* ---- Infeasible ---- */

static int say_infeasible(const struct ledger *ledger, uint64_t answer) {
    const struct item *item = item_numbered(ledger, kapkyrem_item(answer));
    printf("There is no way to match everything.\n");
    printf("The %s %s (item %u) cannot be matched:\n", kind_words[item->kind], item->name, (unsigned)item->number);
    switch (kapkyrem_cause(answer)) {
    case KAPKYREM_CAUSE_UNUSED:
        printf("no match names it.\n");
        break;
    case KAPKYREM_CAUSE_REDUNDANT:
        printf("the last match left for it would take what another receipt or invoice line cannot do without.\n");
        break;
    default:
        printf("each match left for it would leave another receipt or invoice line with none.\n");
    }
    if (kapkyrem_round(answer) == 0) {
        printf("This was found before the first round.\n");
    } else {
        printf("This was found in round %u.\n", (unsigned)kapkyrem_round(answer));
    }
    return EXIT_NO_MATCH;
}

/* ---- Refused ---- */

/* What a refusal means for the clerk. Those that the desk's own lists rule out are named all the same. */
static const char *refusal_words(uint32_t number) {
    switch (number) {
    case KAPKYREM_NO_PRIMARY: return "there is no receipt and no invoice line";
    case KAPKYREM_NO_OPTION: return "there is no match";
    case KAPKYREM_UNEVEN_LISTS: return "the desk handed over lists of uneven length";
    case KAPKYREM_BAD_END: return "the desk handed over a wrong end of this match";
    case KAPKYREM_WORKING_ROOM: return "the desk handed over too little room to work in";
    case KAPKYREM_RESULT_ROOM: return "the desk handed over too little room for the result";
    case KAPKYREM_BAD_ITEM: return "the desk handed over an item that is not there";
    case KAPKYREM_BAD_COLOUR: return "the number of a rule is over 255";
    case KAPKYREM_COLOURED_PRIMARY: return "only an invoice can have a rule, not a receipt or an invoice line";
    case KAPKYREM_ITEM_TWICE: return "this is named twice in one match";
    default: return "for a reason that the desk does not know";
    }
}

/* More than the figures: what there is too much of. */
static int say_too_large(const struct ledger *ledger, uint32_t number) {
    size_t there = ledger->item_count, most = KAPKYREM_MOST_ITEMS;
    const char *what = "receipts, invoice lines and invoices";
    if (number == KAPKYREM_TOO_MANY_OPTIONS) {
        there = ledger->match_count, most = KAPKYREM_MOST_OPTIONS, what = "matches";
    } else if (number == KAPKYREM_TOO_MANY_ENTRIES) {
        there = ledger->entry_count, most = KAPKYREM_MOST_ENTRIES, what = "entries in all matches";
    }
    fprintf(stderr, "%s: too large for the desk (refusal %u): there are %u %s, the most is %u.\n", ledger->file, (unsigned)number,
            (unsigned)there, what, (unsigned)most);
    fprintf(stderr, "Split the ledger into parts that share no receipt and no invoice, and run each part.\n");
    return EXIT_TOO_LARGE;
}

/* FILE:LINE: the refusal with its place. */
static int say_refused(const struct ledger *ledger, uint64_t answer) {
    uint32_t number = kapkyrem_number(answer);
    size_t place = (size_t)kapkyrem_place(answer);
    int at_entry = number >= KAPKYREM_BAD_ITEM && number <= KAPKYREM_ITEM_TWICE;
    if (number == KAPKYREM_BAD_END) {
        fprintf(stderr, "%s:%u: refusal %u at match %u: %s\n", ledger->file, ledger->matches[place].line, (unsigned)number,
                (unsigned)place, refusal_words(number));
    } else if (at_entry) {
        size_t match = match_with(ledger, place);
        fprintf(stderr, "%s:%u: refusal %u at entry %u, '%s' in match %u: %s\n", ledger->file, ledger->matches[match].line,
                (unsigned)number, (unsigned)place, item_of(ledger, place)->name, (unsigned)match, refusal_words(number));
    } else {
        fprintf(stderr, "%s: refusal %u: %s\n", ledger->file, (unsigned)number, refusal_words(number));
    }
    return EXIT_REFUSED;
}

int say_result(const struct ledger *ledger, const struct result *result) {
    uint32_t number = kapkyrem_number(result->answer);
    if (number == KAPKYREM_TOO_MANY_ITEMS || number == KAPKYREM_TOO_MANY_OPTIONS || number == KAPKYREM_TOO_MANY_ENTRIES) {
        return say_too_large(ledger, number);
    }
    if (kapkyrem_is_refused(result->answer)) return say_refused(ledger, result->answer);
    printf("%s: ", ledger->file);
    say_count(ledger->kind_count[RECEIPT], "receipt", ", ");
    say_count(ledger->kind_count[LINE], "invoice line", ", ");
    say_count(ledger->kind_count[INVOICE], "invoice", ", ");
    printf("%u match%s\n", (unsigned)ledger->match_count, ledger->match_count == 1 ? "" : "es");
    if (kapkyrem_is_infeasible(result->answer)) return say_infeasible(ledger, result->answer);
    return say_reduced(ledger, result);
}
