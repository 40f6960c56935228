/* Reads a ledger from a file. FORMAT.md describes the format. The first thing that cannot be understood is named with its line,
 * and the reading ends there. Functions give 1, or 0 after a message. */
#include <string.h>

#include "ledger.h"

/* The line in hand. */
struct reader {
    struct ledger *ledger;
    FILE *in;
    unsigned line;
    char text[LONGEST_LINE + 1];
    char *rest; /* what of the line is still to be read */
    int cap_seen;
    int failed; /* the exit code of the first message */
};

/* FILE:LINE: what is wrong, and with which word. */
static int complain(struct reader *r, const char *what, const char *word) {
    fprintf(stderr, "%s:%u: %s", r->ledger->file, r->line, what);
    if (word) fprintf(stderr, ": '%s'", word);
    fprintf(stderr, "\n");
    r->failed = EXIT_BAD_FILE;
    return 0;
}

/* FILE:LINE: more than the desk takes, by far: there is no room to read on. */
static int too_large(struct reader *r, unsigned most, const char *what) {
    fprintf(stderr, "%s:%u: too large for the desk: the most is %u %s\n", r->ledger->file, r->line, most, what);
    r->failed = EXIT_TOO_LARGE;
    return 0;
}

/* ---- Lines and words ---- */

/* The next line into text, without its end. 0 at the end of the file too. */
static int next_line(struct reader *r) {
    size_t length = 0;
    int c = getc(r->in);
    if (c == EOF && !ferror(r->in)) return 0;
    r->line++;
    for (; c != EOF && c != '\n'; c = getc(r->in)) {
        if (length == LONGEST_LINE) return complain(r, "this line is too long", NULL);
        if ((c < ' ' && c != '\t' && c != '\r') || c == 127) return complain(r, "a control character: this is not plain text", NULL);
        r->text[length++] = (char)c;
    }
    if (ferror(r->in)) return complain(r, "the file cannot be read", NULL);
    r->text[length] = 0;
    r->rest = r->text;
    return 1;
}

/* CR too: files from other systems end their lines in CR LF. */
static int is_space(char c) { return c == ' ' || c == '\t' || c == '\r'; }

/* The next word of the line, cut off with a 0; NULL at its end. A word that begins with # begins a comment. */
static char *next_word(struct reader *r) {
    char *word;
    while (is_space(*r->rest)) r->rest++;
    if (*r->rest == 0 || *r->rest == '#') return NULL;
    word = r->rest;
    while (*r->rest && !is_space(*r->rest)) r->rest++;
    if (*r->rest) *r->rest++ = 0;
    return word;
}

/* 1 if the word is a number below 2^32, which goes to *number. No message. */
static int is_number(const char *word, uint32_t *number) {
    uint64_t sum = 0;
    if (*word == 0) return 0;
    for (; *word; word++) {
        if (*word < '0' || *word > '9') return 0;
        sum = 10 * sum + (uint64_t)(*word - '0');
        if (sum > UINT32_MAX) return 0;
    }
    *number = (uint32_t)sum;
    return 1;
}

/* Copies a word that can be a name. */
static int take_name(struct reader *r, const char *word, char *name) {
    if (strlen(word) > LONGEST_NAME) return complain(r, "this name is too long", word);
    if (strchr(word, ':') || strchr(word, '#')) return complain(r, "a name has no : and no # in it", word);
    strcpy(name, word);
    return 1;
}

/* ---- What the lines say ---- */

/* The index of the item of this name, or item_count. */
static size_t find_item(const struct ledger *ledger, const char *name) {
    size_t i = 0;
    while (i < ledger->item_count && strcmp(ledger->items[i].name, name) != 0) i++;
    return i;
}

/* receipt NAME .., line NAME .., invoice NAME .. */
static int read_items(struct reader *r, enum kind kind) {
    struct ledger *ledger = r->ledger;
    const char *word = next_word(r);
    if (!word) return complain(r, "a name is missing", NULL);
    for (; word; word = next_word(r)) {
        struct item *item = &ledger->items[ledger->item_count];
        if (find_item(ledger, word) < ledger->item_count) return complain(r, "this name is taken already", word);
        if (ledger->item_count == ROOM_ITEMS) return too_large(r, KAPKYREM_MOST_ITEMS, "receipts, lines and invoices");
        if (!take_name(r, word, item->name)) return 0;
        item->kind = kind;
        ledger->item_count++;
        ledger->kind_count[kind]++;
    }
    return 1;
}

/* rule NAME NUMBER */
static int read_rule(struct reader *r) {
    struct ledger *ledger = r->ledger;
    const char *name = next_word(r);
    const char *number = name ? next_word(r) : NULL;
    uint32_t colour = 0;
    if (!number || next_word(r)) return complain(r, "a rule has a name and a number", NULL);
    if (!is_number(number, &colour) || colour == 0) return complain(r, "a rule's number is 1 or more", number);
    if (*name >= '0' && *name <= '9') return complain(r, "a rule's name does not begin with a digit", name);
    for (size_t i = 0; i < ledger->rule_count; i++) {
        if (strcmp(ledger->rules[i].name, name) == 0) return complain(r, "this rule is there already", name);
        if (ledger->rules[i].colour == colour) return complain(r, "another rule has this number", number);
    }
    if (ledger->rule_count == ROOM_RULES) return too_large(r, ROOM_RULES, "rules");
    if (!take_name(r, name, ledger->rules[ledger->rule_count].name)) return 0;
    ledger->rules[ledger->rule_count++].colour = colour;
    return 1;
}

/* A rule by its name or number. */
static int find_colour(struct reader *r, const char *word, uint32_t *colour) {
    const struct ledger *ledger = r->ledger;
    if (is_number(word, colour)) return 1;
    for (size_t i = 0; i < ledger->rule_count; i++) {
        if (strcmp(ledger->rules[i].name, word) == 0) {
            *colour = ledger->rules[i].colour;
            return 1;
        }
    }
    return complain(r, "no rule of this name stands above", word);
}

/* match NAME NAME:RULE .. Whether the match makes sense is for the call to judge. */
static int read_match(struct reader *r) {
    struct ledger *ledger = r->ledger;
    if (ledger->match_count == ROOM_MATCHES) return too_large(r, KAPKYREM_MOST_OPTIONS, "matches");
    for (char *word = next_word(r); word; word = next_word(r)) {
        struct entry *entry = &ledger->entries[ledger->entry_count];
        char *colon = strchr(word, ':');
        if (ledger->entry_count == ROOM_ENTRIES) return too_large(r, KAPKYREM_MOST_ENTRIES, "entries in all matches");
        if (colon) *colon = 0;
        entry->item = find_item(ledger, word);
        entry->colour = 0;
        if (entry->item == ledger->item_count) return complain(r, "no receipt, line or invoice of this name stands above", word);
        if (colon && !find_colour(r, colon + 1, &entry->colour)) return 0;
        ledger->entry_count++;
    }
    ledger->matches[ledger->match_count].end = ledger->entry_count;
    ledger->matches[ledger->match_count++].line = r->line;
    return 1;
}

/* rounds NUMBER */
static int read_cap(struct reader *r) {
    const char *word = next_word(r);
    if (r->cap_seen) return complain(r, "the rounds are given already", NULL);
    if (!word || !is_number(word, &r->ledger->cap) || next_word(r)) return complain(r, "rounds has one number, below 2^32", NULL);
    r->cap_seen = 1;
    return 1;
}

/* A line, by its first word. */
static int read_line(struct reader *r) {
    const char *word = next_word(r);
    if (!word) return 1;
    if (strcmp(word, "receipt") == 0) return read_items(r, RECEIPT);
    if (strcmp(word, "line") == 0) return read_items(r, LINE);
    if (strcmp(word, "invoice") == 0) return read_items(r, INVOICE);
    if (strcmp(word, "rule") == 0) return read_rule(r);
    if (strcmp(word, "match") == 0) return read_match(r);
    if (strcmp(word, "rounds") == 0) return read_cap(r);
    return complain(r, "a line begins with receipt, line, invoice, rule, match or rounds, not with this", word);
}

/* The call's numbers: primaries in the file's order, then secondaries. */
static void number_items(struct ledger *ledger) {
    uint32_t primaries = 0, secondaries = (uint32_t)(ledger->kind_count[RECEIPT] + ledger->kind_count[LINE]);
    for (size_t i = 0; i < ledger->item_count; i++) {
        struct item *item = &ledger->items[i];
        item->number = item->kind == INVOICE ? secondaries++ : primaries++;
    }
}

int read_ledger(struct ledger *ledger, FILE *in) {
    static struct reader r; /* large, so not on the stack */
    r.ledger = ledger;
    r.in = in;
    ledger->cap = KAPKYREM_MOST_ROUNDS;
    while (next_line(&r)) {
        if (!read_line(&r)) break;
    }
    number_items(ledger);
    return r.failed;
}
