/* desk FILE: thins out the ledger in FILE and says in words what was kept and what was dropped.
 * FORMAT.md describes the file and the exit codes. */
#include "ledger.h"

/* A list as the call takes it: four bytes to a number. */
struct bytes {
    uint8_t items[4 * ROOM_ENTRIES], colours[4 * ROOM_ENTRIES], ends[4 * ROOM_MATCHES];
    uint8_t kept[4 * KAPKYREM_MOST_ITEMS], out_ends[4 * KAPKYREM_MOST_OPTIONS], numbers[4 * KAPKYREM_MOST_OPTIONS];
    uint8_t out_items[4 * KAPKYREM_MOST_ENTRIES], out_colours[4 * KAPKYREM_MOST_ENTRIES];
};

/* The ledger's matches as the three lists of the problem. */
static void put_problem(const struct ledger *ledger, struct bytes *b) {
    for (size_t i = 0; i < ledger->entry_count; i++) {
        kapkyrem_put32(b->items + 4 * i, ledger->items[ledger->entries[i].item].number);
        kapkyrem_put32(b->colours + 4 * i, ledger->entries[i].colour);
    }
    for (size_t i = 0; i < ledger->match_count; i++) kapkyrem_put32(b->ends + 4 * i, (uint32_t)ledger->matches[i].end);
}

static void get_numbers(uint32_t *to, const uint8_t *from, size_t count) {
    for (size_t i = 0; i < count; i++) to[i] = kapkyrem_get32(from + 4 * i);
}

/* The fronts that a reduced answer says are written. */
static void get_result(const struct bytes *b, struct result *result) {
    size_t kept = kapkyrem_primaries(result->answer) + kapkyrem_secondaries(result->answer);
    size_t options = kapkyrem_options(result->answer);
    get_numbers(result->kept, b->kept, kept);
    get_numbers(result->ends, b->out_ends, options);
    get_numbers(result->numbers, b->numbers, options);
    get_numbers(result->items, b->out_items, result->ends[options - 1]);
    get_numbers(result->colours, b->out_colours, result->ends[options - 1]);
}

static void thin(const struct ledger *ledger, struct result *result) {
    static struct bytes b; /* large, so not on the stack */
    uint32_t np = (uint32_t)(ledger->kind_count[RECEIPT] + ledger->kind_count[LINE]);
    uint32_t ns = (uint32_t)ledger->kind_count[INVOICE];
    put_problem(ledger, &b);
    result->answer = kapkyrem_reduce(
        np, ns, ledger->cap,
        b.items, 4 * ledger->entry_count, b.colours, 4 * ledger->entry_count, b.ends, 4 * ledger->match_count,
        b.kept, sizeof b.kept, b.out_ends, sizeof b.out_ends, b.numbers, sizeof b.numbers,
        b.out_items, sizeof b.out_items, b.out_colours, sizeof b.out_colours);
    if (kapkyrem_is_reduced(result->answer)) get_result(&b, result);
}

int main(int argc, char **argv) {
    static struct ledger ledger; /* both large, so not on the stack */
    static struct result result;
    FILE *in;
    int code;
    if (argc != 2) {
        fprintf(stderr, "usage: desk FILE\n");
        return EXIT_BAD_USE;
    }
    ledger.file = argv[1];
    in = fopen(ledger.file, "r");
    if (!in) {
        fprintf(stderr, "%s: this file cannot be opened\n", ledger.file);
        return EXIT_BAD_FILE;
    }
    code = read_ledger(&ledger, in);
    fclose(in);
    if (code != 0) return code;
    thin(&ledger, &result);
    code = say_result(&ledger, &result);
    if (fflush(stdout) != 0 || ferror(stdout)) {
        fprintf(stderr, "desk: the answer could not be written\n");
        return EXIT_BAD_USE;
    }
    return code;
}
