/* Ledgers: receipts are matched to invoice lines, and an invoice is coloured by the rule that its customer rounds by.
 *
 * A ledger that can be matched is made first: an invoice has four lines, and three receipts pay them: one two lines, the others one each.
 * Beside its true match a receipt has others that its amount also fits: by another rule, or lines of an invoice nearby. One receipt in
 * four has an amount like no other, so only its true match; one in sixteen may be an advance, and one line in sixteen may stay open. */
#include "families.h"

enum { LINES = 4, RECEIPTS = 3, RULES = 4, NEARBY = 3 };

/* Items: receipts, then lines, then invoices. */
typedef struct {
    uint32_t invoices;
    rng r;
} books;

static uint32_t receipt_item(uint32_t invoice, uint32_t k)
{
    return RECEIPTS * invoice + k;
}

static uint32_t line_item(const books *b, uint32_t invoice, uint32_t k)
{
    return RECEIPTS * b->invoices + LINES * invoice + k;
}

/* A match: receipt, the lines of an invoice that receipt k of it would pay, and the invoice by a rule. */
static void match(problem *p, const books *b, uint32_t receipt, uint32_t invoice, uint32_t k, uint32_t rule)
{
    put(p, receipt, 0);
    put(p, line_item(b, invoice, k), 0);
    if (k == 0)
        put(p, line_item(b, invoice, LINES - 1), 0);
    put(p, (RECEIPTS + LINES) * b->invoices + invoice, rule);
    end(p);
}

/* Matches that are not true: `more` of them. */
static void doubtful(problem *p, books *b, uint32_t receipt, uint32_t invoice, uint32_t k, uint32_t rule, uint32_t more)
{
    match(p, b, receipt, invoice, k, 1 + (rule + draw(&b->r, RULES - 1)) % RULES);
    for (uint32_t j = 1; j < more; j++) {
        uint32_t other = (invoice + b->invoices + draw(&b->r, 2 * NEARBY + 1) - NEARBY) % b->invoices;
        if (other != invoice)
            match(p, b, receipt, other, draw(&b->r, RECEIPTS), 1 + draw(&b->r, RULES));
    }
}

static void one_invoice(problem *p, books *b, uint32_t invoice, uint32_t more)
{
    uint32_t rule = 1 + draw(&b->r, RULES);
    for (uint32_t k = 0; k < RECEIPTS; k++) {
        uint32_t receipt = receipt_item(invoice, k);
        match(p, b, receipt, invoice, k, rule);
        if (draw(&b->r, 4) != 0)
            doubtful(p, b, receipt, invoice, k, rule, more);
        if (draw(&b->r, 16) == 0) {
            put(p, receipt, 0);
            end(p);
        }
    }
    if (draw(&b->r, 4) == 0) {
        put(p, line_item(b, invoice, draw(&b->r, LINES)), 0);
        end(p);
    }
}

static void make(problem *p, uint32_t invoices, uint32_t more, rng seed)
{
    books b = {invoices, seed};
    begin(p, (RECEIPTS + LINES) * invoices, invoices);
    for (uint32_t i = 0; i < invoices; i++)
        one_invoice(p, &b, i, more);
}

/* 32, 64 or 128 invoices: 1,024 items at the last. */
void ledger(problem *p, int size)
{
    make(p, 32u << size, 12, 0x1ed9e5);
}

/* 2, 4 or 8 invoices: 64 items at the last. */
void desk_ledger(problem *p, int size)
{
    make(p, 2u << size, 8, 0xde5c);
}
