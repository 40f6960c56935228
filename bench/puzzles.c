/* Problems that are made by a rule: a chain, and three puzzles. */
#include "families.h"

/* A ring of m primary items with a secondary one between each and the next. Item i has one option for each colour k, which it holds on both sides:
 * so it goes only with the option of that colour at either neighbour. Where the ring closes the colours are off by one: item m - 1 wants of item 0
 * the colour before its own, and there is none before the first. So its option 0 is blocked; then option 0 of item m - 2, one lower in each round, down
 * to item 0; then option 1 of item m - 1 is blocked, and so on. The last colour leaves the ring open, and is what remains.
 * With three colours that takes two rounds for each primary item: as many rounds as there are items. */
static void ring(problem *p, uint32_t m)
{
    enum { COLOURS = 3 };
    begin(p, m, m);
    for (uint32_t i = 0; i < m; i++)
        for (uint32_t k = 0; k < COLOURS; k++) {
            bool last = i == m - 1, opens = last && k == COLOURS - 1;
            put(p, i, 0);
            put(p, m + (i == 0 ? m - 1 : i - 1), i == 0 ? k + 2 : k + 1);
            if (!opens)
                put(p, m + i, k + 1);
            end(p);
        }
}

/* 128, 256 or 512 primary items: 1,024 items and as many rounds at the last. */
void chain(problem *p, int size)
{
    ring(p, 128u << size);
}

void desk_chain(problem *p, int size)
{
    ring(p, 8u << size);
}

/* Langford's problem: the numbers 1 to n twice each in 2 n places, with i places between the two that are i. Items: numbers, then places. */
void langford(problem *p, int size)
{
    static const uint32_t of_size[SIZES] = {15, 28, 52};
    uint32_t n = of_size[size];
    begin(p, 3 * n, 0);
    for (uint32_t i = 1; i <= n; i++)
        for (uint32_t at = 0; at + i + 1 < 2 * n; at++) {
            put(p, i - 1, 0);
            put(p, n + at, 0);
            put(p, n + at + i + 1, 0);
            end(p);
        }
}

/* n queens: rows and columns are primary, diagonals of both directions secondary. */
void queens(problem *p, int size)
{
    uint32_t n = 16u << size;
    begin(p, 2 * n, 2 * (2 * n - 1));
    for (uint32_t row = 0; row < n; row++)
        for (uint32_t column = 0; column < n; column++) {
            put(p, row, 0);
            put(p, n + column, 0);
            put(p, 2 * n + row + column, 0);
            put(p, 4 * n - 1 + (n - 1) + row - column, 0);
            end(p);
        }
}

/* A digit in a cell, in its row, column and box; b digits to a side of a box. */
static void put_digit(problem *p, uint32_t b, uint32_t row, uint32_t column, uint32_t digit)
{
    uint32_t n = b * b, box = row / b * b + column / b;
    put(p, row * n + column, 0);
    put(p, n * n + row * n + digit, 0);
    put(p, 2 * n * n + column * n + digit, 0);
    put(p, 3 * n * n + box * n + digit, 0);
    end(p);
}

/* Sudoku with 4, 9 or 16 digits. Two cells in five are given: they have one option, that of the solution. */
void sudoku(problem *p, int size)
{
    uint32_t b = 2 + (uint32_t)size, n = b * b, digits[16];
    rng r = 0x50d0c;
    begin(p, 4 * n * n, 0);
    for (uint32_t d = 0; d < n; d++)
        digits[d] = d;
    shuffle(&r, digits, n);
    for (uint32_t row = 0; row < n; row++)
        for (uint32_t column = 0; column < n; column++) {
            uint32_t solution = digits[(row % b * b + row / b + column) % n];
            bool given = draw(&r, 5) < 2;
            for (uint32_t d = 0; d < n; d++)
                if (!given || d == solution)
                    put_digit(p, b, row, column, d);
        }
}
