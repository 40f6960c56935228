/* See families.h. */
#include "families.h"

const family families[] = {
    {"ledger", false, ledger},
    {"sparse", false, sparse},
    {"dense", false, dense},
    {"coloured", false, coloured},
    {"long", false, lengthy},
    {"chain", false, chain},
    {"langford", false, langford},
    {"queens", false, queens},
    {"sudoku", false, sudoku},
    {"still", false, still},
    {"copied", false, copied},
    {"unused", false, unused},
    {"early", false, early},
    {"desk-ledger", true, desk_ledger},
    {"desk-sparse", true, desk_sparse},
    {"desk-coloured", true, desk_coloured},
    {"desk-chain", true, desk_chain},
};

const size_t families_count = sizeof families / sizeof families[0];
