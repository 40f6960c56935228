/* Makes a problem on which sides differ smaller, as long as they still differ. */
#ifndef SHRINK_H
#define SHRINK_H

#include "sides.h"

void shrink(problem *p);
void shrink_compaction(compaction *c);

#endif
