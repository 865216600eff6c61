/* Room for the largest mesh, for the tests that lend one. */
#ifndef LARGEST_H
#define LARGEST_H

#include "lent.h"
#include "rows.h"

#define SITES 65600
#define ENTRIES 393300
/* the words past what is lent, and what they hold */
#define SPARE 3
#define HELD UINT32_C(77)

#endif
