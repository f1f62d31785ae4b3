/* The same three calls of a query by two machines in C: the plain one, and the quickest that we could write (c_). They make the engine's tests, in its
 * order. For comparison only: nothing of them is proved. */
#ifndef MACHINES_H
#define MACHINES_H

#include "sotjarn.h"

__typeof__(sotjarn_open) plain_open, c_open;
__typeof__(sotjarn_turn) plain_turn, c_turn;
__typeof__(sotjarn_merge) plain_merge, c_merge;

#endif
