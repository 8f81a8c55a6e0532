/* What the parts of the smoke test share. */
#ifndef SMOKE_H
#define SMOKE_H

/* Counts a check that holds, and prints one that fails. */
void check(const char *what, unsigned long got, unsigned long expected);

/* Extended addresses (02, i): items, assigning, addressing, soundness. */
void extended_cases(void);

/* Walks (02, l): what comes out and is told, and refusals. */
void walk_cases(void);

#endif
