/* Which misdeed is done, and how a list is spoiled. */
#ifndef MISDEEDS_H
#define MISDEEDS_H
#include <stddef.h>

/* Whether MISDEED names this one. */
int does(const char *name);
/* A list that is lent to be read, written to. */
void spoil(const void *list, size_t bytes);
#endif
