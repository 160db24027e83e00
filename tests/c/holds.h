/*
 * HOLDS(fact): a line that names a fact that does not hold, and the status that the program is to end with.
 */
#ifndef HOLDS_H
#define HOLDS_H

#include <stdio.h>

static int failed;

#define HOLDS(fact) (void)((fact) || (failed = 1, printf("%s:%d: %s\n", __FILE__, __LINE__, #fact)))

#endif
