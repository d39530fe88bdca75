/* What the tests in C share: a fact that has to hold, and how many did not. */
#ifndef EXPECT_H
#define EXPECT_H

#include <stdio.h>

static int failures = 0;

#define EXPECT(holds) ((holds) ? (void)0 : (void)(failures++, printf("%s:%d: %s\n", __FILE__, __LINE__, #holds)))

#endif
