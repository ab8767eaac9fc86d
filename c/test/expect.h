/* expect.h: what a C test counts: values that are as they should be, and those that are not, each with a line. */
#ifndef EXPECT_H
#define EXPECT_H

#include <stdio.h>

static int passed, failed;

static void expect(const char *what, size_t got, size_t wanted)
{
    if (got == wanted) {
        passed++;
        return;
    }
    failed++;
    printf("%s: %zu, not %zu\n", what, got, wanted);
}

#endif
