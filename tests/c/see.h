/* What the tests in C share. They are C11 and C++11. */
#include <stdio.h>
#include <stdlib.h>
#include <string.h>

static int checks;

/* Not assert: that says nothing where NDEBUG is defined. */
#define SEE(right) see((right) ? 1 : 0, #right, __FILE__, __LINE__)

static void see(int right, const char *what, const char *file, int line)
{
    checks++;
    if (!right) {
        printf("%s, line %d: not so: %s\n", file, line, what);
        exit(1);
    }
}

static int same(const char *found, const char *wanted)
{
    return strcmp(found, wanted) == 0;
}
