/* What the callers in C share: how they report what is wrong, and go on. */
#ifndef CHECK_H
#define CHECK_H

#include <stdio.h>

static int wrong = 0;

#define IS(got, want)                                                                        \
    do {                                                                                     \
        long long got_ = (long long)(got), want_ = (long long)(want);                        \
        if (got_ != want_) {                                                                 \
            printf("line %d: %s is %lld, not %lld\n", __LINE__, #got, got_, want_);          \
            wrong++;                                                                         \
        }                                                                                    \
    } while (0)

/* The last line of a caller, and its exit status. */
static inline int end(void) {
    printf(wrong == 0 ? "all right\n" : "%d wrong\n", wrong);
    return wrong != 0;
}

#endif
