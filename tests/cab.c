/* The C interface at its edges: sizes, empty paths with no memory behind them, refusals, rooms, every number. */
#include <stdio.h>
#include <stdlib.h>
#include <string.h>

#include "bridlestep.h"

/* the archive takes these as arrays of numbers */
_Static_assert(sizeof(struct bridlestep_prefix) == 7 * sizeof(size_t), "no padding in a prefix");
_Static_assert(sizeof(struct bridlestep_step) == 12 * sizeof(size_t), "no padding in a step");
_Static_assert(sizeof(size_t) == 8, "the archive's numbers have 64 bits");

#define CHECK(fact)                                                 \
    do {                                                            \
        if (!(fact)) {                                              \
            printf("tests/cab.c:%d: not so: %s\n", __LINE__, #fact); \
            exit(1);                                                \
        }                                                           \
    } while (0)

static const uint8_t *bytes(const char *text) { return (const uint8_t *)text; }

static int all(const void *memory, size_t size, int byte)
{
    const unsigned char *at = memory;
    for (size_t i = 0; i < size; i++) {
        if (at[i] != byte) {
            return 0;
        }
    }
    return 1;
}

static void prefixes(void)
{
    struct bridlestep_prefix p;
    memset(&p, 0xa5, sizeof p);
    CHECK(bridlestep_prefix(BRIDLESTEP_WINDOWS, bytes("c:\\a"), 4, &p) == BRIDLESTEP_DONE);
    CHECK(p.kind == BRIDLESTEP_DISK && p.letter == 'C' && p.len == 2);
    CHECK(p.start1 == 0 && p.len1 == 0 && p.start2 == 0 && p.len2 == 0);
    CHECK(bridlestep_prefix(BRIDLESTEP_WINDOWS, bytes("\\\\s\\h\\x"), 7, &p) == BRIDLESTEP_DONE);
    CHECK(p.kind == BRIDLESTEP_UNC && p.start1 == 2 && p.len1 == 1 && p.start2 == 4 && p.len2 == 1 && p.len == 5);
    /* a `/` behind \\?\UNC counts as `\`; one among the first four bytes, or small letters, make it another kind */
    CHECK(bridlestep_prefix(BRIDLESTEP_WINDOWS, bytes("\\\\?\\UNC/s\\h"), 11, &p) == BRIDLESTEP_DONE);
    CHECK(p.kind == BRIDLESTEP_VERBATIM_UNC && p.start1 == 8 && p.len1 == 1 && p.start2 == 10 && p.len2 == 1 && p.len == 11);
    CHECK(bridlestep_prefix(BRIDLESTEP_WINDOWS, bytes("\\\\?/UNC\\s\\h"), 11, &p) == BRIDLESTEP_DONE);
    CHECK(p.kind == BRIDLESTEP_UNC && p.start1 == 2 && p.len1 == 1 && p.start2 == 4 && p.len2 == 3 && p.len == 7);
    CHECK(bridlestep_prefix(BRIDLESTEP_WINDOWS, bytes("\\\\?\\unc\\s\\h"), 11, &p) == BRIDLESTEP_DONE);
    CHECK(p.kind == BRIDLESTEP_VERBATIM && p.start1 == 4 && p.len1 == 3 && p.start2 == 0 && p.len2 == 0 && p.len == 7);
    memset(&p, 0xa5, sizeof p);
    CHECK(bridlestep_prefix(BRIDLESTEP_UNIX, bytes("c:\\a"), 4, &p) == BRIDLESTEP_ABSENT);
    CHECK(all(&p, sizeof p, 0));
    memset(&p, 0xa5, sizeof p);
    CHECK(bridlestep_prefix(2, bytes("c:\\a"), 4, &p) == BRIDLESTEP_MODE && all(&p, sizeof p, 0));
    CHECK(bridlestep_prefix(BRIDLESTEP_WINDOWS, NULL, 0, &p) == BRIDLESTEP_ABSENT);
}

static void steps(void)
{
    struct bridlestep_step s;
    memset(&s, 0xa5, sizeof s);
    CHECK(bridlestep_next(BRIDLESTEP_UNIX, 0, 0, bytes("/a"), 2, &s) == BRIDLESTEP_DONE);
    CHECK(s.kind == BRIDLESTEP_ROOT_DIR && s.start == 0 && s.len == 1 && s.mode == 0 && s.front == 1 && s.back == 0);
    CHECK(bridlestep_next_back(s.mode, s.front, s.back, bytes("/a"), 2, &s) == BRIDLESTEP_DONE);
    CHECK(s.kind == BRIDLESTEP_NORMAL && s.start == 1 && s.len == 1 && s.front == 1 && s.back == 1);
    CHECK(bridlestep_next(s.mode, s.front, s.back, bytes("/a"), 2, &s) == BRIDLESTEP_ABSENT);
    CHECK(s.kind == 0 && s.start == 0 && s.len == 0 && s.front == 1 && s.back == 1);
    CHECK(bridlestep_next(BRIDLESTEP_UNIX, SIZE_MAX, SIZE_MAX, bytes("/a"), 2, &s) == BRIDLESTEP_CURSOR);
    CHECK(s.front == SIZE_MAX && s.back == SIZE_MAX && s.mode == 0 && s.kind == 0);
    CHECK(bridlestep_next(9, 3, 4, bytes("/a"), 2, &s) == BRIDLESTEP_MODE && s.mode == 9 && s.front == 3 && s.back == 4);
    CHECK(bridlestep_next(BRIDLESTEP_WINDOWS, 0, 0, NULL, 0, &s) == BRIDLESTEP_ABSENT);
    CHECK(bridlestep_next_back(BRIDLESTEP_WINDOWS, 0, 0, bytes("C:."), 3, &s) == BRIDLESTEP_DONE);
    CHECK(s.kind == BRIDLESTEP_PREFIX && s.prefix_kind == BRIDLESTEP_DISK && s.prefix_letter == 'C' && s.len == 2);
    CHECK(bridlestep_next(BRIDLESTEP_WINDOWS, 0, 0, bytes("\\\\?\\UNC/s\\h"), 11, &s) == BRIDLESTEP_DONE);
    CHECK(s.kind == BRIDLESTEP_PREFIX && s.prefix_kind == BRIDLESTEP_VERBATIM_UNC && s.start == 0 && s.len == 11);
    CHECK(bridlestep_next(s.mode, s.front, s.back, bytes("\\\\?\\UNC/s\\h"), 11, &s) == BRIDLESTEP_ABSENT);
}

static void orders(void)
{
    size_t order = 7;
    CHECK(bridlestep_compare(BRIDLESTEP_UNIX, bytes("a/b"), 3, bytes("a//b/"), 5, &order) == BRIDLESTEP_DONE && order == 1);
    CHECK(bridlestep_compare(BRIDLESTEP_UNIX, bytes("a"), 1, bytes("b"), 1, &order) == BRIDLESTEP_DONE && order == 0);
    CHECK(bridlestep_compare(BRIDLESTEP_UNIX, bytes("b"), 1, NULL, 0, &order) == BRIDLESTEP_DONE && order == 2);
    CHECK(bridlestep_compare(BRIDLESTEP_UNIX, NULL, 0, NULL, 0, &order) == BRIDLESTEP_DONE && order == 1);
    order = 7;
    CHECK(bridlestep_compare(BRIDLESTEP_WINDOWS, bytes("\\\\?\\UNC/s\\h"), 11, bytes("\\\\?\\UNC\\s\\h"), 11, &order) ==
          BRIDLESTEP_DONE);
    CHECK(order == 1);
    order = 7;
    CHECK(bridlestep_compare(2, bytes("a"), 1, bytes("b"), 1, &order) == BRIDLESTEP_MODE && order == 0);
}

static void joins(void)
{
    static uint8_t longest[BRIDLESTEP_LONGEST + 1];
    static uint8_t out[2 * BRIDLESTEP_LONGEST + 2];
    size_t len = 7;
    memset(longest, 'a', sizeof longest);
    memset(out, 0xa5, sizeof out);
    CHECK(bridlestep_join(BRIDLESTEP_UNIX, bytes("a"), 1, bytes("b"), 1, out, 4, &len) == BRIDLESTEP_DONE && len == 3);
    CHECK(memcmp(out, "a/b", 3) == 0 && all(out + 3, sizeof out - 3, 0xa5));
    memset(out, 0xa5, sizeof out);
    CHECK(bridlestep_join(BRIDLESTEP_UNIX, bytes("a"), 1, bytes("b"), 1, out, 2, &len) == BRIDLESTEP_ROOM && len == 0);
    CHECK(all(out, sizeof out, 0xa5));
    CHECK(bridlestep_join(BRIDLESTEP_UNIX, NULL, 0, NULL, 0, NULL, 0, &len) == BRIDLESTEP_DONE && len == 0);
    CHECK(bridlestep_join(BRIDLESTEP_UNIX, longest, sizeof longest, NULL, 0, out, sizeof out, &len) == BRIDLESTEP_LENGTH);
    CHECK(len == 0 && all(out, sizeof out, 0xa5));
    CHECK(bridlestep_join(BRIDLESTEP_UNIX, longest, BRIDLESTEP_LONGEST, longest, BRIDLESTEP_LONGEST, out, sizeof out, &len) ==
          BRIDLESTEP_DONE);
    CHECK(len == 2 * BRIDLESTEP_LONGEST + 1 && out[BRIDLESTEP_LONGEST] == '/' && out[len] == 0xa5);
    CHECK(bridlestep_join(BRIDLESTEP_WINDOWS, bytes("\\\\?\\C:\\a"), 8, bytes("long\\..\\b"), 9, out, 10, &len) ==
          BRIDLESTEP_DONE);
    CHECK(len == 10 && memcmp(out, "\\\\?\\C:\\a\\b", 10) == 0);
    /* the prefix's bytes stay as they were spelled */
    CHECK(bridlestep_join(BRIDLESTEP_WINDOWS, bytes("\\\\?\\UNC/s\\h"), 11, bytes("12"), 2, out, 14, &len) == BRIDLESTEP_DONE);
    CHECK(len == 14 && memcmp(out, "\\\\?\\UNC/s\\h\\12", 14) == 0);
}

int main(void)
{
    prefixes();
    steps();
    orders();
    joins();
    return 0;
}
