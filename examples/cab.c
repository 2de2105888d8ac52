/*
 * Files a dose map. An office names it by a Windows path; the terminal keeps its maps below one Unix folder. The names
 * of the office's path, without its prefix and root, are joined to that folder one by one. A path that climbs by `..` is
 * turned down, and so is a name with `/` in it, which a verbatim path may have and which is several names here. A path that is filed already, in whatever spelling the office named it, is pointed out.
 *
 * Build: tools/native-lib cab, then cc -Iinclude examples/cab.c target/native/libcab.a
 */
#include <stdio.h>
#include <string.h>

#include "bridlestep.h"

#define ROOM 96

static const char *const folder = "/maps/dose";

struct filed {
    uint8_t path[ROOM];
    size_t len;
};

static const uint8_t *bytes(const char *text) { return (const uint8_t *)text; }

static void print_part(const char *before, const uint8_t *path, size_t start, size_t len)
{
    printf("%s%.*s", before, (int)len, (const char *)path + start);
}

static void print_prefix(const uint8_t *path, size_t len)
{
    struct bridlestep_prefix p;
    size_t reply = bridlestep_prefix(BRIDLESTEP_WINDOWS, path, len, &p);
    if (reply == BRIDLESTEP_ABSENT) {
        printf("  no prefix\n");
    } else if (reply != BRIDLESTEP_DONE) {
        printf("  reply %zu\n", reply);
    } else if (p.letter != 0) {
        printf("  drive %c, %zu bytes\n", (int)p.letter, p.len);
    } else {
        print_part("  server ", path, p.start1, p.len1);
        print_part(", share ", path, p.start2, p.len2);
        printf(", %zu bytes\n", p.len);
    }
}

/* The name of the map: the last component, taken from the back. */
static void print_name(const uint8_t *path, size_t len)
{
    struct bridlestep_step s;
    size_t reply = bridlestep_next_back(BRIDLESTEP_WINDOWS, 0, 0, path, len, &s);
    if (reply == BRIDLESTEP_DONE && s.kind == BRIDLESTEP_NORMAL) {
        print_part("  named ", path, s.start, s.len);
        printf("\n");
    }
}

/* Joins one name to what is filed so far; the reply. The result may not lie over what is joined. */
static size_t add_name(struct filed *to, const uint8_t *name, size_t len)
{
    struct filed longer;
    size_t reply = bridlestep_join(BRIDLESTEP_UNIX, to->path, to->len, name, len, longer.path, ROOM, &longer.len);
    if (reply == BRIDLESTEP_DONE) {
        memcpy(to->path, longer.path, longer.len);
        to->len = longer.len;
    }
    return reply;
}

/* The terminal's path for the office's; 0 if it cannot be filed. */
static int file_path(const uint8_t *path, size_t len, struct filed *to)
{
    struct bridlestep_step s = {.mode = BRIDLESTEP_WINDOWS};
    size_t reply;
    to->len = 0;
    reply = add_name(to, bytes(folder), strlen(folder));
    while (reply == BRIDLESTEP_DONE) {
        reply = bridlestep_next(s.mode, s.front, s.back, path, len, &s);
        if (reply == BRIDLESTEP_ABSENT) {
            return 1;
        }
        if (reply == BRIDLESTEP_DONE && s.kind == BRIDLESTEP_PARENT_DIR) {
            printf("  turned down: it climbs at byte %zu\n", s.start);
            return 0;
        }
        if (reply == BRIDLESTEP_DONE && s.kind == BRIDLESTEP_NORMAL) {
            if (memchr(path + s.start, '/', s.len) != NULL) {
                printf("  turned down: a name with / in it at byte %zu\n", s.start);
                return 0;
            }
            reply = add_name(to, path + s.start, s.len);
        }
    }
    printf("  turned down: reply %zu\n", reply);
    return 0;
}

/* Which of the first `count` is the same path as `one`, from 1; 0 if none is. */
static size_t same_as(const struct filed *kept, size_t count, const struct filed *one)
{
    for (size_t k = 0; k < count; k++) {
        size_t order;
        size_t reply = bridlestep_compare(BRIDLESTEP_UNIX, kept[k].path, kept[k].len, one->path, one->len, &order);
        if (reply == BRIDLESTEP_DONE && order == 1) {
            return k + 1;
        }
    }
    return 0;
}

int main(void)
{
    static const char *const office[] = {
        "\\\\office\\maps\\2026\\field-12\\wheat.map",
        "c:/2026/./field-12//wheat.map",
        "\\\\?\\D:\\2026\\north\\barley.map",
        "E:..\\other\\maize.map",
        "\\\\?\\D:\\2026\\../../oats.map",
        "C:\\2026\\a-name-that-is-too-long-for-the-terminal-and-has-no-end-in-sight-at-all-whatever-one-does.map",
    };
    struct filed kept[sizeof office / sizeof office[0]];
    size_t count = 0;
    for (size_t i = 0; i < sizeof office / sizeof office[0]; i++) {
        const uint8_t *path = bytes(office[i]);
        size_t len = strlen(office[i]);
        size_t same;
        printf("%s\n", office[i]);
        print_prefix(path, len);
        print_name(path, len);
        if (!file_path(path, len, &kept[count])) {
            continue;
        }
        print_part("  filed as ", kept[count].path, 0, kept[count].len);
        same = same_as(kept, count, &kept[count]);
        if (same != 0) {
            printf(", as number %zu is already", same);
        } else {
            count++;
        }
        printf("\n");
    }
    return 0;
}
