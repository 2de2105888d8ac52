/*
 * Bridlestep: path arithmetic on bytes, exact and proved, for Unix and for Windows paths in one build.
 *
 * The functions of libcab.a (tools/native-lib cab builds it). Each promises, for any input, what the call of the
 * same name in crates/paths promises; crates/cab has the proof. The rules are docs/01-scope.md.
 *
 * In every function
 *   - mode is BRIDLESTEP_UNIX or BRIDLESTEP_WINDOWS; any other number is answered BRIDLESTEP_MODE;
 *   - a path is a pointer and a length, and holds any bytes, zeros too; nothing ends it but its length. It may be
 *     0 to BRIDLESTEP_LONGEST bytes long; a longer one is answered BRIDLESTEP_LENGTH. Where the length is 0 the
 *     pointer may be anything, NULL too: nothing is read through it. The same holds for a buffer with room for 0;
 *   - all memory is the caller's. A path is only read, and only during the call; nothing is kept, allocated or
 *     freed, no global is touched, so calls may run at the same time. What is written to (a prefix, a step, a
 *     number, the buffer) must not overlap a path or anything else that is handed over, and must be writable for
 *     its whole size;
 *   - the result is one of the replies below. With any reply but BRIDLESTEP_DONE the numbers handed back are 0
 *     (but for a step's cursor, which comes back as it was given) and the buffer is untouched;
 *   - a place in a path is counted in bytes from its front, from 0.
 *
 * Where several replies would hold, the first of MODE, LENGTH, CURSOR, ABSENT, ROOM is given.
 */
#ifndef BRIDLESTEP_H
#define BRIDLESTEP_H

#include <stddef.h>
#include <stdint.h>

#ifdef __cplusplus
extern "C" {
#endif

/* Modes. */
enum { BRIDLESTEP_UNIX = 0, BRIDLESTEP_WINDOWS = 1 };

/* The longest path that is taken, in bytes. A joined path may be longer, if the buffer is. */
enum { BRIDLESTEP_LONGEST = 4096 };

/* Replies of these functions; docs/01-scope.md has the whole table. */
enum {
    BRIDLESTEP_DONE = 0,   /* the answer is in what was handed over */
    BRIDLESTEP_MODE = 1,   /* mode is neither 0 nor 1 */
    BRIDLESTEP_LENGTH = 2, /* a path is longer than BRIDLESTEP_LONGEST */
    BRIDLESTEP_ABSENT = 3, /* no prefix, or nothing left to step over */
    BRIDLESTEP_ROOM = 7,   /* the joined path is longer than the buffer */
    BRIDLESTEP_CURSOR = 8  /* more components taken than the path has */
};

/* Kinds of prefix; 0 is none. Here a backslash is written as it stands in the path. */
enum {
    BRIDLESTEP_VERBATIM = 1,      /* \\?\name */
    BRIDLESTEP_VERBATIM_UNC = 2,  /* \\?\UNC\server\share, or \\?\UNC/server\share */
    BRIDLESTEP_VERBATIM_DISK = 3, /* \\?\C: */
    BRIDLESTEP_DEVICE_NS = 4,     /* \\.\name */
    BRIDLESTEP_UNC = 5,           /* \\server\share */
    BRIDLESTEP_DISK = 6           /* C: */
};

/* Kinds of component; 0 is none. */
enum {
    BRIDLESTEP_PREFIX = 1,
    BRIDLESTEP_ROOT_DIR = 2,
    BRIDLESTEP_CUR_DIR = 3,
    BRIDLESTEP_PARENT_DIR = 4,
    BRIDLESTEP_NORMAL = 5
};

/* A Windows path's prefix. Unix mode has none. */
struct bridlestep_prefix {
    size_t kind;   /* BRIDLESTEP_VERBATIM to BRIDLESTEP_DISK */
    size_t letter; /* the drive's letter as a capital's byte; 0 if the kind has none */
    size_t start1; /* the only name, or the server: where it stands in the path; 0 if the kind has none */
    size_t len1;   /* and how long it is; a verbatim or device name may be empty */
    size_t start2; /* the share, the same way; 0 if the kind has none */
    size_t len2;
    size_t len;    /* how many bytes the prefix takes; it starts at 0 */
};

/*
 * One step: the component that was taken, and the cursor behind it. A cursor is a mode and two numbers, how many
 * components were taken at the front and how many at the back. It starts as 0, 0, and goes with one path.
 */
struct bridlestep_step {
    size_t kind;          /* BRIDLESTEP_PREFIX to BRIDLESTEP_NORMAL */
    size_t prefix_kind;   /* these six are a prefix's, as in struct bridlestep_prefix; 0 for the other kinds */
    size_t prefix_letter;
    size_t prefix_start1;
    size_t prefix_len1;
    size_t prefix_start2;
    size_t prefix_len2;
    size_t start;         /* where the component stands, and how long it is; a root that has no byte of its own has */
    size_t len;           /* length 0 */
    size_t mode;          /* the cursor handed back: to go on, hand these three over again */
    size_t front;
    size_t back;
};

/*
 * The prefix of the path.
 * DONE: *prefix is filled. ABSENT: the path has none.
 */
size_t bridlestep_prefix(size_t mode, const uint8_t *path, size_t path_len, struct bridlestep_prefix *prefix);

/*
 * One step from the front (bridlestep_next) or from the back (bridlestep_next_back) of the path, of which `front`
 * components were taken at the front and `back` at the back.
 * DONE: *step has the component, and the cursor moved by one. ABSENT: all are taken. CURSOR: more were taken than there
 * are; front and back may be any numbers, their sum does not wrap.
 */
size_t bridlestep_next(size_t mode, size_t front, size_t back, const uint8_t *path, size_t path_len,
                       struct bridlestep_step *step);
size_t bridlestep_next_back(size_t mode, size_t front, size_t back, const uint8_t *path, size_t path_len,
                            struct bridlestep_step *step);

/*
 * The order of two paths, by their components.
 * DONE: *order is 0 where p comes first, 1 where they are equal, 2 where q comes first.
 */
size_t bridlestep_compare(size_t mode, const uint8_t *p, size_t p_len, const uint8_t *q, size_t q_len,
                          size_t *order);

/*
 * p and q made one path, at the front of the buffer out, which has room for `room` bytes.
 * DONE: *len is how long the path is; every byte of out behind it is as it was. ROOM: it is longer than room.
 */
size_t bridlestep_join(size_t mode, const uint8_t *p, size_t p_len, const uint8_t *q, size_t q_len, uint8_t *out,
                       size_t room, size_t *len);

#ifdef __cplusplus
}
#endif

#endif
