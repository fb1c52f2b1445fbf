/* The rows of the tables and the sides that each is done by, for bench.c and count.c. The includer says first how long the longest
 * transfer is: LONGEST bytes.
 *
 * All sides are called across translation units, with the same calls (work.h), and must give the same results; the ring does its
 * work in Rust (ring_work.rs) and has part in the rows that only move bytes.
 * BEFORE: an earlier library stands where the model in Rust stands else, its entries renamed. Its images may have another length:
 * each library is asked for its own, and both lend it from buffers of the same size. NO_RUST: no model in Rust and no ring. */
#include <stdint.h>
#include <stdio.h>
#include <string.h>
#include "am33c93a.h"
#ifdef BEFORE
#include "before.h"
#elif !defined NO_RUST
#include "model.h"
#endif
#ifndef NO_RUST
#include "ring.h"
#endif
#include "plain.h"

/* The bytes of an image that are looked at here (docs/IMAGE.md). */
enum { POINTER_AT = 25, HELD_AT = 40, FIRST_AT = 41 };

enum { COPIES = 64, MEBIBYTE = 1 << 20, SIXTEEN_MEGABYTES = 16000000 };

static uint8_t slice[4096];
static uint8_t sent[LONGEST], received[LONGEST];
static size_t whole; /* bytes of a whole transfer */

static size_t at_most(size_t n, size_t most)
{
    return n < most ? n : most;
}

static uint32_t sum_of(const uint8_t *bytes, size_t n)
{
    uint32_t sum = 0;
    for (size_t i = 0; i < n; i++) sum = sum * 31 + bytes[i];
    return sum;
}

static int comparing = 1; /* count.c leaves it out where it counts */

/* A number that says whether all bytes arrived; they are wiped for the next time. */
static uint32_t arrived(void)
{
    if (!comparing) return 0;
    uint32_t all = memcmp(sent, received, whole) == 0 ? 1 : 0xBAD;
    memset(received, 0, whole);
    return all;
}

/* The words of work.h. */
#define WORK static __attribute__((noinline)) uint32_t
#define SHARED static inline __attribute__((always_inline))

#ifdef BEFORE
enum { ROOM = 64 }; /* for an image of either library */
static uint32_t library_length, other_length;
#else
enum { ROOM = AM33C93A_IMAGE_LENGTH, library_length = AM33C93A_IMAGE_LENGTH };
#endif

static uint8_t library_state[ROOM], library_saved[ROOM], library_copies[COPIES][ROOM];
#define SIDE(name) library_##name
#define ENTRY(name) am33c93a_##name
#define STATE library_state, library_length
#define COPY(i) library_copies[i], library_length
#define library_at_pointer library_state[POINTER_AT]
#include "work.h"
#undef SIDE
#undef ENTRY
#undef STATE
#undef COPY

#ifdef BEFORE
#define OTHER_NAME "before"
#define OTHER_SIDE "an earlier library"
static uint8_t other_state[ROOM], other_saved[ROOM], other_copies[COPIES][ROOM];
#define ENTRY(name) before_##name
#define STATE other_state, other_length
#define COPY(i) other_copies[i], other_length
#define other_at_pointer other_state[POINTER_AT]
#elif !defined NO_RUST
#define OTHER_NAME "Rust"
#define OTHER_SIDE "the model in Rust"
static struct model other_state, other_saved, other_copies[COPIES];
#define ENTRY(name) model_##name
#define STATE &other_state
#define COPY(i) &other_copies[i]
#define other_at_pointer other_state.bytes[0]
#else
#define OTHER_NAME "-"
#endif
#ifdef ENTRY
#define SIDE(name) other_##name
#include "work.h"
#undef SIDE
#undef ENTRY
#undef STATE
#undef COPY
#define BY_OTHER(from, work, restoring, after) [OTHER] = {other_##from, other_##work, restoring(other), after(other)},
#else
#define BY_OTHER(from, work, restoring, after)
#endif

static struct plain yardstick_state, yardstick_saved, yardstick_copies[COPIES];
#define SIDE(name) yardstick_##name
#define ENTRY(name) plain_##name
#define STATE &yardstick_state
#define COPY(i) &yardstick_copies[i]
#define yardstick_at_pointer yardstick_state.pointer
#include "work.h"
#undef SIDE
#undef ENTRY
#undef STATE
#undef COPY

#ifndef NO_RUST
#include "ring_sides.h"
#define BY_RING(from, work, restoring, after)                                                                                   \
    [RING] = {ring_##from, ring_##work, restoring(ring), after(ring)}, [LOOP] = {ring_##from, loop_##work, restoring(ring), after(ring)},
#else
#define BY_RING(from, work, restoring, after)
#endif

struct side {
    void (*from)(void);
    uint32_t (*work)(long n);      /* null: this side has no part in the row */
    uint32_t (*restoring)(long n); /* null: nothing to subtract */
    uint32_t (*after)(void);       /* null: nothing to look at after a trial */
};

enum { LIBRARY, OTHER, PLAIN, RING, LOOP, SIDES };
static const char *const side_names[SIDES] = {"library", OTHER_NAME, "C", "ring", "loop"};

#define ANY UINT32_MAX

struct row {
    const char *name;
    size_t bytes;    /* of a whole transfer; else 0 */
    uint32_t result; /* of each turn, or ANY */
    uint32_t after;  /* what is to be seen after a trial, or ANY */
    struct side sides[SIDES];
};

/* How a side's restoring and what is looked at after a trial are named in a row. */
#define NOTHING(side) NULL
#define RESTORING(side) side##_restoring
#define STATUS(side) side##_status
#define LEFT_IN(side) side##_left_in
#define LEFT_OUT(side) side##_left_out

#define BY_MODELS(from, work, restoring, after)                                                                                 \
    [LIBRARY] = {library_##from, library_##work, restoring(library), after(library)},                                            \
    BY_OTHER(from, work, restoring, after)                                                                                       \
    [PLAIN] = {yardstick_##from, yardstick_##work, restoring(yardstick), after(yardstick)},

/* A call again and again; one from a state that is restored; one that ends with a status; a block; a whole transfer. */
#define CALL(name, result, from, work) {name, 0, result, ANY, {BY_MODELS(from, work, NOTHING, NOTHING)}}
#define EVENT(name, result, from, work, status) {name " (restored)", 0, result, status, {BY_MODELS(from, work, RESTORING, STATUS)}}
#define BLOCK(name, moved, from, work, after)                                                                                   \
    {name " (restored)", 0, (moved) << 8, ANY, {BY_MODELS(from, work, RESTORING, after) BY_RING(from, work, RESTORING, after)}}
#define WHOLE(name, bytes, work) {name, bytes, ANY, ANY, {BY_MODELS(from_fresh, work, NOTHING, NOTHING)}}
#define WHOLE_WITH_RING(name, bytes, work)                                                                                      \
    {name, bytes, ANY, ANY, {BY_MODELS(from_fresh, work, NOTHING, NOTHING) BY_RING(from_fresh, work, NOTHING, NOTHING)}}

static const struct row rows[] = {
    CALL("pointer set", AM33C93A_DONE, from_fresh, pointer_set),
    CALL("auxiliary read", AM33C93A_AUX_BSY << 8, from_in, auxiliary_read),
    CALL("register read, 00 to 16h", ANY, from_fresh, register_read),
    CALL("register write, 00 to 16h", AM33C93A_DONE, from_fresh, register_write),
    EVENT("status read", AM33C93A_CODE_SELECTED << 8, from_unread, status_read, AM33C93A_CODE_SELECTED),
    CALL("data read, no data", 0xff << 8 | AM33C93A_NO_DATA_NOW, from_fresh_at_data, read_at_data),
    CALL("polled byte in, four calls", ANY, from_in, polled_in),
    CALL("polled byte out, four calls", ANY, from_out, polled_out),
    CALL("Request and data read, two calls", ANY, from_in_at_data, request_and_read),
    CALL("data write and Request, two calls", ANY, from_out_at_data, write_and_request),
    CALL("Request held, FIFO full", AM33C93A_HELD, from_full, request_in),
    CALL("Request held, FIFO empty", AM33C93A_HELD, from_out, request_out),
    CALL("Request held, status unread", AM33C93A_HELD, from_unread, request_in),
    CALL("Request out of place", AM33C93A_OUT_OF_PLACE, from_fresh, request_in),
    CALL("time, 0 units, selecting", AM33C93A_DONE, from_selecting, time_stands),
    EVENT("time, 1 unit, selecting", AM33C93A_DONE, from_selecting, time_passes, ANY),
    EVENT("answer, to 08", AM33C93A_DONE, from_selecting, answered, ANY),
    CALL("reselection ignored", AM33C93A_RESELECTION_IGNORED, from_fresh, reselection_ignored),
    EVENT("reselection, to 80h", AM33C93A_DONE, from_reselectable, reselected, AM33C93A_CODE_RESELECTED),
    CALL("free, out of place", AM33C93A_OUT_OF_PLACE, from_fresh, free_out_of_place),
    EVENT("free, to 85h", AM33C93A_DONE, from_connected, freed, AM33C93A_CODE_DISCONNECTED),
    CALL("lines", AM33C93A_LINES_CONNECTED << 8, from_in, lines_read),
    BLOCK("block in, 1 byte", 1, from_full, in_1, LEFT_IN),
    BLOCK("block in, 12 bytes", 12, from_full, in_12, LEFT_IN),
    BLOCK("block in, 12 bytes over the end", 12, from_full_over_the_end, in_12, LEFT_IN),
    BLOCK("block in, 4096 bytes, 12 wait", 12, from_full, in_4096, LEFT_IN),
    BLOCK("block out, 1 byte", 1, from_out, out_1, LEFT_OUT),
    BLOCK("block out, 12 bytes", 12, from_out, out_12, LEFT_OUT),
    BLOCK("block out, 12 bytes over the end", 12, from_out_over_the_end, out_12, LEFT_OUT),
    BLOCK("block out, 4096 bytes, room for 12", 12, from_out, out_4096, LEFT_OUT),
    WHOLE("1 MiB in, polled", MEBIBYTE, whole_in_polled),
    WHOLE("1 MiB in, by blocks", MEBIBYTE, whole_in_until_held),
    WHOLE("1 MiB out, polled", MEBIBYTE, whole_out_polled),
    WHOLE("1 MiB out, by blocks", MEBIBYTE, whole_out_until_held),
    WHOLE_WITH_RING("16 MB in, by blocks", SIXTEEN_MEGABYTES, whole_in_by_twelve),
    WHOLE_WITH_RING("16 MB out, by blocks", SIXTEEN_MEGABYTES, whole_out_by_twelve),
};

enum { ROWS = sizeof rows / sizeof rows[0] };

static int images_fit(void)
{
#ifdef BEFORE
    library_length = am33c93a_image_length();
    other_length = before_image_length();
    return library_length <= ROOM && other_length <= ROOM;
#else
    return am33c93a_image_length() == ROOM;
#endif
}

/* The library's FIFO has travelled to place 6, with so many bytes waiting. */
static int is_over_the_end(void (*from)(void), uint8_t waiting)
{
    from();
    return library_state[FIRST_AT] == 6 && library_state[HELD_AT] == waiting;
}

/* Whether one side does a row as it should; sum: what it gave. */
static int goes_well(const struct row *row, const struct side *s, uint32_t *sum)
{
    long n = row->bytes ? 1 : COPIES;
    for (size_t i = 0; i < sizeof slice; i++) slice[i] = (uint8_t)i;
    s->from();
    uint32_t results = s->work(n), after = s->after ? s->after() : 0;
    *sum = (results * 31 + after) * 31 + sum_of(slice, sizeof slice);
    if (row->result != ANY && results != (uint32_t)n * row->result) return 0;
    return row->after == ANY || row->after == after;
}

static int rows_go_well(size_t most)
{
    for (int i = 0; i < ROWS; i++) {
        uint32_t library = 0, sum;
        whole = at_most(rows[i].bytes, most);
        for (int k = 0; k < SIDES; k++) {
            if (!rows[i].sides[k].work) continue;
            int well = goes_well(&rows[i], &rows[i].sides[k], &sum);
            if (k == LIBRARY) library = sum;
            if (well && sum == library) continue;
            printf("bench: %s: %s gives %s\n", rows[i].name, side_names[k], well ? "another result than the library" : "a wrong result");
            return 0;
        }
    }
    return 1;
}

/* All is in place, and all sides do every row alike, whole transfers with at most so many bytes. */
static int is_ready(size_t most)
{
    if (!images_fit()) {
        printf("bench: the images do not fit into %d bytes\n", ROOM);
        return 0;
    }
    if (!is_over_the_end(library_from_full_over_the_end, 12) || !is_over_the_end(library_from_out_over_the_end, 0)) {
        printf("bench: the FIFO's first byte is not in place 6\n");
        return 0;
    }
    for (size_t i = 0; i < sizeof sent; i++) sent[i] = (uint8_t)(i * 2654435761u >> 13);
    return rows_go_well(most);
}
