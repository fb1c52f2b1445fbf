/* The ring as two sides of rows.h: 'ring' moves blocks in two runs, 'loop' byte by byte. All else is the same. */

static struct ring ring_saved, ring_copies[COPIES];

static void ring_from_fresh(void) {}
static void ring_from_full(void) { rust_ring_prepare(&ring_saved, 0, 12); }
static void ring_from_full_over_the_end(void) { rust_ring_prepare(&ring_saved, 6, 12); }
static void ring_from_out(void) { rust_ring_prepare(&ring_saved, 0, 0); }
static void ring_from_out_over_the_end(void) { rust_ring_prepare(&ring_saved, 6, 0); }

#define RING_WORK(name, move, length)                                                                                           \
    WORK name(long n) { return (uint32_t)move(ring_copies, &ring_saved, (size_t)n, slice, length) << 8; }
RING_WORK(ring_in_1, rust_ring_in, 1)
RING_WORK(ring_in_12, rust_ring_in, 12)
RING_WORK(ring_in_4096, rust_ring_in, 4096)
RING_WORK(ring_out_1, rust_ring_out, 1)
RING_WORK(ring_out_12, rust_ring_out, 12)
RING_WORK(ring_out_4096, rust_ring_out, 4096)
RING_WORK(loop_in_1, rust_loop_in, 1)
RING_WORK(loop_in_12, rust_loop_in, 12)
RING_WORK(loop_in_4096, rust_loop_in, 4096)
RING_WORK(loop_out_1, rust_loop_out, 1)
RING_WORK(loop_out_12, rust_loop_out, 12)
RING_WORK(loop_out_4096, rust_loop_out, 4096)

WORK ring_restoring(long n)
{
    rust_ring_restore(ring_copies, &ring_saved, (size_t)n);
    return 0;
}

/* What the last copy is left with; the bytes leave it the same way, whichever way they came. */

static uint32_t ring_left_in(void)
{
    uint8_t left[12] = {0};
    uint32_t held = 0;
    for (uint32_t byte; (byte = rust_ring_pop(&ring_copies[COPIES - 1])) < 256;) left[held++] = (uint8_t)byte;
    return held + sum_of(left, sizeof left);
}

static uint32_t ring_left_out(void)
{
    return ring_left_in();
}

/* The ring has no codes: here are the ones that the others come to, so that the sums compare. */
enum { CODES = (AM33C93A_CODE_COMPLETE + AM33C93A_CODE_DISCONNECTED) << 8 };

#define RING_WHOLE(name, carry, more)                                                                                           \
    WORK name(long n)                                                                                                            \
    {                                                                                                                            \
        uint32_t sum = 0;                                                                                                        \
        for (long k = 0; k < n; k++) {                                                                                           \
            carry(sent, received, whole);                                                                                        \
            sum += CODES + (more) + arrived();                                                                                   \
        }                                                                                                                        \
        return sum;                                                                                                              \
    }
RING_WHOLE(ring_whole_in_by_twelve, rust_ring_transfer_in, 0)
RING_WHOLE(ring_whole_out_by_twelve, rust_ring_transfer_out, AM33C93A_REPORTED)
RING_WHOLE(loop_whole_in_by_twelve, rust_loop_transfer_in, 0)
RING_WHOLE(loop_whole_out_by_twelve, rust_loop_transfer_out, AM33C93A_REPORTED)
