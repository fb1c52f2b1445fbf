/* A ring of twelve bytes in Rust and the work over it (rust_sides). rust_ring_: blocks move in two runs; rust_loop_: byte by byte. */
#ifndef RING_H
#define RING_H

#include <stddef.h>
#include <stdint.h>

struct ring {
    uint8_t bytes[12];
    size_t first, held;
};

void rust_ring_prepare(struct ring *r, uint8_t gone, uint8_t waiting);
void rust_ring_restore(struct ring *copies, const struct ring *saved, size_t turns);
size_t rust_ring_in(struct ring *copies, const struct ring *saved, size_t turns, uint8_t *data, size_t length);
size_t rust_ring_out(struct ring *copies, const struct ring *saved, size_t turns, const uint8_t *data, size_t length);
size_t rust_loop_in(struct ring *copies, const struct ring *saved, size_t turns, uint8_t *data, size_t length);
size_t rust_loop_out(struct ring *copies, const struct ring *saved, size_t turns, const uint8_t *data, size_t length);
uint32_t rust_ring_pop(struct ring *r);
void rust_ring_transfer_in(const uint8_t *sent, uint8_t *received, size_t length);
void rust_ring_transfer_out(const uint8_t *sent, uint8_t *received, size_t length);
void rust_loop_transfer_in(const uint8_t *sent, uint8_t *received, size_t length);
void rust_loop_transfer_out(const uint8_t *sent, uint8_t *received, size_t length);

#endif
