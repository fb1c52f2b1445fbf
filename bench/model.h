/* The independent model in Rust (tests/model) behind C entries (rust_sides). A state is opaque but for its first byte. */
#ifndef MODEL_H
#define MODEL_H

#include <stddef.h>
#include <stdint.h>

struct model {
    _Alignas(4) uint8_t bytes[60]; /* bytes[0] is the address pointer */
};

uint32_t model_fresh(struct model *m);
uint32_t model_pointer(struct model *m, uint32_t mark, uint32_t byte);
uint32_t model_auxiliary(const struct model *m);
uint32_t model_register(struct model *m, uint32_t mark, uint32_t byte);
uint32_t model_block(struct model *m, uint32_t mark, uint8_t *data, size_t length);
uint32_t model_time(struct model *m, uint32_t units);
uint32_t model_answer(struct model *m);
uint32_t model_reselection(struct model *m, uint32_t lines);
uint32_t model_request(struct model *m, uint32_t phase, uint32_t byte, uint32_t parity);
uint32_t model_free(struct model *m);
uint32_t model_lines(const struct model *m);

#endif
