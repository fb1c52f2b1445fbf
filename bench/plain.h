/* A plain C model of paper 01 and of paper 02's requests 01 and 14: the yardstick of bench.c and the reference of
 * tests/differential.c. It is written from the papers and their readings alone, and knows nothing of images. Operands and
 * results are those of the entries in am33c93a.h: the answer's number in bits 0 to 7, its value from bit 8 up. */
#ifndef PLAIN_H
#define PLAIN_H

#include <stdbool.h>
#include <stddef.h>
#include <stdint.h>

enum { PLAIN_FIFO = 12, PLAIN_NO_PHASE = 0xff };

enum plain_pending {
    PLAIN_NOTHING,
    PLAIN_INT,
    PLAIN_ENDING,  /* "Ending with c": the incoming FIFO is read out first, then c is raised */
    PLAIN_READ_OUT /* the ending after a Free at 42h, which raises no code; then it waits for reselection */
};

enum plain_connection { PLAIN_DISCONNECTED, PLAIN_SELECTING, PLAIN_WAITING, PLAIN_CONNECTED };

/* The Level II command that runs. */
enum plain_running {
    PLAIN_NO_COMMAND,
    PLAIN_SELECT_WITH_ATN,          /* 06 */
    PLAIN_SELECT,                   /* 07 */
    PLAIN_SELECT_TRANSFER_WITH_ATN, /* 08 */
    PLAIN_SELECT_TRANSFER,          /* 09 */
    PLAIN_TRANSFER_INFO             /* 20h */
};

/* The direction of data. */
enum plain_direction { PLAIN_NOT_FIXED, PLAIN_IN, PLAIN_OUT };

struct plain {
    uint8_t stored[0x17];  /* registers 00 to 16h; 12h to 14h stand in count */
    uint8_t code;          /* 17h, the last code raised */
    uint8_t command;       /* 18h, the last command not ignored */
    uint8_t pointer;       /* the address pointer */
    uint8_t pending;       /* enum plain_pending */
    uint8_t ending_code;   /* with PLAIN_ENDING */
    uint8_t connection;    /* enum plain_connection */
    uint8_t running;       /* enum plain_running */
    uint8_t direction;     /* enum plain_direction */
    uint8_t reported;      /* the reported phase, or PLAIN_NO_PHASE; under Transfer Info the phase under transfer */
    uint8_t last;          /* the phase of the last Request answered Done or Reported since connection, or PLAIN_NO_PHASE */
    uint8_t own;           /* our identity */
    bool lci, pe;          /* auxiliary status */
    bool atn, held_ack;    /* the bus */
    bool single;           /* the one byte left that 12h to 14h do not show */
    uint32_t count;        /* 12h to 14h */
    uint32_t elapsed;      /* units of time added up while selecting */
    uint8_t fifo[PLAIN_FIFO];
    uint8_t first, waiting; /* the oldest byte's place, and how many bytes wait */
};

uint32_t plain_fresh(struct plain *p);
uint32_t plain_pointer(struct plain *p, uint32_t mark, uint32_t byte);
uint32_t plain_auxiliary(const struct plain *p);
uint32_t plain_register(struct plain *p, uint32_t mark, uint32_t byte);
uint32_t plain_block(struct plain *p, uint32_t mark, uint8_t *data, size_t length);
uint32_t plain_time(struct plain *p, uint32_t units);
uint32_t plain_answer(struct plain *p);
uint32_t plain_reselection(struct plain *p, uint32_t lines);
uint32_t plain_request(struct plain *p, uint32_t phase, uint32_t byte, uint32_t parity);
uint32_t plain_free(struct plain *p);
uint32_t plain_lines(const struct plain *p);

#endif
