/* The library against the plain C model of the papers (bench/plain.c): the same calls to both, from fresh, and everything that a
 * host can see compared. Most episodes are played by a host and a Target that mostly behave; the others are calls at random.
 *
 *     gcc -O2 -std=c11 -Wall -Wextra -Werror -Iinclude -o differential tests/differential.c bench/plain.c libam33c93a.a
 *     differential [SEED [CALLS [-v]]]
 *
 * The last line is 'differential: seed S, N calls, 0 differences'. -v adds the answers and codes seen, for each kind of call.
 * On a difference a shortest list of calls that still differs is sought and printed, and the exit status is 1. It is 1 too where
 * a million calls or more did not raise every code of the papers, or raised another: they compared too little. */
#include <stdbool.h>
#include <stdint.h>
#include <stdio.h>
#include <stdlib.h>
#include <string.h>
#include "am33c93a.h"
#include "../bench/plain.h"

enum kind { POINTER, AUXILIARY, REGISTER, BLOCK, TIME, ANSWER, RESELECTION, REQUEST, FREE, LINES, KINDS };
enum { LONGEST = 3000, SLICE = 64, READ = 0, WRITE = 1, ENOUGH = 1000000 };

static const char *const kind_names[KINDS] = {"pointer", "auxiliary",   "register", "block", "time",
                                              "answer",  "reselection", "request",  "free",  "lines"};
static const char *const answer_names[9] = {"Done",          "Held",    "Out of place", "Bad number", "Blind", "Command ignored",
                                            "Resel ignored", "No data", "Reported"};

/* One call: the operands in order; a block's slice has length bytes, made from fill. */
struct call {
    uint8_t kind, fill;
    uint16_t length;
    uint32_t a, b, c;
};

/* The image stands at an odd address, where the smallest processors can reach single bytes only. */
struct pair {
    uint8_t before_image;
    uint8_t image[AM33C93A_IMAGE_LENGTH];
    struct plain model;
};

enum { NOWHERE = 0xffff };

struct difference {
    const char *what;
    unsigned at;    /* a register's address or a byte's place, or NOWHERE */
    bool is_result; /* two results of a call, or else two bytes */
    uint32_t library, plain;
};

static unsigned long answers[KINDS][9], codes[KINDS][256];

/* Running a call. */

static uint32_t library_call(uint8_t *image, const struct call *c, uint8_t *data)
{
    enum { N = AM33C93A_IMAGE_LENGTH };
    switch (c->kind) {
    case POINTER: return am33c93a_pointer(image, N, c->a, c->b);
    case AUXILIARY: return am33c93a_auxiliary(image, N);
    case REGISTER: return am33c93a_register(image, N, c->a, c->b);
    case BLOCK: return am33c93a_block(image, N, c->a, data, c->length);
    case TIME: return am33c93a_time(image, N, c->a);
    case ANSWER: return am33c93a_answer(image, N);
    case RESELECTION: return am33c93a_reselection(image, N, c->a);
    case REQUEST: return am33c93a_request(image, N, c->a, c->b, c->c);
    case FREE: return am33c93a_free(image, N);
    default: return am33c93a_lines(image, N);
    }
}

static uint32_t plain_call(struct plain *p, const struct call *c, uint8_t *data)
{
    switch (c->kind) {
    case POINTER: return plain_pointer(p, c->a, c->b);
    case AUXILIARY: return plain_auxiliary(p);
    case REGISTER: return plain_register(p, c->a, c->b);
    case BLOCK: return plain_block(p, c->a, data, c->length);
    case TIME: return plain_time(p, c->a);
    case ANSWER: return plain_answer(p);
    case RESELECTION: return plain_reselection(p, c->a);
    case REQUEST: return plain_request(p, c->a, c->b, c->c);
    case FREE: return plain_free(p);
    default: return plain_lines(p);
    }
}

static bool differs(struct difference *d, const char *what, unsigned at, bool is_result, uint32_t library, uint32_t plain)
{
    *d = (struct difference){what, at, is_result, library, plain};
    return false;
}

/* The paper's column "Leaves": Held, Out of place, Bad number, Reselection ignored and No data now change nothing, Blind only
 * moves the pointer, Command ignored only sets LCI. An image is one state's, so its bytes tell. */
static bool leaves(const uint8_t *before, const uint8_t *after, uint32_t answer, struct difference *d)
{
    enum { AT_POINTER = 25, AT_LCI = 26 };
    if (answer == AM33C93A_DONE || answer == AM33C93A_REPORTED) return true;
    for (unsigned i = 0; i < AM33C93A_IMAGE_LENGTH; i++) {
        bool free_to = (answer == AM33C93A_BLIND && i == AT_POINTER) || (answer == AM33C93A_COMMAND_IGNORED && i == AT_LCI);
        if (before[i] == after[i] || free_to) continue;
        return differs(d, "the image must stay (plain: before), byte", i, false, after[i], before[i]);
    }
    return true;
}

/* Runs one call on both sides. The results go to r; false if the returned numbers, the lent bytes or what is left differ. */
static bool step(struct pair *p, const struct call *c, uint32_t r[2], struct difference *d)
{
    uint8_t before[AM33C93A_IMAGE_LENGTH], plain_lent[SLICE];
    _Alignas(4) uint8_t room[1 + SLICE];
    uint8_t *lent = room + 1; /* at an odd address too */
    memcpy(before, p->image, sizeof before);
    if (c->kind == BLOCK)
        for (unsigned i = 0; i < SLICE; i++) lent[i] = plain_lent[i] = (uint8_t)(c->fill + 7 * i);
    bool null = c->length == 0 && (c->fill & 1);
    r[0] = library_call(p->image, c, null ? NULL : lent);
    r[1] = plain_call(&p->model, c, null ? NULL : plain_lent);
    if (r[0] != r[1]) return differs(d, "the returned number", NOWHERE, true, r[0], r[1]);
    if (c->kind == BLOCK && memcmp(lent, plain_lent, SLICE) != 0)
        for (unsigned i = 0; i < SLICE; i++)
            if (lent[i] != plain_lent[i]) return differs(d, "lent byte", i, false, lent[i], plain_lent[i]);
    return leaves(before, p->image, AM33C93A_ANSWER(r[0]), d);
}

/* Looking at everything a host can see, through a copy. */

static bool same(struct pair *copy, struct call c, const char *what, unsigned at, struct difference *d)
{
    uint32_t r[2];
    if (step(copy, &c, r, d)) return true;
    if (r[0] == r[1]) return false;
    return differs(d, what, at, true, r[0], r[1]);
}

static bool same_register(struct pair *copy, uint8_t address, struct difference *d)
{
    return same(copy, (struct call){.kind = POINTER, .a = WRITE, .b = address}, "pointer set to", address, d) &&
           same(copy, (struct call){.kind = REGISTER, .a = READ}, "register", address, d);
}

/* Auxiliary status, lines, the pointer, all registers (with BSY those that can be reached), then the waiting bytes. */
static bool looks_same(const struct pair *p, struct difference *d)
{
    struct pair copy = *p;
    bool busy = plain_auxiliary(&p->model) >> 8 & AM33C93A_AUX_BSY;
    if (!same(&copy, (struct call){.kind = AUXILIARY}, "auxiliary status", NOWHERE, d)) return false;
    if (!same(&copy, (struct call){.kind = LINES}, "lines", NOWHERE, d)) return false;
    if (!same(&copy, (struct call){.kind = POINTER}, "the pointer", NOWHERE, d)) return false;
    if (!busy) {
        if (!same(&copy, (struct call){.kind = POINTER, .a = WRITE}, "pointer set to", 0, d)) return false;
        for (unsigned i = 0; i <= AM33C93A_SCSI_STATUS; i++)
            if (!same(&copy, (struct call){.kind = REGISTER}, "register", i, d)) return false;
    }
    if (!same_register(&copy, AM33C93A_COMMAND, d)) return false;
    if (!same(&copy, (struct call){.kind = BLOCK, .length = 16}, "waiting bytes", NOWHERE, d)) return false;
    return same(&copy, (struct call){.kind = AUXILIARY}, "auxiliary status after the waiting bytes", NOWHERE, d);
}

/* Under BSY most registers are out of reach: read out, disconnect and look again. */
static bool looks_same_within(const struct pair *p, struct difference *d)
{
    static const struct call calls[] = {{.kind = BLOCK, .length = 16},
                                        {.kind = POINTER, .a = WRITE, .b = AM33C93A_SCSI_STATUS},
                                        {.kind = REGISTER, .a = READ},
                                        {.kind = POINTER, .a = WRITE, .b = AM33C93A_COMMAND},
                                        {.kind = REGISTER, .a = WRITE, .b = AM33C93A_DISCONNECT},
                                        {.kind = REGISTER, .a = WRITE, .b = AM33C93A_ABORT}};
    struct pair copy = *p;
    for (unsigned i = 0; i < sizeof calls / sizeof calls[0]; i++)
        if (!same(&copy, calls[i], "in a copy, read out and disconnected: call", i, d)) return false;
    return looks_same(&copy, d);
}

/* Random numbers (xorshift64*). */

static uint64_t random_state;

static uint32_t any(void)
{
    random_state ^= random_state >> 12;
    random_state ^= random_state << 25;
    random_state ^= random_state >> 27;
    return (uint32_t)((random_state * 0x2545F4914F6CDD1DULL) >> 32);
}

static void seed_with(uint64_t seed, uint64_t episode)
{
    random_state = (seed * 0x9E3779B97F4A7C15ULL + episode) * 0xD1B54A32D192ED03ULL + 0x8CB92BA72F3D8DD7ULL;
    if (random_state == 0) random_state = 1;
    for (int i = 0; i < 8; i++) any();
}

static uint32_t below(uint32_t n)
{
    return (uint32_t)((uint64_t)any() * n >> 32);
}

static bool chance(uint32_t percent)
{
    return below(100) < percent;
}

static uint32_t one_of(const uint32_t *values, uint32_t n)
{
    return values[below(n)];
}
#define ONE_OF(...) one_of((const uint32_t[]){__VA_ARGS__}, sizeof((const uint32_t[]){__VA_ARGS__}) / sizeof(uint32_t))

/* Calls that are next in turn. */

static struct call queue[64];
static unsigned queued, next_queued;

static void push(struct call c)
{
    if (queued < sizeof queue / sizeof queue[0]) queue[queued++] = c;
}

static void point(uint32_t address)
{
    push((struct call){.kind = POINTER, .a = WRITE, .b = address});
}

static void read_register(uint32_t address)
{
    point(address);
    push((struct call){.kind = REGISTER, .a = READ, .b = chance(50) ? 0 : below(256)});
}

static void write_register(uint32_t address, uint32_t byte)
{
    point(address);
    push((struct call){.kind = REGISTER, .a = WRITE, .b = byte});
}

/* A number of so many bytes, the high one first, from where the pointer stands. */
static void write_next(uint32_t number, unsigned bytes)
{
    while (bytes-- > 0) push((struct call){.kind = REGISTER, .a = WRITE, .b = number >> 8 * bytes & 255});
}

static void command(uint32_t code)
{
    write_register(AM33C93A_COMMAND, chance(5) ? code ^ AM33C93A_SINGLE_BYTE : code);
}

static void request(uint32_t phase, uint32_t byte)
{
    push((struct call){.kind = REQUEST, .a = phase, .b = byte, .c = chance(4)});
}

/* A byte of data; bad parity comes often when the FIFO is full, where it must not show. */
static void request_data(const struct plain *m, uint32_t phase)
{
    push((struct call){.kind = REQUEST, .a = phase, .b = below(256), .c = chance(m->waiting == PLAIN_FIFO ? 40 : 4)});
}

static void event(enum kind kind, uint32_t operand)
{
    push((struct call){.kind = (uint8_t)kind, .a = operand});
}

static void block(uint32_t mark)
{
    uint16_t length = (uint16_t)ONE_OF(0, 1, 1, 2, 3, 5, 8, 11, 12, 13, below(SLICE));
    push((struct call){.kind = BLOCK, .fill = (uint8_t)any(), .length = length, .a = mark});
}

/* A call at random; the low numbers, the addresses that exist and the known commands come often. */

static uint32_t random_command(void)
{
    return ONE_OF(0, 1, 1, 2, 2, 3, 3, 4, 6, 7, 8, 8, 9, 0x0f, 0x18, 0x18, 0x98, 0x20, 0x20, 0xa0, 0x05, 0x0a, 0x21, 0x22, 0x7f,
                  0x80, below(256));
}

static uint32_t wild(void)
{
    return ONE_OF(2, 3, 8, 9, 255, 256, 257, 0x0fff, 0x10000, 0x1000000, 0x7fffffff, 0x80000000u, 0x80000001u, 0xffffffffu, any());
}

static struct call spoil(struct call c)
{
    switch (below(3)) {
    case 0: c.a = wild(); break;
    case 1: c.b = wild(); break;
    default: c.c = wild();
    }
    return c;
}

static struct call noise(void)
{
    struct call c = {.kind = (uint8_t)below(KINDS), .fill = (uint8_t)any()};
    switch (c.kind) {
    case POINTER:
        c.a = below(4) != 0;
        c.b = chance(80) ? below(0x20) : below(256);
        break;
    case REGISTER:
        c.a = below(2);
        c.b = chance(70) ? random_command() : below(256);
        break;
    case BLOCK:
        c.a = below(2);
        c.length = (uint16_t)below(chance(70) ? 16 : SLICE);
        break;
    case TIME: c.a = below(chance(70) ? 4 : 256); break;
    case RESELECTION: c.a = chance(70) ? 1u << below(8) | 1u << below(8) : below(256); break;
    case REQUEST:
        c.a = below(8);
        c.b = chance(50) ? ONE_OF(0, 2, 4, 0x80) : below(256);
        c.c = chance(15);
        break;
    default: break;
    }
    return chance(5) ? spoil(c) : c;
}

/* The host prepares: some registers take values that lead on. */

static void load_count(void)
{
    uint32_t n = ONE_OF(0, 1, 1, 2, 3, 5, 11, 12, 13, 14, below(40), below(40), 0x100 + below(3), 0x10000 + below(3));
    point(AM33C93A_COUNT_HIGH);
    write_next(n, 3);
}

static void command_bytes(void)
{
    write_register(AM33C93A_CDB_1, chance(85) ? ONE_OF(0, 1, 1, 5) << 5 | below(32) : below(256));
    for (uint32_t n = below(12); n > 0; n--) write_next(below(256), 1);
}

static void phase_register(void)
{
    uint32_t at = ONE_OF(0x10, 0x20, 0x30, 0x41, 0x42, 0x44, 0x45, 0x46, 0x50, 0x60);
    write_register(AM33C93A_COMMAND_PHASE, chance(85) ? at : ONE_OF(0x00, 0x31, 0x36, 0x3a, 0x40, 0x43, 0x47, below(256)));
}

static void prepare(void)
{
    switch (below(9)) {
    case 0: write_register(AM33C93A_CONTROL, chance(75) ? ONE_OF(0, 0, 0, 1, 4, 5) : below(256)); break;
    case 1: write_register(AM33C93A_TIMEOUT, ONE_OF(0, 1, 2, 3, 10, 255, below(256))); break;
    case 2: command_bytes(); break;
    case 3: write_register(AM33C93A_TARGET_LUN, chance(50) ? below(8) : below(256)); break;
    case 4: write_register(AM33C93A_DESTINATION_ID, chance(80) ? below(8) : below(256)); break;
    case 5: write_register(AM33C93A_SOURCE_ID, chance(70) ? 0x80 : below(256)); break;
    case 6: phase_register(); break;
    default: load_count(); break;
    }
}

static void new_identity(void)
{
    write_register(AM33C93A_OWN_ID, below(256));
    command(AM33C93A_RESET);
    read_register(AM33C93A_SCSI_STATUS);
    write_register(AM33C93A_SOURCE_ID, 0x80 | (chance(80) ? 0 : below(128)));
}

static void some_event(void)
{
    switch (below(6)) {
    case 0: event(TIME, below(4)); break;
    case 1: event(ANSWER, 0); break;
    case 2: event(RESELECTION, chance(60) ? 1u << below(8) | 1u << below(8) : below(256)); break;
    case 3: event(FREE, 0); break;
    default: request(below(8), ONE_OF(0, 2, 4, below(256))); break;
    }
}

/* Lines that qualify: our bit, and the Target's, another's or none. */
static void reselect(const struct plain *m)
{
    uint32_t own = 1u << m->own, target = 1u << (m->stored[AM33C93A_DESTINATION_ID] & 7);
    event(RESELECTION, own | (chance(80) ? target : chance(70) ? 1u << below(8) : 0));
}

static void move_data(const struct plain *m)
{
    uint32_t mark = chance(4) ? below(2) : m->direction == PLAIN_OUT;
    if (chance(45)) {
        block(mark);
        return;
    }
    if (chance(30)) push((struct call){.kind = AUXILIARY});
    if (m->pointer != AM33C93A_DATA || chance(30)) point(AM33C93A_DATA);
    for (uint32_t n = below(4); n > 0; n--) push((struct call){.kind = REGISTER, .a = mark, .b = below(256)});
}

/* The host of a bare drive: Translate Address (paper 02, Req 01), at both sides of each limit. */

/* Registers 03, 04, 05/06, 07 to 0Ah, 0Ch and 0D/0Eh. */
struct drive {
    uint32_t sectors, heads, cylinders, address, spares, per_cylinder;
};

/* What chance would seldom put together. */
static const struct drive corner_drives[] = {
    {255, 255, 0xffff, 255u * 255 * 0xffff - 1, 0, 0}, /* the largest address that lies on any drive */
    {255, 255, 0xffff, 255u * 255 * 0xffff, 0, 0},     /* and the next */
    {255, 15, 4096, 4095u * 0xffff + 3824, 1, 0xffff}, /* the largest with spares */
    {255, 15, 4096, 4095u * 0xffff + 3825, 1, 0xffff}, /* and the next */
    {1, 1, 0xffff, 0xfffe, 0, 0},                      /* the last cylinder of 65535 */
    {1, 1, 0xffff, 0xffff, 0, 0},                      /* and the next */
    {1, 1, 0xffff, 0x10000, 0, 0},                     /* cut to 16 bits this would be cylinder 0 */
    {1, 15, 4096, 0x100, 1, 0xffff},                   /* cut to 8 bits this would be head 0 */
    {0, 15, 4096, 0, 1, 100},                          /* a divisor is zero, though nothing is left to divide */
    {17, 4, 615, 0, 1, 0},                             /* the other divisor is zero */
};

static uint32_t some_address(const struct drive *d)
{
    uint32_t all = d->sectors * d->heads, per = d->spares ? d->per_cylinder : all, used = per < all ? per : all;
    uint32_t cylinder = below(d->cylinders) * per, last = (d->cylinders - 1) * per;
    switch (below(10)) {
    case 0: return 0;
    case 1: return last + used - 1;                            /* the last address that fits */
    case 2: return last + used;                                /* the next */
    case 3: return last + per;                                 /* one cylinder too many */
    case 4: return cylinder + all - below(2);                  /* one head too many, or just not */
    case 5: return (0x10000 + below(3)) * per + below(per);    /* a cylinder of more than 16 bits */
    case 6: return cylinder + 0x100 * d->sectors + below(all); /* a head of more than 8 bits */
    case 7: return any();
    default: return cylinder + below(used);
    }
}

static struct drive some_drive(void)
{
    if (chance(15)) return corner_drives[below(sizeof corner_drives / sizeof corner_drives[0])];
    struct drive d;
    d.sectors = chance(3) ? 0 : ONE_OF(1, 2, 17, 32, 63, 255, below(256));
    d.heads = chance(3) ? 0 : ONE_OF(1, 2, 8, 15, 15, 16, 255, below(256));
    d.cylinders = chance(3) ? 0 : ONE_OF(1, 2, 615, 4096, 4096, 4097, 0xffff, below(0x10000));
    d.spares = chance(50) ? 0 : ONE_OF(1, 2, 0x80, 255, below(256));
    uint32_t all = d.sectors * d.heads, left = all - d.spares;
    d.per_cylinder = ONE_OF(left, left, all - 1, all, all + 1, all + below(300), 0, 0xffff, below(0x10000)) & 0xffff;
    d.address = some_address(&d);
    return d;
}

static void load_drive(struct drive d)
{
    point(AM33C93A_CDB_1);
    write_next(d.sectors, 1);
    write_next(d.heads, 1);
    write_next(d.cylinders, 2);
    write_next(d.address, 4);
    write_next(below(256), 1); /* 0Bh is not looked at */
    write_next(d.spares, 1);
    write_next(d.per_cylinder, 2);
}

static void load_anything(void)
{
    point(AM33C93A_CDB_1);
    for (int i = 0; i < 3; i++) write_next(any(), 4);
}

static void translate_what_stands(void)
{
    command(chance(20) ? AM33C93A_TRANSLATE_ADDRESS | AM33C93A_SINGLE_BYTE : AM33C93A_TRANSLATE_ADDRESS);
    if (chance(90)) read_register(AM33C93A_SCSI_STATUS);
    if (chance(20)) return;
    read_register(AM33C93A_SECTOR_NUMBER);
    for (int i = 0; i < 3; i++) push((struct call){.kind = REGISTER, .a = READ});
}

/* The results stand where parameters stood: a second command without a load takes them for parameters. Afterwards the registers
 * mostly hold command bytes again. */
static void translate(void)
{
    uint32_t r = below(100);
    if (r < 80) load_drive(some_drive());
    else if (r < 90) load_anything();
    translate_what_stands();
    if (chance(25)) translate_what_stands();
    if (chance(80)) command_bytes();
}

/* What is likely next in each state. Each function puts at least one call into the queue. */

static void interrupted(void)
{
    uint32_t r = below(100);
    if (r < 76) read_register(AM33C93A_SCSI_STATUS);
    else if (r < 84) some_event();
    else if (r < 92) command(random_command());
    else if (r < 96) prepare();
    else push((struct call){.kind = AUXILIARY});
}

static void disconnected(const struct plain *m)
{
    uint32_t r = below(100);
    bool er = m->stored[AM33C93A_SOURCE_ID] & 0x80;
    if (!er && r < 20) write_register(AM33C93A_SOURCE_ID, chance(70) ? 0x80 : 0x80 | below(128));
    else if (r < 36) prepare();
    else if (r < 40) translate();
    else if (r < 70) command(ONE_OF(8, 8, 8, 8, 9, 9));
    else if (r < 84) command(ONE_OF(6, 7));
    else if (r < 90) reselect(m);
    else if (r < 93) new_identity();
    else if (r < 97) command(random_command());
    else some_event();
}

static void selecting(const struct plain *m)
{
    uint32_t r = below(100);
    if (r < 68) event(ANSWER, 0);
    else if (r < 84) event(TIME, ONE_OF(0, 1, 1, 2, 3, below(256)));
    else if (r < 88) reselect(m);
    else if (r < 91) command(AM33C93A_ABORT);
    else if (r < 95) command(random_command());
    else some_event();
}

static void waiting(const struct plain *m)
{
    uint32_t r = below(100);
    bool er = m->stored[AM33C93A_SOURCE_ID] & 0x80; /* without it nobody comes back */
    if (!er && r < 40) command(AM33C93A_ABORT);
    else if (r < 62) reselect(m);
    else if (r < 76) move_data(m);
    else if (r < 80) command(AM33C93A_ABORT);
    else if (r < 84) command(AM33C93A_SET_IDI);
    else if (r < 88) command(random_command());
    else some_event();
}

static void transfer_or_resume(const struct plain *m)
{
    bool may_resume = chance(25);
    if (may_resume && chance(50)) phase_register();
    if (chance(60)) load_count();
    if (may_resume) command(ONE_OF(8, 9));
    else command(chance(15) ? 0xa0 : 0x20);
    if (m->held_ack && chance(30)) request(below(8), 0);
}

static void connected_idle(const struct plain *m)
{
    uint32_t r = below(100);
    bool is_reported = m->reported != PLAIN_NO_PHASE;
    if (m->held_ack && r < 45) command(AM33C93A_NEGATE_ACK);
    else if (!is_reported && r < 60) request(below(8), below(256));
    else if (r < 62) transfer_or_resume(m);
    else if (r < 72) request(below(8), below(256));
    else if (r < 78 && is_reported) request(m->reported, below(256));
    else if (r < 82) event(FREE, 0);
    else if (r < 86) command(AM33C93A_ASSERT_ATN);
    else if (r < 88) command(AM33C93A_DISCONNECT);
    else if (r < 92) command(random_command());
    else if (r < 97) prepare();
    else some_event();
}

static void transferring(const struct plain *m)
{
    uint32_t r = below(100), left = m->count + m->single;
    bool can_move = plain_auxiliary(m) >> 8 & AM33C93A_AUX_DBR;
    if (can_move && r < 40) move_data(m);
    else if (r < (left ? 86 : 20)) request_data(m, m->reported);
    else if (r < (left ? 89 : 80)) request(below(8), below(256));
    else if (r < 91) event(FREE, 0);
    else if (r < 94) command(AM33C93A_ABORT);
    else if (r < 97) command(random_command());
    else some_event();
}

/* The Target's message before Status. */
static void message(void)
{
    request(AM33C93A_MESSAGE_IN, ONE_OF(4, 4, 4, 2, 2, 0, 3, below(256)));
}

/* Data or Status in the middle of a Select-And-Transfer. */
static void middle(const struct plain *m)
{
    uint32_t r = below(100);
    bool is_data = m->count != 0 && m->stored[AM33C93A_COMMAND_PHASE] != 0x46;
    if (r < (is_data ? 82 : 10)) request_data(m, m->direction == PLAIN_IN || (m->direction == PLAIN_NOT_FIXED && chance(50)));
    else if (r < (is_data ? 90 : 70)) request(AM33C93A_STATUS_IN, below(256));
    else message();
}

/* The event that a Select-And-Transfer expects. */
static void expected(const struct plain *m)
{
    uint8_t at = m->stored[AM33C93A_COMMAND_PHASE];
    uint8_t size = (uint8_t[]){6, 10, 0, 0, 0, 12, 0, 0}[m->stored[AM33C93A_CDB_1] >> 5];
    if (at == 0x10 && m->running == PLAIN_SELECT_TRANSFER_WITH_ATN) request(AM33C93A_MESSAGE_OUT, below(256));
    else if (at == 0x10 || at == 0x20 || (at >> 4 == 3 && (at & 15) < size)) request(AM33C93A_COMMAND_OUT, below(256));
    else if (at == 0x42) event(FREE, 0);
    else if (at == 0x44) request(AM33C93A_MESSAGE_IN, 0x80 | (chance(95) ? m->stored[AM33C93A_TARGET_LUN] & 7 : below(256)));
    else if (at == 0x50) request(AM33C93A_MESSAGE_IN, chance(95) ? 0 : below(8));
    else middle(m);
}

static void combining(const struct plain *m)
{
    uint32_t r = below(1000);
    bool can_move = plain_auxiliary(m) >> 8 & AM33C93A_AUX_DBR;
    if (m->held_ack && r < 400) command(AM33C93A_NEGATE_ACK);
    else if (can_move && r < 300) move_data(m);
    else if (r < 955) expected(m);
    else if (r < 965) request(below(8), ONE_OF(0, 2, 4, below(256)));
    else if (r < 970) event(FREE, 0);
    else if (r < 975) command(AM33C93A_ABORT);
    else if (r < 980) command(AM33C93A_SET_IDI);
    else if (r < 985) command(random_command());
    else some_event();
}

static void ending(const struct plain *m)
{
    uint32_t r = below(100);
    if (r < 65) move_data(m);
    else if (r < 79) some_event();
    else if (r < 82) command(AM33C93A_DISCONNECT);
    else if (r < 88) command(ONE_OF(AM33C93A_ABORT, AM33C93A_SET_IDI, AM33C93A_NEGATE_ACK, AM33C93A_ASSERT_ATN));
    else if (r < 94) command(random_command());
    else if (m->connection == PLAIN_DISCONNECTED) reselect(m);
    else request(m->last & 7, below(256));
}

static void plan(const struct plain *m)
{
    if (m->pending == PLAIN_INT) interrupted();
    else if (m->pending != PLAIN_NOTHING) ending(m);
    else if (m->connection == PLAIN_DISCONNECTED) disconnected(m);
    else if (m->connection == PLAIN_SELECTING) selecting(m);
    else if (m->connection == PLAIN_WAITING) waiting(m);
    else if (m->running == PLAIN_NO_COMMAND) connected_idle(m);
    else if (m->running == PLAIN_TRANSFER_INFO) transferring(m);
    else combining(m);
}

static struct call guided(const struct plain *m)
{
    if (chance(2)) return noise();
    if (next_queued == queued) {
        queued = next_queued = 0;
        plan(m);
    }
    if (next_queued == queued) return noise();
    struct call c = queue[next_queued++];
    return below(500) == 0 ? spoil(c) : c;
}

/* An episode: calls from fresh, kept so that they can be told again. */

static struct call told[LONGEST];

static void begin(struct pair *p)
{
    memset(p, 0xA5, sizeof *p);
    if (am33c93a_fresh(p->image, sizeof p->image) != plain_fresh(&p->model)) {
        printf("differential: fresh differs\n");
        exit(1);
    }
}

static void count_answer(const struct call *c, uint32_t result, bool was_pending, const struct plain *m)
{
    uint32_t answer = AM33C93A_ANSWER(result);
    if (answer < 9) answers[c->kind][answer]++;
    if (!was_pending && m->pending == PLAIN_INT) codes[c->kind][m->code]++;
}

/* Plays n calls. The number played until a difference, or n and no difference (d->what null). */
static unsigned play(unsigned n, bool is_guided, struct difference *d)
{
    struct pair p;
    begin(&p);
    queued = next_queued = 0;
    if (is_guided && chance(70)) new_identity();
    d->what = NULL;
    for (unsigned i = 0; i < n; i++) {
        uint32_t r[2];
        bool was_pending = p.model.pending == PLAIN_INT;
        told[i] = is_guided ? guided(&p.model) : noise();
        if (!step(&p, &told[i], r, d)) return i + 1;
        count_answer(&told[i], r[0], was_pending, &p.model);
        uint32_t look = below(64);
        if (look < 10 && !looks_same(&p, d)) return i + 1;
        if (look == 63 && !looks_same_within(&p, d)) return i + 1;
    }
    return n;
}

/* Shrinking and telling. */

/* Tells the calls again, looking after each. The number told until a difference, or 0 if there is none. */
static unsigned retell(const struct call *calls, unsigned n, struct difference *d)
{
    struct pair p;
    uint32_t r[2];
    begin(&p);
    for (unsigned i = 0; i < n; i++)
        if (!step(&p, &calls[i], r, d) || !looks_same(&p, d) || !looks_same_within(&p, d)) return i + 1;
    return 0;
}

/* Leaves out each run of this many calls whose absence keeps a difference. */
static unsigned leave_out(struct call *calls, unsigned n, unsigned run)
{
    static struct call tried[LONGEST];
    struct difference d;
    for (unsigned at = 0; at + run <= n;) {
        memcpy(tried, calls, at * sizeof *calls);
        memcpy(tried + at, calls + at + run, (n - at - run) * sizeof *calls);
        unsigned still = retell(tried, n - run, &d);
        if (still == 0) {
            at++;
            if (run > 8) at += run / 2;
        } else {
            memcpy(calls, tried, still * sizeof *calls);
            n = still;
        }
    }
    return n;
}

/* Long runs first, until nothing can be left out any more. */
static unsigned shrink(struct call *calls, unsigned n)
{
    for (unsigned before = n + 1; n < before;) {
        before = n;
        for (unsigned run = n / 2; run > 0; run = run > 8 ? run / 2 : run - 1) n = leave_out(calls, n, run);
    }
    return n;
}

/* Makes operands 0 where the difference stays. */
static void simplify(struct call *calls, unsigned n)
{
    struct difference d;
    for (unsigned i = 0; i < n; i++)
        for (int k = 0; k < 3; k++) {
            struct call kept = calls[i];
            *(k == 0 ? &calls[i].a : k == 1 ? &calls[i].b : &calls[i].c) = 0;
            if (retell(calls, n, &d) != n) calls[i] = kept;
        }
}

static void print_call(const struct call *c)
{
    char text[80];
    unsigned a = c->a, b = c->b;
    const char *name = kind_names[c->kind], *mark = a == READ ? "(read)" : a == WRITE ? "(write)" : "(bad)";
    switch (c->kind) {
    case POINTER:
    case REGISTER: snprintf(text, sizeof text, "%s mark %X %s byte %02Xh", name, a, mark, b); break;
    case BLOCK: snprintf(text, sizeof text, "block mark %X %s %u bytes, %02Xh by 7", a, mark, c->length, c->fill); break;
    case TIME: snprintf(text, sizeof text, "time units %02Xh", a); break;
    case RESELECTION: snprintf(text, sizeof text, "reselection lines %02Xh", a); break;
    case REQUEST: snprintf(text, sizeof text, "request phase %X byte %02Xh parity %X", a, b, (unsigned)c->c); break;
    default: snprintf(text, sizeof text, "%s", name);
    }
    printf("  %-42s", text);
}

static void print_result(const char *who, uint32_t r)
{
    uint32_t answer = AM33C93A_ANSWER(r);
    printf(" %s %u %s %02Xh", who, (unsigned)answer, answer < 9 ? answer_names[answer] : "?", (unsigned)AM33C93A_VALUE(r));
}

static void print_difference(const struct difference *d)
{
    printf("  differs: %s", d->what);
    if (d->at != NOWHERE) printf(" %02Xh", d->at);
    printf(":");
    if (d->is_result) {
        print_result("library", d->library);
        print_result(" plain", d->plain);
    } else {
        printf(" library %02Xh  plain %02Xh", (unsigned)d->library, (unsigned)d->plain);
    }
    printf("\n");
}

static void print_told(unsigned n)
{
    struct pair p;
    struct difference d;
    begin(&p);
    printf("  fresh\n");
    for (unsigned i = 0; i < n; i++) {
        uint32_t r[2];
        step(&p, &told[i], r, &d);
        print_call(&told[i]);
        print_result("library", r[0]);
        print_result(" plain", r[1]);
        printf("\n");
    }
    if (retell(told, n, &d) != 0) print_difference(&d);
    else printf("  told again, they do not differ\n");
}

static int tell_difference(uint64_t seed, unsigned long call, unsigned n)
{
    struct difference d;
    printf("differential: seed %llu, a difference at call %lu\n", (unsigned long long)seed, call);
    unsigned found = retell(told, n, &d);
    if (found != 0) {
        n = shrink(told, found);
        simplify(told, n);
    }
    printf("%u calls that differ:\n", n);
    print_told(n);
    return 1;
}

/* What was seen. */

static void print_seen(void)
{
    for (int k = 0; k < KINDS; k++) {
        printf("%s:", kind_names[k]);
        for (int a = 0; a < 9; a++)
            if (answers[k][a]) printf(" %s %lu", answer_names[a], answers[k][a]);
        for (int c = 0, first = 1; c < 256; c++)
            if (codes[k][c]) {
                printf("%s %02Xh %lu", first ? "; raised" : "", c, codes[k][c]);
                first = 0;
            }
        printf("\n");
    }
}

static bool is_code(int c)
{
    static const uint8_t alone[] = {0x00, 0x11, 0x15, 0x16, 0x20, 0x21, 0x22, 0x40, 0x41, 0x42, 0x43, 0x45, 0x80, 0x85};
    int base = c & 0xf8;
    return memchr(alone, c, sizeof alone) || base == 0x18 || base == 0x28 || base == 0x48 || base == 0x88;
}

static bool is_seen(int c)
{
    for (int k = 0; k < KINDS; k++)
        if (codes[k][c] != 0) return true;
    return false;
}

/* How many codes of the papers were not seen, and others were. */
static unsigned amiss(void)
{
    unsigned n = 0;
    for (int c = 0; c < 256; c++) n += is_code(c) != is_seen(c);
    return n;
}

static void print_codes(void)
{
    unsigned seen = 0;
    printf("codes not seen:");
    for (int c = 0; c < 256; c++) {
        seen += is_seen(c);
        if (is_code(c) != is_seen(c)) printf(" %02Xh%s", c, is_seen(c) ? " (seen, and no code of the papers)" : "");
    }
    printf("%s; %u seen\n", amiss() ? "" : " none", seen);
}

int main(int argc, char **argv)
{
    uint64_t seed = argc > 1 ? strtoull(argv[1], NULL, 0) : 1;
    unsigned long calls = argc > 2 ? strtoul(argv[2], NULL, 0) : 10000000, made = 0;
    for (uint64_t episode = 0; made < calls; episode++) {
        struct difference d;
        seed_with(seed, episode);
        unsigned long n = 100 + below(LONGEST - 100);
        if (n > calls - made) n = calls - made;
        unsigned played = play((unsigned)n, episode % 8 != 7, &d);
        made += played;
        if (d.what) return tell_difference(seed, made, played);
    }
    bool is_verbose = argc > 3 && strcmp(argv[3], "-v") == 0, is_too_little = made >= ENOUGH && amiss() != 0;
    if (is_verbose) print_seen();
    if (is_verbose || is_too_little) print_codes();
    if (is_too_little) {
        printf("differential: seed %llu, %lu calls, too little seen\n", (unsigned long long)seed, made);
        return 1;
    }
    printf("differential: seed %llu, %lu calls, 0 differences\n", (unsigned long long)seed, made);
    return 0;
}
