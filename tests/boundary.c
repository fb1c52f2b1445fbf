/* What is lent to the library, at every place where it can stand: against a wall on either side, among guard bytes at each offset,
 * exactly on the heap, null with length 0; and a thousand controllers at once, each compared with a run alone.
 *
 *     gcc -g -O2 -std=c11 -Wall -Wextra -Werror -fsanitize=address,undefined -fno-sanitize-recover=all -Iinclude \
 *         -o boundary tests/boundary.c libam33c93a.a
 *
 * The library is compiled without a sanitizer, so the sanitizers see this file and what goes through memcpy; a wall is a page that
 * nobody may touch, and stops any access beyond a slice, reads too. Libraries that are wrong on purpose (each in a process of its
 * own) have to fail first. Prints two lines; exits with 1 on a failure. */
#define _GNU_SOURCE
#include <stdbool.h>
#include <stdint.h>
#include <stdio.h>
#include <stdlib.h>
#include <string.h>
#include <sys/mman.h>
#include <sys/wait.h>
#include <unistd.h>
#include "am33c93a.h"

enum { LENGTH = AM33C93A_IMAGE_LENGTH, LONGEST = 64, FIFO = 12, OFFSETS = 16, READ = 0, WRITE = 1 };
enum { AT_POINTER = 25, AT_WAITING = 40, AT_OLDEST = 41 }; /* docs/IMAGE.md */
enum entry { FRESH, POINTER, AUXILIARY, REGISTER, BLOCK, TIME, ANSWER, RESELECTION, REQUEST, FREE, LINES, ENTRIES };

/* One call: up to three operands, and a block's slice. */
struct call {
    enum entry entry;
    uint32_t a, b, c;
    uint8_t *data;
    size_t data_length;
};

typedef uint32_t library(uint8_t *image, size_t length, const struct call *x);

static uint32_t right(uint8_t *image, size_t length, const struct call *x)
{
    switch (x->entry) {
    case FRESH: return am33c93a_fresh(image, length);
    case POINTER: return am33c93a_pointer(image, length, x->a, x->b);
    case AUXILIARY: return am33c93a_auxiliary(image, length);
    case REGISTER: return am33c93a_register(image, length, x->a, x->b);
    case BLOCK: return am33c93a_block(image, length, x->a, x->data, x->data_length);
    case TIME: return am33c93a_time(image, length, x->a);
    case ANSWER: return am33c93a_answer(image, length);
    case RESELECTION: return am33c93a_reselection(image, length, x->a);
    case REQUEST: return am33c93a_request(image, length, x->a, x->b, x->c);
    case FREE: return am33c93a_free(image, length);
    default: return am33c93a_lines(image, length);
    }
}

static library *tried = right;
static unsigned long checks, failures;

static void check(bool holds, const char *what, long a, long b)
{
    checks++;
    if (holds) return;
    failures++;
    if (failures <= 20) printf("boundary: %s (%ld, %ld)\n", what, a, b);
}

/* The states that the calls start from. */

static void put(uint8_t *image, uint32_t address, uint32_t byte)
{
    am33c93a_pointer(image, LENGTH, WRITE, address);
    am33c93a_register(image, LENGTH, WRITE, byte);
}

static void get(uint8_t *image, uint32_t address)
{
    am33c93a_pointer(image, LENGTH, WRITE, address);
    am33c93a_register(image, LENGTH, READ, 0);
}

/* Transfer Info of this phase, count 200; so many bytes wait: 80h, 81h .. The pointer is at the Data register. Other bytes have gone through
 * before, so that the oldest stands in this place of the FIFO and, with enough waiting, the newest over its end (docs/IMAGE.md). */
static void transferring(uint8_t *image, uint32_t phase, unsigned oldest, unsigned waiting)
{
    bool comes_in = phase & 1;
    am33c93a_fresh(image, LENGTH);
    put(image, AM33C93A_COMMAND, AM33C93A_SELECT);
    am33c93a_answer(image, LENGTH);
    get(image, AM33C93A_SCSI_STATUS);
    am33c93a_request(image, LENGTH, phase, 0, 0);
    get(image, AM33C93A_SCSI_STATUS);
    put(image, AM33C93A_COUNT_LOW, 200);
    put(image, AM33C93A_COMMAND, AM33C93A_TRANSFER_INFO);
    am33c93a_pointer(image, LENGTH, WRITE, AM33C93A_DATA);
    for (unsigned i = 0; i < oldest + waiting; i++) {
        bool goes = i < oldest;
        uint32_t byte = goes ? 0xEE : 0x80 + i - oldest;
        if (comes_in) am33c93a_request(image, LENGTH, phase, byte, 0);
        else am33c93a_register(image, LENGTH, WRITE, byte);
        if (goes && comes_in) am33c93a_register(image, LENGTH, READ, 0);
        if (goes && !comes_in) am33c93a_request(image, LENGTH, phase, 0, 0);
    }
}

enum { STATES = 9 };

static void begin(uint8_t *image, int state)
{
    switch (state) {
    case 0: am33c93a_fresh(image, LENGTH); break;
    case 1: transferring(image, AM33C93A_DATA_OUT, 0, 0); break;
    case 2: transferring(image, AM33C93A_DATA_IN, 0, 5); break;
    case 3: transferring(image, AM33C93A_MESSAGE_IN, 0, FIFO); break;
    case 4: transferring(image, AM33C93A_DATA_IN, FIFO - 1, 5); break;
    case 5: transferring(image, AM33C93A_DATA_IN, 7, FIFO); break;
    case 6: transferring(image, AM33C93A_DATA_OUT, FIFO - 1, 0); break;
    case 7: transferring(image, AM33C93A_DATA_OUT, 8, 3); break;
    default:
        am33c93a_fresh(image, LENGTH);
        put(image, AM33C93A_COMMAND, AM33C93A_SELECT_TRANSFER_WITH_ATN);
        break;
    }
}

static struct call some_call(int entry, uint8_t *data, size_t n, uint32_t mark)
{
    static const uint32_t first[ENTRIES] = {[TIME] = 3, [RESELECTION] = 1, [REQUEST] = 1};
    bool marked = entry == POINTER || entry == REGISTER || entry == BLOCK;
    return (struct call){entry, marked ? mark : first[entry], entry == REQUEST ? 0x77 : AM33C93A_DATA, 0, data, n};
}

/* What the right library makes of a call, in memory of its own. */
struct outcome {
    uint32_t result;
    uint8_t image[LENGTH], data[LONGEST];
};

static void fill(uint8_t *data, size_t n)
{
    for (size_t i = 0; i < n; i++) data[i] = (uint8_t)(0xC0 ^ i);
}

static struct outcome expected(const uint8_t *image, struct call x)
{
    struct outcome o;
    memcpy(o.image, image, LENGTH);
    fill(o.data, sizeof o.data);
    x.data = o.data;
    o.result = right(o.image, LENGTH, &x);
    return o;
}

/* The call on these lent bytes comes to the same. */
static void same(uint8_t *image, struct call x, const struct outcome *o, const char *where)
{
    fill(x.data, x.data_length);
    uint32_t result = tried(image, LENGTH, &x);
    check(result == o->result, where, x.entry, (long)result);
    check(memcmp(image, o->image, LENGTH) == 0, where, x.entry, -1);
    check(x.data_length == 0 || memcmp(x.data, o->data, x.data_length) == 0, where, x.entry, -2);
}

/* Every entry in every state with every length of slice, both marks. */
static void everywhere(void (*at)(const uint8_t *image, struct call x))
{
    uint8_t image[LENGTH];
    for (int state = 0; state < STATES; state++) {
        begin(image, state);
        for (int e = 0; e < ENTRIES; e++)
            for (uint32_t mark = 0; mark < 2; mark++) {
                size_t lengths = e == BLOCK ? LONGEST + 1 : 1;
                for (size_t n = 0; n < lengths; n++) at(image, some_call(e, NULL, n, mark));
            }
    }
}

/* Walls. */

static size_t page;

/* A page between two that nobody may touch. */
static uint8_t *walled(void)
{
    uint8_t *base = mmap(NULL, 3 * page, PROT_NONE, MAP_PRIVATE | MAP_ANONYMOUS, -1, 0);
    if (base == MAP_FAILED || mprotect(base + page, page, PROT_READ | PROT_WRITE) != 0) {
        perror("boundary: mmap");
        exit(2);
    }
    return base + page;
}

static uint8_t *image_page, *data_page;

static void between_walls(const uint8_t *image, struct call x)
{
    struct outcome o = expected(image, x);
    for (int side = 0; side < 4; side++) {
        uint8_t *lent = side & 1 ? image_page + page - LENGTH : image_page;
        x.data = side & 2 ? data_page + page - x.data_length : data_page;
        memcpy(lent, image, LENGTH);
        same(lent, x, &o, "between walls");
    }
}

/* Guard bytes at each offset. */

static void among_guards(const uint8_t *image, struct call x)
{
    enum { GUARD = 16, ROOM = GUARD + OFFSETS + LONGEST + GUARD };
    _Alignas(16) uint8_t images[ROOM], data[ROOM], guard[ROOM];
    struct outcome o = expected(image, x);
    memset(guard, 0xA7, sizeof guard);
    for (size_t k = 0; k < OFFSETS; k++) {
        memset(images, 0xA7, sizeof images);
        memset(data, 0xA7, sizeof data);
        size_t i = GUARD + k, d = GUARD + (OFFSETS - 1 - k);
        memcpy(images + i, image, LENGTH);
        x.data = data + d;
        same(images + i, x, &o, "among guards");
        bool kept = memcmp(images, guard, i) == 0 && memcmp(images + i + LENGTH, guard, sizeof images - i - LENGTH) == 0 &&
                    memcmp(data, guard, d) == 0 && memcmp(data + d + x.data_length, guard, sizeof data - d - x.data_length) == 0;
        check(kept, "a guard byte changed", x.entry, (long)k);
    }
}

/* Exactly on the heap; a slice of length 0 is null. */
static void on_the_heap(const uint8_t *image, struct call x)
{
    struct outcome o = expected(image, x);
    uint8_t *lent = malloc(LENGTH);
    memcpy(lent, image, LENGTH);
    x.data = x.data_length ? malloc(x.data_length) : NULL;
    same(lent, x, &o, "on the heap");
    free(x.data);
    free(lent);
}

/* The number that a block moves: all that waits, or all that there is room for, and no more than the slice holds. */
static void block_length(unsigned oldest, unsigned waiting, size_t n, uint32_t mark)
{
    uint8_t image[LENGTH], data[LONGEST];
    transferring(image, mark == READ ? AM33C93A_DATA_IN : AM33C93A_DATA_OUT, oldest, waiting);
    check(image[AT_WAITING] == waiting && image[AT_OLDEST] == oldest, "a FIFO has travelled elsewhere", oldest, waiting);
    size_t most = mark == READ ? waiting : FIFO - waiting, moved = n < most ? n : most;
    fill(data, n);
    uint32_t r = tried(image, LENGTH, &(struct call){BLOCK, mark, 0, 0, n ? data : NULL, n});
    check(r == moved << 8, "a block moved another number", (long)n, (long)waiting);
    for (size_t i = 0; i < n; i++) {
        uint8_t byte = mark == READ && i < moved ? (uint8_t)(0x80 + i) : (uint8_t)(0xC0 ^ i);
        check(data[i] == byte, "a byte of a slice", (long)n, (long)i);
    }
    /* What was written goes out behind what waited. */
    for (size_t i = 0; mark == WRITE && i < waiting + moved; i++) {
        uint32_t byte = i < waiting ? (uint32_t)(0x80 + i) : (uint32_t)(0xC0 ^ (i - waiting));
        check(am33c93a_request(image, LENGTH, AM33C93A_DATA_OUT, 0, 0) == byte << 8, "a byte that went out", (long)n, (long)i);
    }
}

/* From every place of the oldest byte: a move goes over the end of the places, or up to it, or not so far. */
static void block_lengths(void)
{
    for (unsigned oldest = 0; oldest < FIFO; oldest++)
        for (unsigned waiting = 0; waiting <= FIFO; waiting++)
            for (size_t n = 0; n <= LONGEST; n++)
                for (uint32_t mark = 0; mark < 2; mark++) block_length(oldest, waiting, n, mark);
}

/* An image of any other length is refused without a look beyond it. */
static void other_lengths(void)
{
    uint8_t data[4];
    for (int e = 0; e < ENTRIES; e++)
        for (size_t n = 0; n <= LONGEST; n++) {
            struct call x = some_call(e, data, sizeof data, 0);
            uint8_t *lent = n ? malloc(n) : NULL, *at_wall = image_page + page - n;
            if (n == LENGTH) {
                free(lent);
                continue;
            }
            if (n) memset(lent, 0, n);
            memset(at_wall, 0, n);
            check(tried(lent, n, &x) == AM33C93A_BAD_NUMBER, "another length was taken", e, (long)n);
            check(tried(at_wall, n, &x) == AM33C93A_BAD_NUMBER, "another length was taken at the wall", e, (long)n);
            for (size_t i = 0; i < n; i++) check(lent[i] == 0 && at_wall[i] == 0, "a refused image changed", e, (long)n);
            free(lent);
        }
}

/* Many controllers. */

enum { CONTROLLERS = 1000, TURNS = 200 };

struct one {
    uint8_t *image;
    uint64_t random, told; /* what its calls answered */
    int turns;
};

static uint32_t any(uint64_t *random)
{
    *random ^= *random >> 12;
    *random ^= *random << 25;
    *random ^= *random >> 27;
    return (uint32_t)((*random * 0x2545F4914F6CDD1DULL) >> 32);
}

/* One call, chosen by the controller's own numbers. */
static void turn(struct one *c)
{
    uint32_t r = any(&c->random);
    uint8_t data[20];
    struct call x = {.entry = (enum entry)(POINTER + r % (ENTRIES - 1)), .data = data, .data_length = r >> 8 & 15};
    static const uint8_t commands[] = {0x08, 0x07, 0x20, 0x20, 0x01, 0x03, 0x09, 0xA0};
    if (x.entry == POINTER) x.a = 1, x.b = (uint32_t[]){0x17, 0x18, 0x19, 0x14}[r >> 16 & 3];
    if (x.entry == REGISTER) x.a = r >> 16 & 1, x.b = commands[r >> 20 & 7];
    if (x.entry == BLOCK) x.a = r >> 16 & 1;
    if (x.entry == REQUEST) x.a = r >> 18 & 1 ? r >> 16 & 1 : r >> 16 & 7, x.b = r >> 24;
    fill(data, sizeof data);
    c->told = c->told * 31 + tried(c->image, LENGTH, &x);
    for (size_t i = 0; i < sizeof data; i++) c->told = c->told * 31 + data[i];
    c->turns++;
}

static void start(struct one *c, int number)
{
    *c = (struct one){malloc(LENGTH), 0x9E3779B97F4A7C15ULL * (uint64_t)(number + 1), 0, 0};
    begin(c->image, number % STATES);
}

/* At each step another one has its turn; the images are compared with those of runs alone. */
static void many_at_once(void)
{
    static struct one all[CONTROLLERS];
    uint64_t random = 88172645463325252ULL;
    for (int i = 0; i < CONTROLLERS; i++) start(&all[i], i);
    for (long left = (long)CONTROLLERS * TURNS; left > 0;) {
        struct one *c = &all[any(&random) % CONTROLLERS];
        while (c->turns == TURNS) c = c == &all[CONTROLLERS - 1] ? all : c + 1;
        turn(c);
        left--;
    }
    for (int i = 0; i < CONTROLLERS; i++) {
        struct one alone;
        start(&alone, i);
        while (alone.turns < TURNS) turn(&alone);
        check(alone.told == all[i].told, "among many it answered otherwise", i, 0);
        check(memcmp(alone.image, all[i].image, LENGTH) == 0, "among many it ended otherwise", i, 0);
        free(alone.image);
        free(all[i].image);
    }
}

static void all_tests(void)
{
    everywhere(between_walls);
    everywhere(among_guards);
    everywhere(on_the_heap);
    block_lengths();
    other_lengths();
    many_at_once();
}

/* Libraries that are wrong on purpose. As the real one, they are compiled without a sanitizer. */
#define UNSEEN __attribute__((no_sanitize("address", "undefined"), noinline))

static volatile uint8_t looked_at;

UNSEEN static uint32_t reads_beyond_the_image(uint8_t *image, size_t length, const struct call *x)
{
    if (length) looked_at = image[length];
    return right(image, length, x);
}

UNSEEN static uint32_t reads_before_the_image(uint8_t *image, size_t length, const struct call *x)
{
    if (length) looked_at = image[-1];
    return right(image, length, x);
}

UNSEEN static uint32_t writes_before_the_image(uint8_t *image, size_t length, const struct call *x)
{
    if ((uintptr_t)image % 16 == 3) image[-1] = 0;
    return right(image, length, x);
}

UNSEEN static uint32_t reads_beyond_the_slice(uint8_t *image, size_t length, const struct call *x)
{
    if (x->entry == BLOCK && x->data) looked_at = x->data[x->data_length];
    return right(image, length, x);
}

UNSEEN static uint32_t writes_beyond_the_number_moved(uint8_t *image, size_t length, const struct call *x)
{
    uint32_t r = right(image, length, x);
    if (x->entry == BLOCK && x->a == READ && AM33C93A_VALUE(r) < x->data_length) x->data[AM33C93A_VALUE(r)] = 0;
    return r;
}

UNSEEN static uint32_t looks_at_null(uint8_t *image, size_t length, const struct call *x)
{
    if (x->entry == BLOCK) looked_at = x->data[0];
    return right(image, length, x);
}

UNSEEN static uint32_t takes_a_short_image(uint8_t *image, size_t length, const struct call *x)
{
    return right(image, length == LENGTH - 1 ? LENGTH : length, x);
}

/* Does not go back to the first place where the waiting bytes go over the end. */
UNSEEN static uint32_t goes_on_behind_the_last_place(uint8_t *image, size_t length, const struct call *x)
{
    if (length == LENGTH && image[AT_OLDEST] + image[AT_WAITING] > FIFO) looked_at = image[length];
    return right(image, length, x);
}

/* Remembers the pointer from one call to the next, whosever it is. */
UNSEEN static uint32_t keeps_a_state_of_its_own(uint8_t *image, size_t length, const struct call *x)
{
    static uint8_t pointer;
    if (length == LENGTH && x->entry == REGISTER && pointer != 0) image[AT_POINTER] = pointer;
    uint32_t r = right(image, length, x);
    if (length == LENGTH) pointer = image[AT_POINTER];
    return r;
}

static const struct {
    const char *name;
    library *entry;
} wrong[] = {{"reads beyond the image", reads_beyond_the_image},
             {"reads before the image", reads_before_the_image},
             {"writes before the image", writes_before_the_image},
             {"reads beyond the slice", reads_beyond_the_slice},
             {"writes beyond the number moved", writes_beyond_the_number_moved},
             {"looks at null", looks_at_null},
             {"takes a short image", takes_a_short_image},
             {"goes on behind the last place", goes_on_behind_the_last_place},
             {"keeps a state of its own", keeps_a_state_of_its_own}};
enum { WRONG = sizeof wrong / sizeof wrong[0] };

/* Whether a process with this library fails, or is stopped. */
static bool is_caught(library *entry)
{
    fflush(stdout);
    pid_t child = fork();
    if (child == 0) {
        if (!freopen("/dev/null", "w", stdout) || !freopen("/dev/null", "w", stderr)) _exit(0);
        tried = entry;
        all_tests();
        _exit(failures != 0);
    }
    int status;
    if (child < 0 || waitpid(child, &status, 0) != child) return false;
    return !WIFEXITED(status) || WEXITSTATUS(status) != 0;
}

int main(void)
{
    unsigned missed = 0;
    page = (size_t)sysconf(_SC_PAGESIZE);
    image_page = walled();
    data_page = walled();
    for (int i = 0; i < WRONG; i++)
        if (!is_caught(wrong[i].entry)) {
            printf("boundary: a library that %s was not caught\n", wrong[i].name);
            missed++;
        }
    printf("boundary: %d wrong libraries, %u missed\n", WRONG, missed);
    all_tests();
    printf("boundary: %lu checks, %lu failed\n", checks, failures);
    return failures != 0 || missed != 0;
}
