/* The boundary of the library, from C: every entry's refusals, with guard bytes around both slices.
 * A refusal answers Bad number with value 0 and leaves every lent byte as it was. Prints one line; exits with 1 on a failure. */
#include <stdint.h>
#include <stdio.h>
#include <string.h>
#include "am33c93a.h"

enum { LENGTH = AM33C93A_IMAGE_LENGTH, LENGTH_BEFORE = 53, GUARD = 16, SLICE = 20, ENTRIES = 11, BLOCK = 5 };
enum { WAITING = 40, OLDEST = 41, PLACES = 42, FIFO = 12 }; /* docs/IMAGE.md */

static unsigned long checks, failures;

static void check(int holds, const char *what, long a, long b)
{
    checks++;
    if (holds) return;
    failures++;
    if (failures <= 20) printf("refusals: %s (%ld, %ld)\n", what, a, b);
}

/* One call by its number, with up to three operands. */
static uint32_t call(int entry, uint8_t *image, uint64_t length, uint32_t a, uint32_t b, uint32_t c, uint8_t *data, uint64_t n)
{
    switch (entry) {
    case 0: return am33c93a_pointer(image, length, a, b);
    case 1: return am33c93a_auxiliary(image, length);
    case 2: return am33c93a_register(image, length, a, b);
    case 3: return am33c93a_time(image, length, a);
    case 4: return am33c93a_answer(image, length);
    case BLOCK: return am33c93a_block(image, length, a, data, n);
    case 6: return am33c93a_reselection(image, length, a);
    case 7: return am33c93a_request(image, length, a, b, c);
    case 8: return am33c93a_free(image, length);
    case 9: return am33c93a_lines(image, length);
    default: return am33c93a_fresh(image, length);
    }
}

struct lent {
    uint8_t image[GUARD + LENGTH + 8 + GUARD];
    uint8_t data[GUARD + SLICE + GUARD];
};

static void refused(int entry, const uint8_t *image, size_t length, uint32_t a, uint32_t b, uint32_t c, const char *what)
{
    struct lent before, after;
    memset(&before, 0xA7, sizeof before);
    memcpy(before.image + GUARD, image, length);
    after = before;
    uint32_t r = call(entry, after.image + GUARD, length, a, b, c, after.data + GUARD, SLICE);
    check(r == AM33C93A_BAD_NUMBER, what, entry, (long)r);
    check(memcmp(&before, &after, sizeof before) == 0, "a lent or guard byte changed", entry, (long)length);
}

/* Good operands: an answer that is not Bad number, and no byte outside the image and the data changes. */
static void taken(int entry, const uint8_t *image, uint32_t a, uint32_t b, uint32_t c)
{
    struct lent before, after;
    memset(&before, 0xA7, sizeof before);
    memcpy(before.image + GUARD, image, LENGTH);
    after = before;
    uint32_t r = call(entry, after.image + GUARD, LENGTH, a, b, c, after.data + GUARD, SLICE);
    check(AM33C93A_ANSWER(r) != AM33C93A_BAD_NUMBER, "a good call was refused", entry, (long)r);
    memcpy(after.image + GUARD, before.image + GUARD, LENGTH);
    memcpy(after.data + GUARD, before.data + GUARD, SLICE);
    check(memcmp(&before, &after, sizeof before) == 0, "a guard byte changed", entry, 0);
}

/* Lengths beyond 32 bits, two of them 54 in their low half: the library has to be told, and to look at, all 64 bits. So many bytes are not
 * there, but a length that is not 54 is refused before any byte is looked at. */
static void all_bits_count(int entry, const uint8_t *fresh)
{
    static const uint64_t lengths[] = {LENGTH | 1ull << 32, LENGTH | 1ull << 63, 1ull << 32, UINT64_MAX};
    for (int i = 0; i < 4; i++) {
        uint8_t image[LENGTH];
        memcpy(image, fresh, LENGTH);
        uint32_t r = call(entry, image, lengths[i], 0, 0, 0, image, 0);
        check(r == AM33C93A_BAD_NUMBER, "a length beyond 32 bits was taken", entry, i);
        check(memcmp(image, fresh, LENGTH) == 0, "an image of a length beyond 32 bits changed", entry, i);
    }
}

static const struct { uint8_t at, limit; } ranges[] = {
    {26, 2}, {27, 2}, {30, 4}, {32, 3}, {33, 2}, {34, 2}, {35, 2}, {36, 9}, {37, 9}, {38, 8}, {WAITING, 13}, {OLDEST, 12}};

/* Bytes 28 (what is pending), 29 (the code to come) and 31 (the command that runs) say one thing together, in every combination: INT only
 * where no command runs (paper 02, Req 14), an ending only where one does, a code only with an ending. The pointer stands at 18h, so that the
 * register access is a Reset, which is no way out of an image with both. */
static void activities(int entry)
{
    static const uint8_t codes[] = {0, 1, 0x16, 0xff};
    for (int pending = 0; pending < 256; pending++)
        for (int command = 0; command < 256; command++)
            for (int i = 0; i < 4; i++) {
                if (pending > 5 && command > 7) continue; /* one of the two far out of range is enough */
                uint8_t image[LENGTH] = {[25] = AM33C93A_COMMAND, [28] = (uint8_t)pending, [29] = codes[i], [31] = (uint8_t)command};
                int both = pending == 1 && command >= 1 && command <= 5;
                int is_state = pending < 4 && command < 6 && (codes[i] == 0 || pending == 2)
                    && (command == 0 ? pending < 2 : pending != 1);
                if (is_state) taken(entry, image, 1, 0, 0);
                else refused(entry, image, LENGTH, 1, 0, 0, both ? "INT with a running command was taken" : "no activity's bytes were taken");
            }
}

/* Any byte may stand in any place of the FIFO, whether one waits there or not. */
static void any_byte_in_any_place(int entry)
{
    for (int v = 1; v < 256; v++)
        for (int k = 0; k < FIFO; k++) {
            uint8_t image[LENGTH] = {[WAITING] = (uint8_t)k};
            image[PLACES + k] = (uint8_t)v;
            taken(entry, image, 0, 0, 0);
            image[WAITING] = (uint8_t)(k + 1);
            taken(entry, image, 0, 0, 0);
        }
}

/* Transfer Info of Data In (way 1) or Data Out (way 2), 100 left, the pointer at the Data register. So many bytes wait, the oldest in this
 * place: 80h, 81h .. In every other place stands unused. */
static void transferring(uint8_t *image, int way, int waiting, int oldest, uint8_t unused)
{
    memset(image, 0, PLACES);
    memset(image + PLACES, unused, FIFO);
    image[AM33C93A_COUNT_LOW] = 100;
    image[25] = AM33C93A_DATA;
    image[30] = 3;
    image[31] = 5;
    image[32] = (uint8_t)way;
    image[36] = (uint8_t)(1 + (way == 1 ? AM33C93A_DATA_IN : AM33C93A_DATA_OUT));
    image[WAITING] = (uint8_t)waiting;
    image[OLDEST] = (uint8_t)oldest;
    for (int i = 0; i < waiting; i++) image[PLACES + (oldest + i) % FIFO] = (uint8_t)(0x80 + i);
}

/* Where the waiting bytes stand, and what stands where none waits, is told to nobody: the call is answered as from the first place on, with 0
 * behind, moves the same bytes, and leaves the same bytes 0 to 40 and the same waiting bytes in their order. */
static void told_alike(int entry, int way, int waiting, int oldest, uint8_t unused)
{
    for (uint32_t a = 0; a < 2; a++) {
        uint8_t first[LENGTH], other[LENGTH], data[SLICE], other_data[SLICE];
        transferring(first, way, waiting, 0, 0);
        transferring(other, way, waiting, oldest, unused);
        for (int i = 0; i < SLICE; i++) data[i] = other_data[i] = (uint8_t)(0xC0 + i);
        uint32_t r = call(entry, first, LENGTH, a, 0x77, 0, data, SLICE), s = call(entry, other, LENGTH, a, 0x77, 0, other_data, SLICE);
        check(AM33C93A_ANSWER(s) != AM33C93A_BAD_NUMBER, "a byte in an unused place was refused", entry, oldest);
        check(r == s, "a place was told by the answer", entry, oldest);
        check(memcmp(data, other_data, SLICE) == 0, "a place was told by a lent byte", entry, oldest);
        check(memcmp(first, other, WAITING + 1) == 0, "a place was told by the image", entry, oldest);
        int same = 1;
        for (int i = 0; i < first[WAITING] % (FIFO + 1); i++)
            same &= first[PLACES + (first[OLDEST] + i) % FIFO] == other[PLACES + (other[OLDEST] + i) % FIFO];
        check(same, "another byte waits", entry, oldest);
    }
}

static void places(int entry)
{
    static const uint8_t unused[] = {0, 1, 0x5a, 0xff};
    any_byte_in_any_place(entry);
    for (int way = 1; way <= 2; way++)
        for (int waiting = 0; waiting <= FIFO; waiting++)
            for (int oldest = 0; oldest < FIFO; oldest++)
                for (int i = 0; i < 4; i++) told_alike(entry, way, waiting, oldest, unused[i]);
}

/* The form before this one had no byte 41: an image of it is refused by its length. With a 0 put in behind byte 40 it is taken. */
static void form_before(int entry)
{
    for (int waiting = 0; waiting <= FIFO; waiting++) {
        uint8_t image[LENGTH], before[LENGTH_BEFORE];
        transferring(image, 1, waiting, 0, 0);
        memcpy(before, image, OLDEST);
        memcpy(before + OLDEST, image + PLACES, FIFO);
        refused(entry, before, LENGTH_BEFORE, 0, 0, 0, "an image of 53 bytes was taken");
        taken(entry, image, 0, 0, 0);
    }
}

int main(void)
{
    uint8_t fresh[LENGTH + 8] = {0};
    static const uint32_t edge[] = {255, 256, 257, 65535, 65536, 0x7fffffff, 0x80000000u, 0xffffffffu};
    enum { EDGES = sizeof edge / sizeof edge[0] };

    check(am33c93a_image_length() == LENGTH, "length", (long)am33c93a_image_length(), LENGTH);
    for (int e = 0; e < ENTRIES; e++) {
        for (size_t n = 0; n <= LENGTH + 8; n++)
            if (n != LENGTH) refused(e, fresh, n, 0, 0, 0, "an image of another length was taken");
        check(call(e, NULL, 0, 0, 0, 0, NULL, 0) == AM33C93A_BAD_NUMBER, "a null image was taken", e, 0);
        all_bits_count(e, fresh);
        taken(e, fresh, 0, 0, 0);
        if (e == ENTRIES - 1) continue; /* am33c93a_fresh reads no image */
        for (size_t i = 0; i < sizeof ranges / sizeof ranges[0]; i++)
            for (int v = 0; v < 256; v++) {
                uint8_t image[LENGTH] = {0};
                image[ranges[i].at] = (uint8_t)v;
                if (v >= ranges[i].limit) refused(e, image, LENGTH, 0, 0, 0, "bytes that are no image were taken");
                else taken(e, image, 0, 0, 0);
            }
        activities(e);
        places(e);
        form_before(e);
    }
    for (int i = 0; i < EDGES; i++) {
        uint32_t v = edge[i];
        static const int byte_first[] = {3, 6};
        for (int k = 0; k < 2; k++) {
            if (v > 255) refused(byte_first[k], fresh, LENGTH, v, 0, 0, "an operand above 255 was taken");
            else taken(byte_first[k], fresh, v, 0, 0);
        }
        static const int marked[] = {0, 2, BLOCK};
        for (int k = 0; k < 3; k++) refused(marked[k], fresh, LENGTH, v, 0, 0, "a mark above 1 was taken");
        for (uint32_t mark = 0; mark < 2; mark++)
            for (int k = 0; k < 2; k++) {
                if (v > 255) refused(marked[k], fresh, LENGTH, mark, v, 0, "a byte above 255 was taken");
                else taken(marked[k], fresh, mark, v, 0);
            }
        refused(7, fresh, LENGTH, v, 0, 0, "a phase above 7 was taken");
        refused(7, fresh, LENGTH, 0, 0, v, "a parity above 1 was taken");
        if (v > 255) refused(7, fresh, LENGTH, 0, v, 0, "a byte above 255 was taken");
        else taken(7, fresh, 0, v, 0);
    }
    refused(7, fresh, LENGTH, 8, 0, 0, "phase 8 was taken");
    refused(7, fresh, LENGTH, 0, 0, 2, "parity 2 was taken");
    for (int k = 0; k < 3; k++) refused((int[]){0, 2, BLOCK}[k], fresh, LENGTH, 2, 0, 0, "mark 2 was taken");

    printf("refusals: %lu checks, %lu failed\n", checks, failures);
    return failures != 0;
}
