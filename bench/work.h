/* What bench.c measures and count.c counts, written once and included for each side. SIDE(name) is a side's own name, ENTRY(name) its
 * entry, STATE the operands that lend the state SIDE(state), COPY(i) those that lend a copy of it. Each piece of work returns a sum of
 * its results. WORK is never inlined, and SHARED always: instructions between the calls are then told from those inside them by name. */

static void SIDE(write_at)(uint32_t address, uint32_t byte)
{
    ENTRY(pointer)(STATE, 1, address);
    ENTRY(register)(STATE, 1, byte);
}

/* The states to begin in. */

static void SIDE(keep)(void)
{
    memcpy(&SIDE(saved), &SIDE(state), sizeof SIDE(state));
}

SHARED void SIDE(restore)(void)
{
    memcpy(&SIDE(state), &SIDE(saved), sizeof SIDE(state));
}

static void SIDE(from_fresh)(void)
{
    ENTRY(fresh)(STATE);
}

static void SIDE(from_fresh_at_data)(void)
{
    ENTRY(fresh)(STATE);
    ENTRY(pointer)(STATE, 1, AM33C93A_DATA);
}

static void SIDE(from_selecting)(void)
{
    ENTRY(fresh)(STATE);
    SIDE(write_at)(AM33C93A_TIMEOUT, 255);
    SIDE(write_at)(AM33C93A_COMMAND, AM33C93A_SELECT_TRANSFER_WITH_ATN);
    SIDE(keep)();
}

/* ER is set. */
static void SIDE(from_reselectable)(void)
{
    ENTRY(fresh)(STATE);
    SIDE(write_at)(AM33C93A_SOURCE_ID, 0x80);
    SIDE(keep)();
}

/* A Target has answered: 11h, which nobody has read; the pointer is at 17h. */
static void SIDE(from_unread)(void)
{
    ENTRY(fresh)(STATE);
    SIDE(write_at)(AM33C93A_COMMAND, AM33C93A_SELECT);
    ENTRY(answer)(STATE);
    ENTRY(pointer)(STATE, 1, AM33C93A_SCSI_STATUS);
    SIDE(keep)();
}

static void SIDE(from_connected)(void)
{
    SIDE(from_unread)();
    ENTRY(register)(STATE, 0, 0);
    SIDE(keep)();
}

/* Transfer Info of this phase, count FFFFFFh. */
static void SIDE(transfer)(uint32_t phase)
{
    SIDE(from_connected)();
    ENTRY(request)(STATE, phase, 0, 0);
    ENTRY(pointer)(STATE, 1, AM33C93A_SCSI_STATUS);
    ENTRY(register)(STATE, 0, 0);
    for (uint32_t i = AM33C93A_COUNT_HIGH; i <= AM33C93A_COUNT_LOW; i++) SIDE(write_at)(i, 0xff);
    SIDE(write_at)(AM33C93A_COMMAND, AM33C93A_TRANSFER_INFO);
    SIDE(keep)();
}

static void SIDE(from_in)(void)
{
    SIDE(transfer)(AM33C93A_DATA_IN);
}

static void SIDE(from_out)(void)
{
    SIDE(transfer)(AM33C93A_DATA_OUT);
}

/* The same, the pointer at the Data register. */

static void SIDE(from_in_at_data)(void)
{
    SIDE(transfer)(AM33C93A_DATA_IN);
    ENTRY(pointer)(STATE, 1, AM33C93A_DATA);
    SIDE(keep)();
}

static void SIDE(from_out_at_data)(void)
{
    SIDE(transfer)(AM33C93A_DATA_OUT);
    ENTRY(pointer)(STATE, 1, AM33C93A_DATA);
    SIDE(keep)();
}

static void SIDE(from_full)(void)
{
    SIDE(transfer)(AM33C93A_DATA_IN);
    for (uint32_t i = 0; i < 12; i++) ENTRY(request)(STATE, AM33C93A_DATA_IN, 0x30 + i, 0);
    SIDE(keep)();
}

/* Six bytes have gone through: the FIFO's first byte stands in place 6, and six of twelve go over the end (docs/IMAGE.md). */

static void SIDE(from_full_over_the_end)(void)
{
    SIDE(transfer)(AM33C93A_DATA_IN);
    ENTRY(pointer)(STATE, 1, AM33C93A_DATA);
    for (uint32_t i = 0; i < 6 + 12; i++) {
        ENTRY(request)(STATE, AM33C93A_DATA_IN, 0x30 + i, 0);
        if (i < 6) ENTRY(register)(STATE, 0, 0);
    }
    SIDE(keep)();
}

static void SIDE(from_out_over_the_end)(void)
{
    SIDE(transfer)(AM33C93A_DATA_OUT);
    ENTRY(pointer)(STATE, 1, AM33C93A_DATA);
    for (uint32_t i = 0; i < 6; i++) {
        ENTRY(register)(STATE, 1, 0x30 + i);
        ENTRY(request)(STATE, AM33C93A_DATA_OUT, 0, 0);
    }
    SIDE(keep)();
}

/* The work. */

WORK SIDE(pointer_set)(long n)
{
    uint32_t sum = 0;
    for (long i = 0; i < n; i++) sum += ENTRY(pointer)(STATE, 1, (uint32_t)i & 0xff);
    return sum;
}

WORK SIDE(auxiliary_read)(long n)
{
    uint32_t sum = 0;
    for (long i = 0; i < n; i++) sum += ENTRY(auxiliary)(STATE);
    return sum;
}

/* Registers 00 to 16h in turn; the pointer is put back to 00 in the state itself. */
SHARED uint32_t SIDE(registers)(long n, uint32_t mark)
{
    uint32_t sum = 0, at = 0;
    for (long i = 0; i < n; i++) {
        if (at == 0) SIDE(at_pointer) = 0;
        at = at < 0x16 ? at + 1 : 0;
        sum += ENTRY(register)(STATE, mark, (uint32_t)i & 0xff);
    }
    return sum;
}

WORK SIDE(register_read)(long n)
{
    return SIDE(registers)(n, 0);
}

WORK SIDE(register_write)(long n)
{
    return SIDE(registers)(n, 1);
}

WORK SIDE(polled_in)(long n)
{
    uint32_t sum = 0;
    for (long i = 0; i < n; i++) {
        if ((i & 0xfffff) == 0) SIDE(restore)(); /* before the count is used up */
        sum += ENTRY(request)(STATE, AM33C93A_DATA_IN, (uint32_t)i & 0xff, 0);
        sum += ENTRY(auxiliary)(STATE);
        sum += ENTRY(pointer)(STATE, 1, AM33C93A_DATA);
        sum += ENTRY(register)(STATE, 0, 0);
    }
    return sum;
}

WORK SIDE(polled_out)(long n)
{
    uint32_t sum = 0;
    for (long i = 0; i < n; i++) {
        if ((i & 0xfffff) == 0) SIDE(restore)();
        sum += ENTRY(auxiliary)(STATE);
        sum += ENTRY(pointer)(STATE, 1, AM33C93A_DATA);
        sum += ENTRY(register)(STATE, 1, (uint32_t)i & 0xff);
        sum += ENTRY(request)(STATE, AM33C93A_DATA_OUT, 0, 0);
    }
    return sum;
}

/* A Request and the data access that it makes due; the pointer stays at 19h. */
WORK SIDE(request_and_read)(long n)
{
    uint32_t sum = 0;
    for (long i = 0; i < n; i++) {
        if ((i & 0xfffff) == 0) SIDE(restore)();
        sum += ENTRY(request)(STATE, AM33C93A_DATA_IN, (uint32_t)i & 0xff, 0);
        sum += ENTRY(register)(STATE, 0, 0);
    }
    return sum;
}

WORK SIDE(write_and_request)(long n)
{
    uint32_t sum = 0;
    for (long i = 0; i < n; i++) {
        if ((i & 0xfffff) == 0) SIDE(restore)();
        sum += ENTRY(register)(STATE, 1, (uint32_t)i & 0xff);
        sum += ENTRY(request)(STATE, AM33C93A_DATA_OUT, 0, 0);
    }
    return sum;
}

WORK SIDE(time_stands)(long n)
{
    uint32_t sum = 0;
    for (long i = 0; i < n; i++) sum += ENTRY(time)(STATE, 0);
    return sum;
}

/* Calls that change nothing. */

SHARED uint32_t SIDE(requests)(long n, uint32_t phase)
{
    uint32_t sum = 0;
    for (long i = 0; i < n; i++) sum += ENTRY(request)(STATE, phase, (uint32_t)i & 0xff, 0);
    return sum;
}

WORK SIDE(request_in)(long n) { return SIDE(requests)(n, AM33C93A_DATA_IN); }
WORK SIDE(request_out)(long n) { return SIDE(requests)(n, AM33C93A_DATA_OUT); }

WORK SIDE(read_at_data)(long n)
{
    uint32_t sum = 0;
    for (long i = 0; i < n; i++) sum += ENTRY(register)(STATE, 0, 0);
    return sum;
}

/* All copies are restored, then each is used once: a state just written by memcpy would be slow to read. */
SHARED void SIDE(restore_copies)(void)
{
    for (int i = 0; i < COPIES; i++) memcpy(&SIDE(copies)[i], &SIDE(saved), sizeof SIDE(saved));
    __asm__ volatile("" ::: "memory");
}

WORK SIDE(answered)(long n)
{
    uint32_t sum = 0;
    for (long k = 0; k < n; k += COPIES) {
        SIDE(restore_copies)();
        for (int i = 0; i < COPIES; i++) sum += ENTRY(answer)(COPY(i));
    }
    return sum;
}

WORK SIDE(time_passes)(long n)
{
    uint32_t sum = 0;
    for (long k = 0; k < n; k += COPIES) {
        SIDE(restore_copies)();
        for (int i = 0; i < COPIES; i++) sum += ENTRY(time)(COPY(i), 1);
    }
    return sum;
}

/* By the Target with number 3; our own is 0. */
WORK SIDE(reselected)(long n)
{
    uint32_t sum = 0;
    for (long k = 0; k < n; k += COPIES) {
        SIDE(restore_copies)();
        for (int i = 0; i < COPIES; i++) sum += ENTRY(reselection)(COPY(i), 1 << 3 | 1 << 0);
    }
    return sum;
}

WORK SIDE(freed)(long n)
{
    uint32_t sum = 0;
    for (long k = 0; k < n; k += COPIES) {
        SIDE(restore_copies)();
        for (int i = 0; i < COPIES; i++) sum += ENTRY(free)(COPY(i));
    }
    return sum;
}

WORK SIDE(status_read)(long n)
{
    uint32_t sum = 0;
    for (long k = 0; k < n; k += COPIES) {
        SIDE(restore_copies)();
        for (int i = 0; i < COPIES; i++) sum += ENTRY(register)(COPY(i), 0, 0);
    }
    return sum;
}

WORK SIDE(reselection_ignored)(long n)
{
    uint32_t sum = 0;
    for (long i = 0; i < n; i++) sum += ENTRY(reselection)(STATE, (uint32_t)i & 0xff);
    return sum;
}

WORK SIDE(free_out_of_place)(long n)
{
    uint32_t sum = 0;
    for (long i = 0; i < n; i++) sum += ENTRY(free)(STATE);
    return sum;
}

WORK SIDE(lines_read)(long n)
{
    uint32_t sum = 0;
    for (long i = 0; i < n; i++) sum += ENTRY(lines)(STATE);
    return sum;
}

SHARED uint32_t SIDE(blocks)(long n, uint32_t mark, size_t length)
{
    uint32_t sum = 0;
    for (long k = 0; k < n; k += COPIES) {
        SIDE(restore_copies)();
        for (int i = 0; i < COPIES; i++) sum += ENTRY(block)(COPY(i), mark, slice, length);
    }
    return sum;
}

WORK SIDE(in_1)(long n) { return SIDE(blocks)(n, 0, 1); }
WORK SIDE(in_12)(long n) { return SIDE(blocks)(n, 0, 12); }
WORK SIDE(in_4096)(long n) { return SIDE(blocks)(n, 0, 4096); }
WORK SIDE(out_1)(long n) { return SIDE(blocks)(n, 1, 1); }
WORK SIDE(out_12)(long n) { return SIDE(blocks)(n, 1, 12); }
WORK SIDE(out_4096)(long n) { return SIDE(blocks)(n, 1, 4096); }

/* The restoring alone, to be subtracted. */
WORK SIDE(restoring)(long n)
{
    for (long k = 0; k < n; k += COPIES) SIDE(restore_copies)();
    return 0;
}

/* What the last copy is left with, for the trial. */

/* The last code. */
static uint32_t SIDE(status)(void)
{
    ENTRY(pointer)(COPY(COPIES - 1), 1, AM33C93A_SCSI_STATUS);
    return AM33C93A_VALUE(ENTRY(register)(COPY(COPIES - 1), 0, 0));
}

/* The bytes that wait. */

static uint32_t SIDE(left_in)(void)
{
    uint8_t left[12] = {0};
    return AM33C93A_VALUE(ENTRY(block)(COPY(COPIES - 1), 0, left, sizeof left)) + sum_of(left, sizeof left);
}

static uint32_t SIDE(left_out)(void)
{
    uint8_t left[12] = {0};
    uint32_t held = 0;
    for (uint32_t r; (r = ENTRY(request)(COPY(COPIES - 1), AM33C93A_DATA_OUT, 0, 0)) != AM33C93A_HELD;)
        left[held++] = (uint8_t)AM33C93A_VALUE(r);
    return held + sum_of(left, sizeof left);
}

/* So many bytes end to end: one Select-And-Transfer, from the selection to the freed bus. */

static void SIDE(commanded)(void)
{
    ENTRY(fresh)(STATE);
    SIDE(write_at)(AM33C93A_COUNT_HIGH, (uint32_t)(whole >> 16));
    SIDE(write_at)(AM33C93A_COUNT_MIDDLE, (uint32_t)(whole >> 8 & 0xff));
    SIDE(write_at)(AM33C93A_COUNT_LOW, (uint32_t)(whole & 0xff));
    SIDE(write_at)(AM33C93A_COMMAND, AM33C93A_SELECT_TRANSFER_WITH_ATN);
    ENTRY(answer)(STATE);
    ENTRY(request)(STATE, AM33C93A_MESSAGE_OUT, 0, 0);
    for (int i = 0; i < 6; i++) ENTRY(request)(STATE, AM33C93A_COMMAND_OUT, 0, 0);
    ENTRY(pointer)(STATE, 1, AM33C93A_DATA);
}

/* The two codes, 16h and 85h. */
static uint32_t SIDE(completed)(void)
{
    uint32_t sum = ENTRY(request)(STATE, AM33C93A_STATUS_IN, 0, 0) + ENTRY(request)(STATE, AM33C93A_MESSAGE_IN, 0, 0);
    ENTRY(pointer)(STATE, 1, AM33C93A_SCSI_STATUS);
    sum += ENTRY(register)(STATE, 0, 0);
    sum += ENTRY(free)(STATE);
    ENTRY(pointer)(STATE, 1, AM33C93A_SCSI_STATUS);
    return sum + ENTRY(register)(STATE, 0, 0);
}

SHARED int SIDE(is_due)(void)
{
    return AM33C93A_VALUE(ENTRY(auxiliary)(STATE)) & AM33C93A_AUX_DBR;
}

/* For each byte a Request, a look at auxiliary status and an access. */
WORK SIDE(whole_in_polled)(long n)
{
    uint32_t sum = 0;
    for (long k = 0; k < n; k++) {
        SIDE(commanded)();
        for (size_t i = 0; i < whole; i++) {
            ENTRY(request)(STATE, AM33C93A_DATA_IN, sent[i], 0);
            if (SIDE(is_due)()) received[i] = (uint8_t)AM33C93A_VALUE(ENTRY(register)(STATE, 0, 0));
        }
        sum += SIDE(completed)() + arrived();
    }
    return sum;
}

WORK SIDE(whole_out_polled)(long n)
{
    uint32_t sum = 0;
    for (long k = 0; k < n; k++) {
        SIDE(commanded)();
        sum += ENTRY(request)(STATE, AM33C93A_DATA_OUT, 0, 0);
        for (size_t i = 0; i < whole; i++) {
            if (SIDE(is_due)()) ENTRY(register)(STATE, 1, sent[i]);
            received[i] = (uint8_t)AM33C93A_VALUE(ENTRY(request)(STATE, AM33C93A_DATA_OUT, 0, 0));
        }
        sum += SIDE(completed)() + arrived();
    }
    return sum;
}

/* The Target asks until it is held; then the host looks once and lends what is left, at most 4096 bytes, of which 12 move. */
WORK SIDE(whole_in_until_held)(long n)
{
    uint32_t sum = 0;
    for (long k = 0; k < n; k++) {
        SIDE(commanded)();
        for (size_t i = 0, got = 0; got < whole;) {
            while (i < whole && ENTRY(request)(STATE, AM33C93A_DATA_IN, sent[i], 0) != AM33C93A_HELD) i++;
            if (SIDE(is_due)()) got += AM33C93A_VALUE(ENTRY(block)(STATE, 0, received + got, at_most(whole - got, 4096)));
        }
        sum += SIDE(completed)() + arrived();
    }
    return sum;
}

WORK SIDE(whole_out_until_held)(long n)
{
    uint32_t sum = 0;
    for (long k = 0; k < n; k++) {
        SIDE(commanded)();
        sum += ENTRY(request)(STATE, AM33C93A_DATA_OUT, 0, 0);
        for (size_t i = 0, put = 0; i < whole;) {
            if (SIDE(is_due)()) put += AM33C93A_VALUE(ENTRY(block)(STATE, 1, sent + put, at_most(whole - put, 4096)));
            for (uint32_t r; i < whole && (r = ENTRY(request)(STATE, AM33C93A_DATA_OUT, 0, 0)) != AM33C93A_HELD; i++)
                received[i] = (uint8_t)AM33C93A_VALUE(r);
        }
        sum += SIDE(completed)() + arrived();
    }
    return sum;
}

/* The Target knows that twelve bytes go: it asks twelve times, and the host moves a block. */

WORK SIDE(whole_in_by_twelve)(long n)
{
    uint32_t sum = 0;
    for (long k = 0; k < n; k++) {
        SIDE(commanded)();
        for (size_t i = 0; i < whole;) {
            size_t got = i;
            for (size_t end = at_most(i + 12, whole); i < end; i++) ENTRY(request)(STATE, AM33C93A_DATA_IN, sent[i], 0);
            ENTRY(block)(STATE, 0, received + got, at_most(whole - got, 4096));
        }
        sum += SIDE(completed)() + arrived();
    }
    return sum;
}

WORK SIDE(whole_out_by_twelve)(long n)
{
    uint32_t sum = 0;
    for (long k = 0; k < n; k++) {
        SIDE(commanded)();
        sum += ENTRY(request)(STATE, AM33C93A_DATA_OUT, 0, 0);
        for (size_t i = 0, put = 0; i < whole;) {
            put += AM33C93A_VALUE(ENTRY(block)(STATE, 1, sent + put, at_most(whole - put, 4096)));
            for (; i < put; i++) received[i] = (uint8_t)AM33C93A_VALUE(ENTRY(request)(STATE, AM33C93A_DATA_OUT, 0, 0));
        }
        sum += SIDE(completed)() + arrived();
    }
    return sum;
}
