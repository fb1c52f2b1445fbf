/* A small board: a host and a disk around the model of the controller.
 *
 * The disk answers as identity 3. The host sends it an INQUIRY for 36 bytes, first by one Select-And-Transfer, then phase by
 * phase with Transfer Info. Every line is one thing that happens; the two runs end with the same data and status.
 *
 * With --driver linux the host is one that works as Linux's wd33c93 driver does, and the board does for it what the controller of
 * the paper leaves to the board (docs/BOARD.md). */
#include <stdint.h>
#include <stdio.h>
#include <string.h>
#include "am33c93a.h"

enum { OWN = 7, DISK = 3, CDB = 6, WANTED = 48, HAVE = 36 };

static const uint8_t inquiry[CDB] = {0x12, 0, 0, 0, WANTED, 0};
static const char reply[HAVE + 1] = "\x00\x00\x02\x02\x1f\x00\x00\x00IMAGESETMONDZALAG DISK  1993";

static const char *const phases[8] = {"Data Out", "Data In", "Command", "Status", "Phase 4", "Phase 5", "Message Out", "Message In"};
static const char *const answers[9] = {"Done", "Held", "Out of place", "Bad number", "Blind", "Command ignored",
                                       "Reselection ignored", "No data now", "Reported"};

static uint8_t chip[AM33C93A_IMAGE_LENGTH];
static int linux_driver; /* the host is Linux's driver */

enum { AWAY, CALLED, CONNECTED };
static int disk = AWAY;
static int disk_is_ready_to_go; /* it has told its story, and frees the bus at its next look */

/* The chip as it is. */
static uint8_t chip_auxiliary(void) { return (uint8_t)AM33C93A_VALUE(am33c93a_auxiliary(chip, sizeof chip)); }

static uint8_t chip_get(uint8_t address)
{
    am33c93a_pointer(chip, sizeof chip, 1, address);
    return (uint8_t)AM33C93A_VALUE(am33c93a_register(chip, sizeof chip, 0, 0));
}

/* The code of an interrupt that waits, looked up in the image (docs/IMAGE.md): a read of the register would clear INT. */
static int waits_with(uint8_t code) { return (chip_auxiliary() & AM33C93A_AUX_INT) && chip[AM33C93A_SCSI_STATUS] == code; }

/* The host's side of the chip. For Linux's driver, which starts its next command while it serves 16h, 16h is kept back until the
 * disk is ready to go; the bus is freed as soon as the driver has read it, and the board reads the 85h itself. */
static uint8_t auxiliary(void)
{
    uint8_t aux = chip_auxiliary();
    if (linux_driver && !disk_is_ready_to_go && waits_with(AM33C93A_CODE_COMPLETE)) aux &= (uint8_t)~AM33C93A_AUX_INT;
    return aux;
}

static uint8_t get(uint8_t address)
{
    int completes = linux_driver && address == AM33C93A_SCSI_STATUS && waits_with(AM33C93A_CODE_COMPLETE);
    uint8_t byte = chip_get(address);
    if (completes) {
        am33c93a_free(chip, sizeof chip);
        printf("  board %02Xh is read: disk frees the bus, and the board reads the code %02Xh\n", byte, chip_get(AM33C93A_SCSI_STATUS));
        disk = AWAY;
    }
    return byte;
}

/* Linux's driver writes Source ID before each selection, and looks there later for who reselected it: only bits 7 to 4 are its own. */
static uint32_t put(uint8_t address, uint8_t byte)
{
    if (linux_driver && address == AM33C93A_SOURCE_ID) byte = (uint8_t)((byte & 0xf0) | (chip_get(AM33C93A_SOURCE_ID) & 0x0f));
    am33c93a_pointer(chip, sizeof chip, 1, address);
    return AM33C93A_ANSWER(am33c93a_register(chip, sizeof chip, 1, byte));
}

static void put_count(uint32_t n)
{
    put(AM33C93A_COUNT_HIGH, (uint8_t)(n >> 16));
    put(AM33C93A_COUNT_MIDDLE, (uint8_t)(n >> 8));
    put(AM33C93A_COUNT_LOW, (uint8_t)n);
}

/* The disk: a story of what it wants to move, told byte by byte; what is not taken is offered again. */
struct item {
    uint8_t phase, byte;
};

enum { LINGER = 2 }; /* looks until it goes, its story told; a host that waits for 85h need not wait for it */
enum { LEAVE = 8, COME_BACK = 9 }; /* beside the eight phases: it frees the bus for a while, it reselects us */

static struct item story[128];
static int told, length, linger;

static void tell(uint8_t phase, uint8_t byte) { story[length++] = (struct item){phase, byte}; }

static int comes_back, sends = HAVE; /* how it serves the next command */

static void disk_starts(void)
{
    told = length = 0;
    disk_is_ready_to_go = 0;
    linger = linux_driver ? LINGER : 0;
    tell(AM33C93A_MESSAGE_OUT, 0);
    for (int i = 0; i < CDB; i++) tell(AM33C93A_COMMAND_OUT, 0);
    if (comes_back) {
        tell(AM33C93A_MESSAGE_IN, 0x04); /* Disconnect */
        tell(LEAVE, 0);
        tell(COME_BACK, 0);
        tell(AM33C93A_MESSAGE_IN, 0x80); /* Identify, LUN 0 */
    }
    for (int i = 0; i < sends; i++) tell(AM33C93A_DATA_IN, (uint8_t)reply[i]);
    tell(AM33C93A_STATUS_IN, 0);
    tell(AM33C93A_MESSAGE_IN, 0);
}

static int last_answer = -1;
static uint8_t last_phase = 255;

/* It frees the bus; at the end of its story some looks later, as a disk does that has other things to do. */
static void disk_leaves(void)
{
    if (told == length && linger > 0) {
        if (linger-- == LINGER && waits_with(AM33C93A_CODE_COMPLETE)) printf("  board keeps the code 16h back: the disk is still there\n");
        return;
    }
    disk_is_ready_to_go = told == length;
    if (linux_driver && waits_with(AM33C93A_CODE_COMPLETE)) return; /* when the host has read the code (get, above) */
    uint32_t r = am33c93a_free(chip, sizeof chip);
    if ((int)AM33C93A_ANSWER(r) != last_answer || AM33C93A_ANSWER(r) == AM33C93A_DONE)
        printf("  bus   disk frees the bus: %s\n", answers[AM33C93A_ANSWER(r)]);
    last_answer = (int)AM33C93A_ANSWER(r);
    if (AM33C93A_ANSWER(r) != AM33C93A_DONE) return;
    if (told == length) disk = AWAY;
    else told++;
}

static void disk_comes_back(void)
{
    uint32_t r = am33c93a_reselection(chip, sizeof chip, 1u << OWN | 1u << DISK);
    printf("  bus   disk %d reselects us: %s\n", DISK, answers[AM33C93A_ANSWER(r)]);
    if (AM33C93A_ANSWER(r) == AM33C93A_DONE) told++;
}

/* One look of the disk at the bus. It says what happened where that differs from the last look. */
static void disk_turn(void)
{
    uint32_t lines = AM33C93A_VALUE(am33c93a_lines(chip, sizeof chip));
    if (disk == AWAY && (lines & AM33C93A_LINES_SELECTING) && (lines & AM33C93A_LINES_DESTINATION) == DISK) {
        printf("  bus   disk %d sees its identity on the lines\n", DISK);
        am33c93a_time(chip, sizeof chip, 1);
        disk_starts();
        disk = CALLED;
        return;
    }
    if (disk == CALLED) {
        uint32_t r = am33c93a_answer(chip, sizeof chip);
        printf("  bus   disk answers the selection: %s\n", answers[AM33C93A_ANSWER(r)]);
        disk = CONNECTED;
        return;
    }
    if (disk != CONNECTED) return;
    struct item x = story[told];
    if (told == length || x.phase == LEAVE) {
        disk_leaves();
        return;
    }
    if (x.phase == COME_BACK) {
        disk_comes_back();
        return;
    }
    uint32_t r = am33c93a_request(chip, sizeof chip, x.phase, x.byte, 0);
    int answer = (int)AM33C93A_ANSWER(r);
    if (answer == AM33C93A_DONE) {
        printf("  bus   %-11s %02Xh crosses\n", phases[x.phase], (unsigned)AM33C93A_VALUE(r));
        told++;
    } else if (answer != last_answer || x.phase != last_phase) {
        printf("  bus   %-11s asked for: %s\n", phases[x.phase], answers[answer]);
    }
    last_answer = answer;
    last_phase = x.phase;
}

static uint8_t got[WANTED];
static int have;

/* One look of the host at auxiliary status: it reads data, or waits for the interrupt. Returns 1 with a code. */
static int host_turn(uint8_t *code)
{
    uint8_t aux = auxiliary();
    if (aux & AM33C93A_AUX_INT) {
        *code = get(AM33C93A_SCSI_STATUS);
        printf("  host  interrupt, code %02Xh\n", *code);
        return 1;
    }
    if ((aux & AM33C93A_AUX_DBR) && have < WANTED) {
        uint8_t block[12];
        int moved = (int)AM33C93A_VALUE(am33c93a_block(chip, sizeof chip, 0, block, sizeof block));
        memcpy(got + have, block, (size_t)moved);
        have += moved;
        if (moved) printf("  host  reads %d data byte%s\n", moved, moved == 1 ? "" : "s");
    }
    return 0;
}

static uint8_t next_code(void)
{
    uint8_t code = 0;
    for (int turn = 0; turn < 100000; turn++) {
        disk_turn();
        if (host_turn(&code)) return code;
    }
    printf("  host  waited too long\n");
    return 0xff;
}

static void power_up(void)
{
    am33c93a_fresh(chip, sizeof chip);
    put(AM33C93A_OWN_ID, OWN);
    put(AM33C93A_COMMAND, AM33C93A_RESET);
    get(AM33C93A_SCSI_STATUS);
    put(AM33C93A_TIMEOUT, 31);
    put(AM33C93A_DESTINATION_ID, DISK);
    disk = AWAY;
    last_answer = -1;
    last_phase = 255;
    have = 0;
}

static uint8_t by_select_and_transfer(void)
{
    power_up();
    for (int i = 0; i < CDB; i++) put((uint8_t)(AM33C93A_CDB_1 + i), inquiry[i]);
    put(AM33C93A_TARGET_LUN, 0);
    put_count(WANTED);
    printf("  host  Select-And-Transfer with ATN, count %d\n", WANTED);
    put(AM33C93A_COMMAND, AM33C93A_SELECT_TRANSFER_WITH_ATN);
    next_code();
    uint8_t status = get(AM33C93A_TARGET_LUN);
    next_code();
    return status;
}

static uint8_t by_single_phases(void)
{
    uint8_t status = 0xff;
    power_up();
    printf("  host  Select with ATN\n");
    put(AM33C93A_COMMAND, AM33C93A_SELECT_WITH_ATN);
    for (;;) {
        uint8_t code = next_code();
        if (code == AM33C93A_CODE_DISCONNECTED || code == 0xff) return status;
        if (code == AM33C93A_CODE_SELECTED) continue;
        if (code == AM33C93A_CODE_MESSAGE_IN) {
            printf("  host  Negate ACK\n");
            put(AM33C93A_COMMAND, AM33C93A_NEGATE_ACK);
            continue;
        }
        uint8_t phase = code & 7;
        uint32_t count = phase == AM33C93A_COMMAND_OUT ? CDB : phase == AM33C93A_DATA_IN ? WANTED : 1;
        printf("  host  Transfer Info, %s, count %u\n", phases[phase], (unsigned)count);
        put_count(count);
        put(AM33C93A_COMMAND, AM33C93A_TRANSFER_INFO);
        uint8_t identify = 0x80, byte;
        if (phase == AM33C93A_MESSAGE_OUT) am33c93a_block(chip, sizeof chip, 1, &identify, 1);
        if (phase == AM33C93A_COMMAND_OUT) am33c93a_block(chip, sizeof chip, 1, (uint8_t *)(uintptr_t)inquiry, CDB);
        if (phase == AM33C93A_STATUS_IN || phase == AM33C93A_MESSAGE_IN) {
            while (!(auxiliary() & AM33C93A_AUX_DBR)) disk_turn();
            am33c93a_block(chip, sizeof chip, 0, &byte, 1);
            if (phase == AM33C93A_STATUS_IN) status = byte;
            printf("  host  reads %02Xh\n", byte);
        }
    }
}

/* One command as Linux's driver starts it: Source ID first, the command last. */
static void linux_executes(const char *name, uint8_t opcode, uint32_t count)
{
    put(AM33C93A_SOURCE_ID, 0x80); /* ER: the disk may come back */
    put(AM33C93A_DESTINATION_ID, DISK);
    put(AM33C93A_TARGET_LUN, 0);
    put(AM33C93A_COMMAND_PHASE, 0);
    for (int i = 0; i < CDB; i++) put((uint8_t)(AM33C93A_CDB_1 + i), i == 0 ? opcode : i == 4 ? (uint8_t)count : 0);
    put_count(count);
    uint32_t answer = put(AM33C93A_COMMAND, AM33C93A_SELECT_TRANSFER_WITH_ATN);
    printf("  host  starts %s: %s\n", name, answers[answer]);
}

/* It reads one message by Transfer Info, and lets go of ACK. */
static uint8_t linux_takes_message(void)
{
    uint8_t byte = 0;
    put(AM33C93A_COMMAND, AM33C93A_TRANSFER_INFO | AM33C93A_SINGLE_BYTE);
    for (int turn = 0; turn < 1000 && !(auxiliary() & AM33C93A_AUX_DBR); turn++) disk_turn();
    am33c93a_block(chip, sizeof chip, 0, &byte, 1);
    next_code();
    put(AM33C93A_COMMAND, AM33C93A_NEGATE_ACK);
    return byte;
}

/* Two commands. The first disconnects, and comes back while the driver is on its way to the second. */
static int as_linux_does(void)
{
    linux_driver = 1;
    power_up();
    put(AM33C93A_CONTROL, 0x0c); /* IDI, and EDI, which has no effect here */
    comes_back = 1;
    linux_executes("INQUIRY", inquiry[0], WANTED);
    if (next_code() != AM33C93A_CODE_DISCONNECTED) return 1;
    comes_back = 0;
    sends = 0;
    disk_turn();
    linux_executes("TEST UNIT READY", 0, 0);
    if (next_code() != AM33C93A_CODE_RESELECTED) return 1;
    uint8_t who = get(AM33C93A_SOURCE_ID) & 7;
    printf("  host  reselected by %u; TEST UNIT READY has to wait\n", who);
    if (next_code() != AM33C93A_CODE_REQUESTED_PHASE + AM33C93A_MESSAGE_IN) return 1;
    printf("  host  reads the message %02Xh\n", linux_takes_message());
    printf("  host  resumes at 45h\n");
    put(AM33C93A_COMMAND_PHASE, 0x45);
    put_count(WANTED);
    put(AM33C93A_COMMAND, AM33C93A_SELECT_TRANSFER_WITH_ATN);
    if (next_code() != AM33C93A_CODE_COMPLETE) return 1;
    printf("  host  INQUIRY: status %02Xh, %d bytes\n", get(AM33C93A_TARGET_LUN), have);
    linux_executes("TEST UNIT READY", 0, 0); /* still serving 16h */
    if (next_code() != AM33C93A_CODE_COMPLETE) return 1;
    printf("  host  TEST UNIT READY: status %02Xh\n", get(AM33C93A_TARGET_LUN));
    printf("\nTwo commands, both complete; the disk that came back was %u\n", who);
    printf("The disk is: %.28s\n", (const char *)got + 8);
    return who != DISK || have != HAVE;
}

static int told_twice(void)
{
    uint8_t first[WANTED];
    printf("By Select-And-Transfer:\n");
    uint8_t status = by_select_and_transfer();
    int n = have;
    memcpy(first, got, sizeof first);
    printf("\nBy single phases:\n");
    uint8_t again = by_single_phases();
    int same = n == have && memcmp(first, got, (size_t)n) == 0 && status == again;
    printf("\n%d bytes, status %02Xh and %d bytes, status %02Xh: %s\n", n, status, have, again, same ? "the same" : "NOT the same");
    printf("The disk is: %.28s\n", (const char *)got + 8);
    return !same;
}

int main(int argc, char **argv)
{
    if (argc == 1) return told_twice();
    if (argc == 3 && !strcmp(argv[1], "--driver") && !strcmp(argv[2], "linux")) return as_linux_does();
    fprintf(stderr, "usage: board [--driver linux]\n");
    return 2;
}
