/* Sessions 1 to 9 of paper 01, some longer ones, and paper 02's Translate Address on a table of drives, run against the plain
 * model (bench/plain.c), or, compiled with -DLIBRARY, against the library. Prints one line for each failed expectation and one at
 * the end; exits with 1 on a failure.
 *
 *     gcc -O2 -std=c11 -Wall -Wextra -Werror -Iinclude -o plain_sessions tests/plain_sessions.c bench/plain.c
 *     gcc -O2 -std=c11 -Wall -Wextra -Werror -Iinclude -DLIBRARY -o sessions tests/plain_sessions.c libam33c93a.a */
#include <stdbool.h>
#include <stdint.h>
#include <stdio.h>
#include <string.h>
#include "am33c93a.h"
#include "../bench/plain.h"

#ifdef LIBRARY
static uint8_t state[AM33C93A_IMAGE_LENGTH];
#define STATE state, sizeof state
#define ENTRY(name) am33c93a_##name
#define WHO "library"
#else
static struct plain state;
#define STATE &state
#define ENTRY(name) plain_##name
#define WHO "plain"
#endif

static unsigned long checks, failures;

static void expect(const char *what, int line, uint32_t got, uint32_t answer, uint32_t value)
{
    checks++;
    if (got == (answer | value << 8)) return;
    failures++;
    printf("%s sessions: line %d, %s: answer %u value %02Xh, expected %u %02Xh\n", WHO, line, what, (unsigned)AM33C93A_ANSWER(got),
           (unsigned)AM33C93A_VALUE(got), (unsigned)answer, (unsigned)value);
}

#define IS(call, answer, value) expect(#call, __LINE__, call, answer, value)
#define DONE(call) IS(call, AM33C93A_DONE, 0)
#define HELD(call) IS(call, AM33C93A_HELD, 0)
#define REPORTED(call) IS(call, AM33C93A_REPORTED, 0)

static uint32_t auxiliary(void) { return ENTRY(auxiliary)(STATE); }
static uint32_t time_passes(uint32_t n) { return ENTRY(time)(STATE, n); }
static uint32_t answer(void) { return ENTRY(answer)(STATE); }
static uint32_t reselection(uint32_t lines) { return ENTRY(reselection)(STATE, lines); }
static uint32_t request(uint32_t phase, uint32_t byte) { return ENTRY(request)(STATE, phase, byte, 0); }
static uint32_t bad_parity(uint32_t phase, uint32_t byte) { return ENTRY(request)(STATE, phase, byte, 1); }
static uint32_t free_bus(void) { return ENTRY(free)(STATE); }
static uint32_t lines(void) { return ENTRY(lines)(STATE); }
static uint32_t block(uint32_t mark, uint8_t *data, size_t n) { return ENTRY(block)(STATE, mark, data, n); }
static uint32_t pointer(void) { return ENTRY(pointer)(STATE, 0, 0); }

static uint32_t read_at(uint32_t address)
{
    ENTRY(pointer)(STATE, 1, address);
    return ENTRY(register)(STATE, 0, 0);
}

static uint32_t write_at(uint32_t address, uint32_t byte)
{
    ENTRY(pointer)(STATE, 1, address);
    return ENTRY(register)(STATE, 1, byte);
}

static uint32_t command(uint32_t c) { return write_at(AM33C93A_COMMAND, c); }
static uint32_t data_read(void) { return read_at(AM33C93A_DATA); }
static uint32_t data_write(uint32_t byte) { return write_at(AM33C93A_DATA, byte); }

static void fresh(void)
{
    memset(&state, 0xA5, sizeof state);
    DONE(ENTRY(fresh)(STATE));
}

static void load_count(uint32_t n)
{
    DONE(write_at(AM33C93A_COUNT_HIGH, n >> 16));
    DONE(write_at(AM33C93A_COUNT_MIDDLE, n >> 8 & 255));
    DONE(write_at(AM33C93A_COUNT_LOW, n & 255));
}

static void counted(int line, uint32_t n)
{
    expect("count high", line, read_at(AM33C93A_COUNT_HIGH), AM33C93A_DONE, n >> 16);
    expect("count middle", line, read_at(AM33C93A_COUNT_MIDDLE), AM33C93A_DONE, n >> 8 & 255);
    expect("count low", line, read_at(AM33C93A_COUNT_LOW), AM33C93A_DONE, n & 255);
}

/* An interrupt with this code is pending, and nothing else in auxiliary status but these bits; 17h is read. */
static void interrupted(int line, uint32_t code, uint32_t others)
{
    expect("auxiliary status", line, auxiliary(), AM33C93A_DONE, AM33C93A_AUX_INT | others);
    expect("code", line, read_at(AM33C93A_SCSI_STATUS), AM33C93A_DONE, code);
    expect("auxiliary status", line, auxiliary(), AM33C93A_DONE, others);
}
#define CODE(code) interrupted(__LINE__, code, 0)
#define COUNT(n) counted(__LINE__, n)

/* Connected after Select without ATN, this phase reported. */
static void connected_in(uint32_t phase)
{
    fresh();
    DONE(command(AM33C93A_SELECT));
    DONE(answer());
    CODE(0x11);
    REPORTED(request(phase, 0));
    CODE(0x88 + phase);
}

static void reset_as(uint32_t identity, uint32_t source)
{
    fresh();
    DONE(write_at(AM33C93A_OWN_ID, identity));
    DONE(command(AM33C93A_RESET));
    CODE(0x00);
    DONE(write_at(AM33C93A_SOURCE_ID, source));
}

static void session_1(void)
{
    fresh();
    DONE(write_at(AM33C93A_TIMEOUT, 2));
    DONE(command(0x08));
    DONE(time_passes(1));
    DONE(answer());
    IS(lines(), 0, AM33C93A_LINES_CONNECTED | AM33C93A_LINES_ATN);
    IS(request(6, 0), 0, 0x80);
    IS(lines(), 0, AM33C93A_LINES_CONNECTED);
    for (int i = 0; i < 6; i++) DONE(request(2, 0x55));
    IS(request(3, 2), 0, 2);
    DONE(request(7, 0));
    IS(auxiliary(), 0, 0x80);
    HELD(free_bus());
    IS(read_at(AM33C93A_SCSI_STATUS), 0, 0x16);
    IS(read_at(AM33C93A_TARGET_LUN), 0, 2);
    IS(read_at(AM33C93A_COMMAND_PHASE), 0, 0x60);
    DONE(free_bus());
    CODE(0x85);
}

static void session_2(void)
{
    fresh();
    DONE(write_at(AM33C93A_TIMEOUT, 2));
    DONE(command(0x07));
    DONE(time_passes(1));
    IS(auxiliary(), 0, AM33C93A_AUX_BSY);
    DONE(time_passes(1));
    CODE(0x42);
    fresh();
    DONE(command(0x07));
    DONE(time_passes(255));
    DONE(time_passes(255));
    IS(auxiliary(), 0, AM33C93A_AUX_BSY);
    IS(lines(), 0, AM33C93A_LINES_SELECTING);
}

static void session_3(void)
{
    connected_in(0);
    load_count(13);
    DONE(command(0x20));
    for (uint32_t i = 0; i < 12; i++) DONE(data_write(i));
    IS(data_write(12), 7, 0xff);
    connected_in(0);
    load_count(5);
    DONE(command(0x20));
    for (uint32_t i = 0; i < 5; i++) DONE(data_write(i));
    IS(data_write(5), 7, 0xff);
}

static void session_4(void)
{
    connected_in(1);
    load_count(13);
    DONE(command(0x20));
    for (uint32_t i = 0; i < 12; i++) IS(request(1, i), 0, i);
    HELD(request(1, 12));
    IS(data_read(), 0, 0);
    IS(request(1, 12), 0, 12);
}

static void session_5(void)
{
    connected_in(0);
    load_count(5);
    DONE(command(0x20));
    for (uint32_t i = 0; i < 5; i++) DONE(data_write(i));
    IS(request(0, 0), 0, 0);
    IS(request(0, 0), 0, 1);
    REPORTED(request(3, 0));
    CODE(0x4B);
    COUNT(3);
}

static void session_6(void)
{
    reset_as(7, 0x80);
    DONE(reselection(0x88));
    CODE(0x80);
    IS(read_at(AM33C93A_SOURCE_ID), 0, 0x8B);
    reset_as(7, 0x80);
    DONE(reselection(0x80));
    CODE(0x80);
    IS(read_at(AM33C93A_SOURCE_ID), 0, 0x80);
    reset_as(7, 0x80);
    IS(reselection(0x98), 6, 0);
    IS(reselection(0x08), 6, 0);
}

static void session_7(void)
{
    fresh();
    IS(read_at(0xff), 4, 0xff);
    IS(pointer(), 0, 0x00);
    IS(read_at(AM33C93A_DATA), 7, 0xff);
    IS(pointer(), 0, 0x19);
    IS(read_at(0x1f), 4, 0xff);
    IS(pointer(), 0, 0x1f);
    IS(read_at(0x1e), 4, 0xff);
    IS(pointer(), 0, 0x1f);
}

static void session_8(void)
{
    fresh();
    IS(request(8, 0), 3, 0);
    DONE(command(0x00));
    IS(command(0x20), 5, 0);
    IS(auxiliary(), 0, 0xC0);
    interrupted(__LINE__, 0x00, AM33C93A_AUX_LCI);
}

static void session_9(void)
{
    connected_in(1);
    load_count(20);
    DONE(command(0x20));
    for (uint32_t i = 0; i < 3; i++) IS(request(1, 0x31 + i), 0, 0x31 + i);
    DONE(command(AM33C93A_ABORT));
    HELD(request(1, 0));
    HELD(free_bus());
    DONE(time_passes(255));
    IS(command(AM33C93A_ABORT), 5, 0);
    for (uint32_t i = 0; i < 3; i++) {
        IS(auxiliary(), 0, AM33C93A_AUX_LCI | AM33C93A_AUX_BSY | AM33C93A_AUX_DBR);
        IS(data_read(), 0, 0x31 + i);
    }
    interrupted(__LINE__, 0x29, AM33C93A_AUX_LCI);
    COUNT(17);
    HELD(request(1, 0));
}

/* Connected by 08 with our identity 7, Target 3, LUN 5, ER; all six command bytes have crossed. */
static void commanded(uint32_t count, uint32_t control)
{
    reset_as(7, 0x80);
    DONE(write_at(AM33C93A_CONTROL, control));
    DONE(write_at(AM33C93A_DESTINATION_ID, 3));
    DONE(write_at(AM33C93A_TARGET_LUN, 5));
    for (uint32_t i = 0; i < 6; i++) DONE(write_at(AM33C93A_CDB_1 + i, i));
    load_count(count);
    DONE(command(0x08));
    DONE(answer());
    IS(request(6, 0), 0, 0xC5);
    for (uint32_t i = 0; i < 6; i++) IS(request(2, 0), 0, i);
}

/* A whole write of 20 bytes that disconnects after 4 of them. */
static void writes_and_disconnects(void)
{
    uint8_t data[20], back[20] = {0};
    for (unsigned i = 0; i < sizeof data; i++) data[i] = (uint8_t)(0x40 + i);
    commanded(20, 0);
    IS(block(1, data, 20), 0, 0);
    REPORTED(request(0, 0));
    IS(auxiliary(), 0, AM33C93A_AUX_BSY | AM33C93A_AUX_DBR);
    IS(block(1, data, 20), 0, 12);
    for (uint32_t i = 0; i < 4; i++) IS(request(0, 0), 0, 0x40 + i);
    IS(request(7, 4), 0, 4);
    IS(block(1, data + 12, 3), 0, 3);
    DONE(free_bus());
    IS(lines(), 0, 0x703 | AM33C93A_LINES_WAITING);
    IS(auxiliary(), 0, AM33C93A_AUX_BSY | AM33C93A_AUX_DBR);
    IS(reselection(0x04), 6, 0);
    DONE(reselection(0x88));
    IS(request(7, 0x85), 0, 0x85);
    for (uint32_t i = 4; i < 15; i++) IS(request(0, 0), 0, 0x40 + i);
    HELD(request(0, 0));
    IS(block(1, data + 15, 5), 0, 5);
    IS(block(0, back, 20), 0, 0);
    IS(block(1, data, 20), 0, 0);
    for (uint32_t i = 15; i < 20; i++) IS(request(0, 0), 0, 0x40 + i);
    IS(request(3, 0x08), 0, 0x08);
    DONE(request(7, 0));
    CODE(0x16);
    COUNT(0);
    IS(read_at(AM33C93A_COMMAND_PHASE), 0, 0x60);
    IS(read_at(AM33C93A_TARGET_LUN), 0, 0x08);
}

/* A read of 4 bytes: a Free at 42h with two bytes unread waits only after they are read; 00 with two unread ends after them. */
static void reads_and_disconnects(void)
{
    uint8_t data[8];
    commanded(4, 0);
    IS(request(1, 0x11), 0, 0x11);
    IS(request(1, 0x12), 0, 0x12);
    IS(request(7, 4), 0, 4);
    DONE(free_bus());
    IS(lines(), 0, 0x703);
    HELD(reselection(0x88));
    IS(free_bus(), 2, 0);
    IS(command(AM33C93A_ABORT), 5, 0);
    IS(command(AM33C93A_SET_IDI), 5, 0);
    memset(data, 0xEE, sizeof data);
    IS(block(0, data, sizeof data), 0, 2);
    IS(data[0] | (uint32_t)data[1] << 8 | (uint32_t)data[2] << 16, 0x11, 0xEE12);
    IS(lines(), 0, 0x703 | AM33C93A_LINES_WAITING);
    DONE(reselection(0x88));
    REPORTED(request(7, 0x84)); /* another LUN's Identify */
    interrupted(__LINE__, 0x4F, AM33C93A_AUX_LCI);
    IS(read_at(AM33C93A_COMMAND_PHASE), 0, 0x44);
    DONE(command(0x08));
    IS(request(7, 0x85), 0, 0x85);
    IS(request(1, 0x13), 0, 0x13);
    IS(request(1, 0x14), 0, 0x14);
    IS(request(3, 0x00), 0, 0x00);
    DONE(request(7, 0));
    IS(auxiliary(), 0, AM33C93A_AUX_BSY | AM33C93A_AUX_DBR);
    IS(block(0, data, sizeof data), 0, 2);
    CODE(0x16);
}

/* Parity: taken without HSP, halted with it; the last Message In byte; a single byte under Transfer Info. */
static void parity_and_messages(void)
{
    connected_in(7);
    DONE(write_at(AM33C93A_CONTROL, 1));
    DONE(command(0xA0));
    REPORTED(bad_parity(7, 0x33));
    IS(lines(), 0, AM33C93A_LINES_CONNECTED | AM33C93A_LINES_ACK);
    interrupted(__LINE__, 0x43, AM33C93A_AUX_PE);
    COUNT(0);
    HELD(request(7, 0x33));
    DONE(command(AM33C93A_NEGATE_ACK));
    REPORTED(request(7, 0x33));
    CODE(0x8F);
    DONE(write_at(AM33C93A_CONTROL, 0));
    DONE(command(0xA0));
    IS(bad_parity(7, 0x33), 0, 0x33);
    IS(lines(), 0, AM33C93A_LINES_CONNECTED | AM33C93A_LINES_ACK);
    IS(data_read(), 0, 0x33);
    interrupted(__LINE__, 0x20, AM33C93A_AUX_PE);
    DONE(command(0x20)); /* ACK is held: 40h, which clears PE */
    CODE(0x40);
    commanded(8, 0);
    IS(request(1, 0x77), 0, 0x77);
    IS(request(7, 2), 0, 2);
    IS(data_read(), 0, 0x77);
    CODE(0x21);
    COUNT(7);
    DONE(command(0x08)); /* resume at 41h */
    REPORTED(request(0, 0));
    DONE(command(AM33C93A_ABORT));
    CODE(0x28);
    COUNT(7);
}

/* IDI, the resume's limits, Free in the middle. */
static void other_ends(void)
{
    commanded(0, 4);
    IS(request(7, 4), 0, 4);
    DONE(free_bus());
    CODE(0x85);
    IS(read_at(AM33C93A_COMMAND_PHASE), 0, 0x43);
    commanded(0, 0);
    REPORTED(request(1, 0));
    CODE(0x49);
    DONE(command(0x08)); /* 36h is no place to resume */
    CODE(0x40);
    DONE(write_at(AM33C93A_COMMAND_PHASE, 0x60));
    DONE(command(0x08));
    CODE(0x16);
    commanded(3, 0);
    DONE(free_bus());
    CODE(0x41);
    fresh();
    DONE(write_at(AM33C93A_CDB_1, 0x40)); /* group 2 */
    DONE(command(0x09));
    CODE(0x40);
    IS(lines(), 0, 0);
    commanded(3, 0);
    DONE(command(AM33C93A_DISCONNECT));
    IS(auxiliary(), 0, 0);
    IS(lines(), 0, 0x703);
}

/* Translate Address (paper 02, Req 01): registers 03, 04, 05/06, 0Ch, 0D/0Eh and 07 to 0Ah, the code, and with 15h the place. */
static const struct drive {
    uint32_t sectors, heads, cylinders, spares, per_cylinder, address, code, cylinder, head, sector;
} drives[] = {
    /* Without spares. 0D/0Eh are not looked at. */
    {17, 4, 615, 0, 0xffff, 0, 0x15, 0, 0, 0},
    {17, 4, 615, 0, 0xffff, 16, 0x15, 0, 0, 16},
    {17, 4, 615, 0, 0, 17, 0x15, 0, 1, 0},
    {17, 4, 615, 0, 0, 67, 0x15, 0, 3, 16},
    {17, 4, 615, 0, 1, 68, 0x15, 1, 0, 0},
    {17, 4, 615, 0, 66, 12345, 0x15, 181, 2, 3},
    {17, 4, 615, 0, 0, 41819, 0x15, 614, 3, 16},
    {17, 4, 615, 0, 0, 41820, 0x45, 0, 0, 0},
    {17, 16, 4097, 0, 0, 1114383, 0x15, 4096, 15, 16},
    {255, 255, 65535, 0, 0, 4261413374u, 0x15, 65534, 254, 254},
    {255, 255, 65535, 0, 0, 4261413375u, 0x45, 0, 0, 0},
    {255, 255, 65535, 0, 0, 4294967295u, 0x45, 0, 0, 0},
    /* A cylinder is compared whole: 65536 is not 0. */
    {1, 1, 65535, 0, 0, 65534, 0x15, 65534, 0, 0},
    {1, 1, 65535, 0, 0, 65535, 0x45, 0, 0, 0},
    {1, 1, 65535, 0, 0, 65536, 0x45, 0, 0, 0},
    /* A total of 0 is none. */
    {0, 4, 615, 0, 68, 0, 0x45, 0, 0, 0},
    {17, 0, 615, 0, 68, 0, 0x45, 0, 0, 0},
    {17, 4, 0, 0, 68, 0, 0x45, 0, 0, 0},
    /* With 2 spares in each cylinder. */
    {17, 4, 615, 2, 66, 65, 0x15, 0, 3, 14},
    {17, 4, 615, 2, 66, 66, 0x15, 1, 0, 0},
    {17, 4, 615, 2, 66, 40589, 0x15, 614, 3, 14},
    {17, 4, 615, 2, 66, 40590, 0x45, 0, 0, 0},
    /* 0D/0Eh are believed, also where they are sectors times heads, or more. */
    {17, 4, 615, 2, 68, 67, 0x15, 0, 3, 16},
    {17, 4, 615, 2, 70, 67, 0x15, 0, 3, 16},
    {17, 4, 615, 2, 70, 68, 0x45, 0, 0, 0},
    {17, 4, 615, 2, 70, 70, 0x15, 1, 0, 0},
    /* A head is compared whole: 256 is not 0. */
    {1, 15, 4096, 1, 65535, 14, 0x15, 0, 14, 0},
    {1, 15, 4096, 1, 65535, 256, 0x45, 0, 0, 0},
    /* Each divisor is asked, and a total of 0 is none. */
    {17, 4, 615, 2, 0, 0, 0x45, 0, 0, 0},
    {0, 4, 615, 2, 66, 0, 0x45, 0, 0, 0},
    {17, 0, 615, 2, 66, 0, 0x45, 0, 0, 0},
    {17, 4, 0, 2, 66, 0, 0x45, 0, 0, 0},
    /* 4096 cylinders and 15 heads at most. */
    {17, 15, 4096, 1, 254, 1040383, 0x15, 4095, 14, 15},
    {17, 15, 4097, 1, 254, 0, 0x45, 0, 0, 0},
    {17, 16, 4096, 1, 271, 0, 0x45, 0, 0, 0},
};
enum { DRIVES = sizeof drives / sizeof drives[0] };

/* A number of so many bytes, the high one first, from this register on. */
static void load_at(uint32_t address, uint32_t number, uint32_t bytes)
{
    for (uint32_t i = 0; i < bytes; i++) DONE(write_at(address + i, number >> 8 * (bytes - 1 - i) & 255));
}

static void holds_at(const char *what, int line, uint32_t address, uint32_t number, uint32_t bytes)
{
    for (uint32_t i = 0; i < bytes; i++)
        expect(what, line, read_at(address + i), AM33C93A_DONE, number >> 8 * (bytes - 1 - i) & 255);
}
#define HOLDS(address, number, bytes) holds_at("register " #address, __LINE__, address, number, bytes)

static void load_drive(const struct drive *d)
{
    fresh();
    load_at(0x03, d->sectors, 1);
    load_at(0x04, d->heads, 1);
    load_at(0x05, d->cylinders, 2);
    load_at(0x07, d->address, 4);
    load_at(AM33C93A_SECTOR_NUMBER, 0xEE, 1);
    load_at(AM33C93A_HEAD_NUMBER, d->spares, 1);
    load_at(AM33C93A_CYLINDER_NUMBER, d->per_cylinder, 2);
}

/* The place stands at 0Bh to 0Eh, or what stood there before; the parameters stay. */
static void translates(const struct drive *d, uint32_t written)
{
    char what[40];
    bool found = d->code == 0x15;
    snprintf(what, sizeof what, "drive %u of the table", (unsigned)(d - drives));
    load_drive(d);
    expect(what, __LINE__, command(written), AM33C93A_DONE, 0);
    expect(what, __LINE__, auxiliary(), AM33C93A_DONE, AM33C93A_AUX_INT);
    expect(what, __LINE__, read_at(AM33C93A_SCSI_STATUS), AM33C93A_DONE, d->code);
    expect(what, __LINE__, auxiliary(), AM33C93A_DONE, 0);
    expect(what, __LINE__, read_at(AM33C93A_COMMAND), AM33C93A_DONE, written);
    holds_at(what, __LINE__, AM33C93A_SECTOR_NUMBER, found ? d->sector : 0xEE, 1);
    holds_at(what, __LINE__, AM33C93A_HEAD_NUMBER, found ? d->head : d->spares, 1);
    holds_at(what, __LINE__, AM33C93A_CYLINDER_NUMBER, found ? d->cylinder : d->per_cylinder, 2);
    holds_at(what, __LINE__, 0x03, d->sectors << 24 | d->heads << 16 | d->cylinders, 4);
    holds_at(what, __LINE__, 0x07, d->address, 4);
}

/* Where the command is taken, and a second one without a load: the head is taken for spares, the cylinder for 0D/0Eh. */
static void translates_when_disconnected(void)
{
    static const struct drive d = {.sectors = 17, .heads = 4, .cylinders = 615, .address = 12345};
    load_drive(&d);
    DONE(command(AM33C93A_TRANSLATE_ADDRESS)); /* 12345 = 181 * 68 + 2 * 17 + 3 */
    IS(command(AM33C93A_TRANSLATE_ADDRESS), 5, 0);
    interrupted(__LINE__, 0x15, AM33C93A_AUX_LCI);
    DONE(command(AM33C93A_TRANSLATE_ADDRESS)); /* 12345 = 68 * 181 + 2 * 17 + 3 */
    CODE(0x15);
    HOLDS(AM33C93A_SECTOR_NUMBER, 3, 1);
    HOLDS(AM33C93A_HEAD_NUMBER, 2, 1);
    HOLDS(AM33C93A_CYLINDER_NUMBER, 68, 2);
    load_drive(&d);
    DONE(command(AM33C93A_SELECT));
    IS(command(AM33C93A_TRANSLATE_ADDRESS), 5, 0);
    DONE(answer());
    interrupted(__LINE__, 0x11, AM33C93A_AUX_LCI);
    DONE(command(AM33C93A_TRANSLATE_ADDRESS));
    CODE(0x40);
    HOLDS(AM33C93A_SECTOR_NUMBER, 0xEE, 1);
    DONE(command(AM33C93A_DISCONNECT));
    DONE(command(AM33C93A_TRANSLATE_ADDRESS));
    CODE(0x15);
    HOLDS(AM33C93A_CYLINDER_NUMBER, 181, 2);
}

static void translates_addresses(void)
{
    for (int i = 0; i < DRIVES; i++) {
        translates(&drives[i], AM33C93A_TRANSLATE_ADDRESS);
        translates(&drives[i], AM33C93A_TRANSLATE_ADDRESS | AM33C93A_SINGLE_BYTE);
    }
    translates_when_disconnected();
}

int main(void)
{
    session_1();
    session_2();
    session_3();
    session_4();
    session_5();
    session_6();
    session_7();
    session_8();
    session_9();
    writes_and_disconnects();
    reads_and_disconnects();
    parity_and_messages();
    other_ends();
    translates_addresses();
    printf("%s sessions: %lu checks, %lu failed\n", WHO, checks, failures);
    return failures != 0;
}
