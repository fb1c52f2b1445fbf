/* A plain C model of paper 01 and of paper 02's requests 01 and 14 (see plain.h). The words in quotes are the paper's; those
 * marked R are of the readings of its open places, 02 those of paper 02. INT is never asked for where a command runs: "no
 * sequence of calls from a fresh state has BSY and INT both set" (02, Req 14). */
#include "plain.h"
#include "am33c93a.h"

enum {
    ER = 0x80,          /* 16h bit 7 */
    SIV = 0x08,         /* 16h bit 3 */
    IDI = 0x04,         /* 01 bit 2 */
    HSP = 0x01,         /* 01 bit 0 */
    IDENTIFY = 0x80,    /* the Identify message, plus LUN, plus MAY_DISCONNECT */
    MAY_DISCONNECT = 0x40,
    COMMAND_COMPLETE = 0x00,
    SAVE_POINTER = 0x02,
    GOING = 0x04 /* the Disconnect message */
};

static inline uint32_t result(uint32_t answer, uint32_t value)
{
    return answer | value << 8;
}

static inline uint32_t done(uint32_t value)
{
    return result(AM33C93A_DONE, value);
}

/* The FIFO and the count. */

static inline bool busy(const struct plain *p)
{
    return p->running != PLAIN_NO_COMMAND;
}

/* "zero or single byte means one, and then 12h to 14h read 0": single is that byte. */
static inline uint32_t left(const struct plain *p)
{
    return p->count + p->single;
}

/* "It falls when a byte crosses", not when the host writes the FIFO. */
static inline void lower_count(struct plain *p)
{
    if (p->single) p->single = false;
    else p->count--;
}

/* "DBR out: fewer bytes written than loaded, and room." Written are those that crossed and those that wait. */
static inline uint32_t room(const struct plain *p)
{
    uint32_t limit = left(p) < PLAIN_FIFO ? left(p) : PLAIN_FIFO;
    return p->direction == PLAIN_OUT && limit > p->waiting ? limit - p->waiting : 0;
}

/* "DBR in: a byte waits." */
static inline uint32_t readable(const struct plain *p)
{
    return p->direction == PLAIN_IN ? p->waiting : 0;
}

/* The FIFO is a ring. */
static inline uint32_t next_place(uint32_t at)
{
    return at + 1 < PLAIN_FIFO ? at + 1 : 0;
}

static inline uint32_t end_place(const struct plain *p)
{
    uint32_t at = (uint32_t)p->first + p->waiting;
    return at < PLAIN_FIFO ? at : at - PLAIN_FIFO;
}

static inline void put(struct plain *p, uint8_t byte)
{
    p->fifo[end_place(p)] = byte;
    p->waiting++;
}

static inline uint8_t take(struct plain *p)
{
    uint8_t byte = p->fifo[p->first];
    p->first = (uint8_t)next_place(p->first);
    p->waiting--;
    return byte;
}

/* The command goes away, with its FIFO; 12h to 14h "hold what is left" (R). */
static void end_command(struct plain *p)
{
    p->running = PLAIN_NO_COMMAND;
    p->direction = PLAIN_NOT_FIXED;
    p->single = false;
    p->first = p->waiting = 0;
}

/* Interrupts and endings. */

/* "Codes 11h, 16h, 20h, 21h, 43h and 80h leave no phase reported; 18h+p, 28h+p and 48h+p report p." So does 88h+p; "40h keeps
 * the reported phase" (R); the others leave no connection. */
static void report_phase(struct plain *p, uint8_t code)
{
    switch (code & 0xf8) {
    case AM33C93A_CODE_TRANSFERRED_PHASE:
    case AM33C93A_CODE_ABORTED_PHASE:
    case AM33C93A_CODE_UNEXPECTED_PHASE:
    case AM33C93A_CODE_REQUESTED_PHASE: p->reported = code & 7; break;
    default:
        if (code != AM33C93A_CODE_INVALID) p->reported = PLAIN_NO_PHASE;
    }
}

/* "A raised code sets INT, ends the command and drops an outgoing FIFO." */
static void raise_code(struct plain *p, uint8_t code)
{
    end_command(p);
    p->pending = PLAIN_INT;
    p->code = code;
    report_phase(p, code);
}

/* "Ending with c": an incoming FIFO must be read out first, then c is raised. */
static void ending_with(struct plain *p, uint8_t code)
{
    if (readable(p) == 0) {
        raise_code(p, code);
        return;
    }
    p->pending = PLAIN_ENDING;
    p->ending_code = code;
}

/* The host has read the last waiting byte. */
static void read_out(struct plain *p)
{
    if (p->pending == PLAIN_ENDING) raise_code(p, p->ending_code);
    if (p->pending == PLAIN_READ_OUT) { /* "raises no code; then it waits for reselection" */
        p->pending = PLAIN_NOTHING;
        p->connection = PLAIN_WAITING;
    }
}

/* "byte not taken; interrupt raised or ending" */
static uint32_t reported(struct plain *p, uint8_t phase, uint8_t code)
{
    p->last = phase;
    ending_with(p, code);
    return result(AM33C93A_REPORTED, 0);
}

/* "Anything else is Reported, ending with 48h+p, and not taken" */
static uint32_t unexpected(struct plain *p, uint8_t phase)
{
    return reported(p, phase, AM33C93A_CODE_UNEXPECTED_PHASE + phase);
}

static inline uint32_t crossed(struct plain *p, uint8_t phase, uint8_t byte)
{
    p->last = phase;
    return done(byte);
}

/* Commands. */

/* "its top three bits give 6, 10 or 12 bytes for groups 0, 1, 5"; 0 for another group. */
static unsigned cdb_size(const struct plain *p)
{
    switch (p->stored[AM33C93A_CDB_1] >> 5) {
    case 0: return 6;
    case 1: return 10;
    case 5: return 12;
    default: return 0;
    }
}

/* "Reset is always taken: registers 01 to 16h become zero, 00 is kept and its low three bits become our identity, FIFO, ATN,
 * held ACK and PE clear, state Disconnected, code 00 with INT." It "keeps the pointer" and clears LCI (R). */
static void reset(struct plain *p, uint8_t command)
{
    uint8_t own_id = p->stored[AM33C93A_OWN_ID], pointer = p->pointer;
    plain_fresh(p);
    p->stored[AM33C93A_OWN_ID] = own_id;
    p->own = own_id & 7;
    p->pointer = pointer;
    p->command = command;
    raise_code(p, AM33C93A_CODE_RESET);
}

/* "When selecting or waiting for reselection it raises 22h, Disconnected. When connected it is ending with 28h plus the phase of
 * the last Request answered Done or Reported since connection, Message Out's 2Eh if none." */
static void abort_command(struct plain *p)
{
    if (p->connection == PLAIN_CONNECTED) {
        uint8_t phase = p->last == PLAIN_NO_PHASE ? AM33C93A_MESSAGE_OUT : p->last;
        ending_with(p, AM33C93A_CODE_ABORTED_PHASE + phase);
        return;
    }
    p->connection = PLAIN_DISCONNECTED;
    raise_code(p, AM33C93A_CODE_ABORTED);
}

/* "drops command, FIFO, ATN and held ACK; no interrupt". In an ending "unread bytes and the pending code are gone" (R). */
static void disconnect(struct plain *p)
{
    end_command(p);
    p->pending = PLAIN_NOTHING;
    p->connection = PLAIN_DISCONNECTED;
    p->atn = p->held_ack = false;
}

static void select_target(struct plain *p, uint8_t running)
{
    p->connection = PLAIN_SELECTING;
    p->running = running;
    p->elapsed = 0;
}

/* "Resume loads the count anew, forgets the direction [...]. It releases ACK except at 46h; 60h ends with 16h." */
static void resume(struct plain *p, uint8_t running)
{
    uint8_t at = p->stored[AM33C93A_COMMAND_PHASE];
    if (at != 0x46) p->held_ack = false;
    if (at == 0x60) raise_code(p, AM33C93A_CODE_COMPLETE);
    else p->running = running;
}

static void select_and_transfer(struct plain *p, uint8_t running)
{
    if (p->connection == PLAIN_CONNECTED) {
        resume(p, running);
        return;
    }
    p->stored[AM33C93A_COMMAND_PHASE] = 0x00; /* "From Disconnected, phase 00." */
    select_target(p, running);
}

/* "The count is loaded; zero or single byte means one, and then 12h to 14h read 0." */
static void transfer_info(struct plain *p, bool single_byte)
{
    p->running = PLAIN_TRANSFER_INFO;
    p->single = single_byte || p->count == 0;
    if (p->single) p->count = 0;
    p->direction = p->reported & 1 ? PLAIN_IN : PLAIN_OUT; /* "Odd p comes in." */
}

/* The largest disk that Translate Address takes with spares. */
enum { MOST_CYLINDERS = 4096, MOST_HEADS = 15 };

static uint32_t two_bytes(const struct plain *p, unsigned at)
{
    return (uint32_t)p->stored[at] << 8 | p->stored[at + 1];
}

/* "Code 45h, with those registers unchanged, when a divisor is zero, or the head or cylinder reached is not below its total; with
 * spares also when cylinders exceed 4096 or heads exceed 15." (02, Req 01) The quotients are compared whole (R). */
static bool find_place(const struct plain *p, uint32_t *sector, uint32_t *head, uint32_t *cylinder)
{
    uint32_t sectors = p->stored[AM33C93A_TOTAL_SECTORS], heads = p->stored[AM33C93A_TOTAL_HEADS];
    uint32_t cylinders = two_bytes(p, AM33C93A_TOTAL_CYLINDERS);
    uint32_t address = two_bytes(p, AM33C93A_LOGICAL_ADDRESS) << 16 | two_bytes(p, AM33C93A_LOGICAL_ADDRESS + 2);
    uint32_t sectors_of_cylinder = sectors * heads;
    if (p->stored[AM33C93A_HEAD_NUMBER] != 0) { /* "With 0Ch zero, [...] sectors times heads; otherwise they are 0D/0Eh" */
        if (cylinders > MOST_CYLINDERS || heads > MOST_HEADS) return false;
        sectors_of_cylinder = two_bytes(p, AM33C93A_CYLINDER_NUMBER);
    }
    if (sectors_of_cylinder == 0 || sectors == 0) return false;
    *cylinder = address / sectors_of_cylinder;
    *head = address % sectors_of_cylinder / sectors;
    *sector = address % sectors_of_cylinder % sectors;
    return *head < heads && *cylinder < cylinders;
}

/* "Sector (from 0) goes to 0Bh, head to 0Ch, cylinder to 0D/0Eh, code 15h." (02, Req 01) It is done inside the write (R). */
static void translate_address(struct plain *p)
{
    uint32_t sector, head, cylinder;
    if (!find_place(p, &sector, &head, &cylinder)) {
        raise_code(p, AM33C93A_CODE_OFF_DISK);
        return;
    }
    p->stored[AM33C93A_SECTOR_NUMBER] = (uint8_t)sector;
    p->stored[AM33C93A_HEAD_NUMBER] = (uint8_t)head;
    p->stored[AM33C93A_CYLINDER_NUMBER] = (uint8_t)(cylinder >> 8);
    p->stored[AM33C93A_CYLINDER_NUMBER + 1] = (uint8_t)cylinder;
    raise_code(p, AM33C93A_CODE_TRANSLATED);
}

static bool is_level_one(uint8_t code)
{
    return (code >= AM33C93A_ABORT && code <= AM33C93A_DISCONNECT) || code == AM33C93A_SET_IDI;
}

/* The phase registers a resume "accepts"; another group "raises 40h (house; on resume only at 10h, 20h, 30h)". */
static bool is_resumable(const struct plain *p)
{
    switch (p->stored[AM33C93A_COMMAND_PHASE]) {
    case 0x10:
    case 0x20:
    case 0x30: return cdb_size(p) != 0;
    case 0x41:
    case 0x42:
    case 0x44:
    case 0x45:
    case 0x46:
    case 0x50:
    case 0x60: return true;
    default: return false;
    }
}

/* Level II commands are asked about only with BSY clear; a code that is not here is "invalid or left-out". */
static bool is_valid(const struct plain *p, uint8_t code)
{
    bool connected = p->connection == PLAIN_CONNECTED;
    switch (code) {
    case AM33C93A_ABORT: return busy(p) && p->pending == PLAIN_NOTHING; /* "while BSY with no ending under way" */
    case AM33C93A_ASSERT_ATN:
    case AM33C93A_NEGATE_ACK:
    case AM33C93A_DISCONNECT: return connected;
    case AM33C93A_SET_IDI: return connected || p->connection == PLAIN_WAITING;
    case AM33C93A_SELECT_WITH_ATN:
    case AM33C93A_SELECT:
    case AM33C93A_TRANSLATE_ADDRESS: return p->connection == PLAIN_DISCONNECTED;
    case AM33C93A_SELECT_TRANSFER_WITH_ATN:
    case AM33C93A_SELECT_TRANSFER: return connected ? is_resumable(p) : cdb_size(p) != 0;
    case AM33C93A_TRANSFER_INFO: return connected && !p->held_ack && p->reported != PLAIN_NO_PHASE;
    default: return false;
    }
}

static void perform(struct plain *p, uint8_t command)
{
    switch (command & 0x7f) {
    case AM33C93A_ABORT: abort_command(p); break;
    case AM33C93A_ASSERT_ATN: p->atn = true; break;
    case AM33C93A_NEGATE_ACK: p->held_ack = false; break;
    case AM33C93A_DISCONNECT: disconnect(p); break;
    case AM33C93A_SELECT_WITH_ATN: select_target(p, PLAIN_SELECT_WITH_ATN); break;
    case AM33C93A_SELECT: select_target(p, PLAIN_SELECT); break;
    case AM33C93A_SELECT_TRANSFER_WITH_ATN: select_and_transfer(p, PLAIN_SELECT_TRANSFER_WITH_ATN); break;
    case AM33C93A_SELECT_TRANSFER: select_and_transfer(p, PLAIN_SELECT_TRANSFER); break;
    case AM33C93A_SET_IDI: p->stored[AM33C93A_CONTROL] |= IDI; break;
    case AM33C93A_TRANSLATE_ADDRESS: translate_address(p); break;
    case AM33C93A_TRANSFER_INFO: transfer_info(p, command & AM33C93A_SINGLE_BYTE); break;
    }
}

static uint32_t ignored(struct plain *p)
{
    p->lci = true;
    return result(AM33C93A_COMMAND_IGNORED, 0);
}

/* "with INT set, any command is ignored. With BSY set, a Level II command, or a Level I command not valid now, is ignored
 * (house). Otherwise an invalid or left-out command raises 40h. A command not ignored clears LCI and PE". */
static uint32_t write_command(struct plain *p, uint8_t command)
{
    uint8_t code = command & 0x7f; /* "Bit 7 (single byte) is taken off first and matters only to 20h." */
    if (code == AM33C93A_RESET) {
        reset(p, command);
        return done(0);
    }
    if (p->pending == PLAIN_INT) return ignored(p);
    if (busy(p) && !is_level_one(code)) return ignored(p);
    bool valid = is_valid(p, code);
    if (busy(p) && !valid) return ignored(p);
    p->lci = p->pe = false;
    p->command = command;
    if (valid) perform(p, command);
    else raise_code(p, AM33C93A_CODE_INVALID);
    return done(0);
}

/* Registers. */

static uint32_t no_data_now(void)
{
    return result(AM33C93A_NO_DATA_NOW, 0xff);
}

/* "At 19h, answer 7 comes exactly when DBR is 0, or on a read going out or a write coming in." */
static uint32_t access_data(struct plain *p, bool write, uint8_t byte)
{
    if (write) {
        if (room(p) == 0) return no_data_now();
        put(p, byte);
        return done(0);
    }
    if (readable(p) == 0) return no_data_now();
    byte = take(p);
    if (p->waiting == 0) read_out(p);
    return done(byte);
}

static inline bool is_count(uint8_t address)
{
    return address >= AM33C93A_COUNT_HIGH && address <= AM33C93A_COUNT_LOW;
}

/* "The count is 12h to 14h, high byte first." */
static inline unsigned count_shift(uint8_t address)
{
    return 8u * (AM33C93A_COUNT_LOW - address);
}

static uint8_t read_stored(const struct plain *p, uint8_t address)
{
    if (is_count(address)) return (uint8_t)(p->count >> count_shift(address));
    return p->stored[address];
}

static void write_stored(struct plain *p, uint8_t address, uint8_t byte)
{
    if (is_count(address)) {
        unsigned shift = count_shift(address);
        p->count = (p->count & ~(0xffu << shift)) | (uint32_t)byte << shift;
    } else {
        p->stored[address] = byte;
    }
}

/* "Reading 17h gives the code and clears INT; the code stays readable." */
static uint8_t read_code(struct plain *p)
{
    if (p->pending == PLAIN_INT) p->pending = PLAIN_NOTHING;
    return p->code;
}

/* "An access to 1Ah and above, or a write to 17h, is Blind. While BSY is set only 18h and 19h are reachable". */
static uint32_t access_stored(struct plain *p, uint8_t address, bool write, uint8_t byte)
{
    if (busy(p) || address > AM33C93A_DATA || (write && address == AM33C93A_SCSI_STATUS)) return result(AM33C93A_BLIND, 0xff);
    if (address == AM33C93A_SCSI_STATUS) return done(read_code(p));
    if (!write) return done(read_stored(p, address));
    write_stored(p, address, byte);
    return done(0);
}

uint32_t plain_fresh(struct plain *p)
{
    *p = (struct plain){.reported = PLAIN_NO_PHASE, .last = PLAIN_NO_PHASE};
    return done(0);
}

uint32_t plain_pointer(struct plain *p, uint32_t mark, uint32_t byte)
{
    if (mark > 1 || byte > 255) return result(AM33C93A_BAD_NUMBER, 0);
    if (mark == 0) return done(p->pointer);
    p->pointer = (uint8_t)byte;
    return done(0);
}

/* "bit 7 INT, 6 LCI, 5 BSY (a Level II command runs), 4 CIP (always 0, house), 1 PE, 0 DBR; the others are 0." */
uint32_t plain_auxiliary(const struct plain *p)
{
    bool dbr = room(p) + readable(p) != 0;
    unsigned status = (p->pending == PLAIN_INT) << 7 | p->lci << 6 | busy(p) << 5 | p->pe << 1 | dbr;
    return done(status);
}

/* "After each register access it steps by one, FFh going round to 00, except at 18h, 19h and 1Fh, where it stays." */
uint32_t plain_register(struct plain *p, uint32_t mark, uint32_t byte)
{
    if (mark > 1 || byte > 255) return result(AM33C93A_BAD_NUMBER, 0);
    uint8_t address = p->pointer;
    if (address == AM33C93A_DATA) return access_data(p, mark, (uint8_t)byte);
    if (address == AM33C93A_COMMAND) return mark ? write_command(p, (uint8_t)byte) : done(p->command);
    if (address != 0x1f) p->pointer++;
    return access_stored(p, address, mark, (uint8_t)byte);
}

static uint32_t read_block(struct plain *p, uint8_t *data, size_t length)
{
    uint32_t moved = length < readable(p) ? (uint32_t)length : readable(p), at = p->first;
    if (moved == 0) return done(0);
    for (uint32_t i = 0; i < moved; i++) {
        data[i] = p->fifo[at];
        at = next_place(at);
    }
    p->first = (uint8_t)at;
    p->waiting = (uint8_t)(p->waiting - moved);
    if (p->waiting == 0) read_out(p);
    return done(moved);
}

static uint32_t write_block(struct plain *p, const uint8_t *data, size_t length)
{
    uint32_t moved = length < room(p) ? (uint32_t)length : room(p), at = end_place(p);
    for (uint32_t i = 0; i < moved; i++) {
        p->fifo[at] = data[i];
        at = next_place(at);
    }
    p->waiting = (uint8_t)(p->waiting + moved);
    return done(moved);
}

/* "it does single accesses there, without the pointer, from the slice's start until the slice ends or answer 7 would come." */
uint32_t plain_block(struct plain *p, uint32_t mark, uint8_t *data, size_t length)
{
    if (mark > 1) return result(AM33C93A_BAD_NUMBER, 0);
    return mark ? write_block(p, data, length) : read_block(p, data, length);
}

/* Bus events. */

/* "While selecting with register 02 not 0, units add up; when they reach it, code 42h, Disconnected. Otherwise Done without
 * effect." */
uint32_t plain_time(struct plain *p, uint32_t units)
{
    if (units > 255) return result(AM33C93A_BAD_NUMBER, 0);
    if (p->connection != PLAIN_SELECTING) return done(0);
    if (p->stored[AM33C93A_TIMEOUT] == 0) return done(0);
    p->elapsed += units;
    if (p->elapsed < p->stored[AM33C93A_TIMEOUT]) return done(0);
    p->connection = PLAIN_DISCONNECTED;
    raise_code(p, AM33C93A_CODE_TIMEOUT);
    return done(0);
}

static void connect(struct plain *p)
{
    p->connection = PLAIN_CONNECTED;
    p->last = PLAIN_NO_PHASE;
}

/* "only while selecting, else 2. Connected, ATN set for 06 and 08; for 06/07 code 11h; for 08/09 phase register 10h." */
uint32_t plain_answer(struct plain *p)
{
    if (p->connection != PLAIN_SELECTING) return result(AM33C93A_OUT_OF_PLACE, 0);
    connect(p);
    p->atn = p->running == PLAIN_SELECT_WITH_ATN || p->running == PLAIN_SELECT_TRANSFER_WITH_ATN;
    if (p->running == PLAIN_SELECT_WITH_ATN || p->running == PLAIN_SELECT) raise_code(p, AM33C93A_CODE_SELECTED);
    else p->stored[AM33C93A_COMMAND_PHASE] = 0x10;
    return done(0);
}

/* The number of the one bit that is on. */
static uint8_t bit_number(uint32_t bit)
{
    uint8_t number = 0;
    while (bit >>= 1) number++;
    return number;
}

/* "Ignored unless ER (16h bit 7) is set, our own bit is on, and one or two bits are on." others: the lines but ours. */
static bool is_for_us(const struct plain *p, uint32_t lines, uint32_t others)
{
    return (p->stored[AM33C93A_SOURCE_ID] & ER) && (lines & 1u << p->own) && (others & (others - 1)) == 0;
}

/* "With two bits, SIV and the other identity go into 16h; with one, bits 3 to 0 become 0. Bits 7 to 4 stay. It connects: code
 * 80h, command ended; except a waiting Select-And-Transfer whose 15h bits 2 to 0 name that identity: phase 44h, no interrupt." */
uint32_t plain_reselection(struct plain *p, uint32_t lines)
{
    if (lines > 255) return result(AM33C93A_BAD_NUMBER, 0);
    uint32_t other = lines & ~(1u << p->own);
    if (!is_for_us(p, lines, other)) return result(AM33C93A_RESELECTION_IGNORED, 0);
    if (p->connection == PLAIN_CONNECTED) return result(AM33C93A_OUT_OF_PLACE, 0);
    if (p->pending != PLAIN_NOTHING) return result(AM33C93A_HELD, 0);
    uint8_t source = other ? SIV | bit_number(other) : 0;
    bool expected = p->connection == PLAIN_WAITING && source == (SIV | (p->stored[AM33C93A_DESTINATION_ID] & 7));
    p->stored[AM33C93A_SOURCE_ID] = (p->stored[AM33C93A_SOURCE_ID] & 0xf0) | source;
    connect(p);
    if (expected) p->stored[AM33C93A_COMMAND_PHASE] = 0x44;
    else raise_code(p, AM33C93A_CODE_RESELECTED);
    return done(0);
}

/* "Bad parity on any byte that would be taken in sets PE; with HSP the byte is not taken or counted": is it halted? */
static inline bool parity_halts(struct plain *p, bool bad)
{
    if (!bad) return false;
    p->pe = true;
    return p->stored[AM33C93A_CONTROL] & HSP;
}

/* "ACK is held, answer 8, ending with 43h" */
static uint32_t halt(struct plain *p, uint8_t phase)
{
    p->held_ack = true;
    return reported(p, phase, AM33C93A_CODE_PARITY);
}

/* A byte comes into the FIFO. "Held if it is [...] full", whatever its parity. */
static uint32_t move_in(struct plain *p, uint8_t phase, uint8_t byte, bool bad)
{
    if (p->waiting == PLAIN_FIFO) return result(AM33C93A_HELD, 0);
    if (parity_halts(p, bad)) return halt(p, phase);
    put(p, byte);
    lower_count(p);
    return crossed(p, phase, byte);
}

/* A byte goes out of the FIFO. "Held if it is empty". */
static uint32_t move_out(struct plain *p, uint8_t phase)
{
    if (p->waiting == 0) return result(AM33C93A_HELD, 0);
    uint8_t byte = take(p);
    lower_count(p);
    return crossed(p, phase, byte);
}

/* "Connected and idle: a Request of a phase not yet reported raises 88h+p and reports p; the reported one again is Held." */
static uint32_t idle_request(struct plain *p, uint8_t phase)
{
    if (p->reported == phase) return result(AM33C93A_HELD, 0);
    return reported(p, phase, AM33C93A_CODE_REQUESTED_PHASE + phase);
}

/* "With none left, or with another phase, it is Reported: ending with 18h+p if none left, else 48h+p. The last Message In byte
 * holds ACK and is ending with 20h. The last Message Out byte clears ATN." */
static uint32_t transfer_request(struct plain *p, uint8_t phase, uint8_t byte, bool bad)
{
    if (left(p) == 0) return reported(p, phase, AM33C93A_CODE_TRANSFERRED_PHASE + phase);
    if (phase != p->reported) return unexpected(p, phase);
    uint32_t r = phase & 1 ? move_in(p, phase, byte, bad) : move_out(p, phase);
    if (AM33C93A_ANSWER(r) != AM33C93A_DONE || left(p) != 0) return r;
    if (phase == AM33C93A_MESSAGE_OUT) p->atn = false;
    if (phase == AM33C93A_MESSAGE_IN) {
        p->held_ack = true;
        ending_with(p, AM33C93A_CODE_MESSAGE_IN);
    }
    return r;
}

/* "Message Out takes 80h + LUN (0Fh bits 2 to 0), plus 40h if ER; ATN clears; 20h." */
static uint32_t identify_out(struct plain *p, uint8_t phase)
{
    if (phase != AM33C93A_MESSAGE_OUT) return unexpected(p, phase);
    uint8_t may_disconnect = p->stored[AM33C93A_SOURCE_ID] & ER ? MAY_DISCONNECT : 0;
    p->atn = false;
    p->stored[AM33C93A_COMMAND_PHASE] = 0x20;
    return crossed(p, phase, IDENTIFY | may_disconnect | (p->stored[AM33C93A_TARGET_LUN] & 7));
}

/* "Command takes CDB byte x+1; 31h+x." CDB byte 1 is register 03. */
static uint32_t command_out(struct plain *p, uint8_t phase, unsigned x)
{
    if (phase != AM33C93A_COMMAND_OUT) return unexpected(p, phase);
    p->stored[AM33C93A_COMMAND_PHASE] = (uint8_t)(0x31 + x);
    return crossed(p, phase, p->stored[AM33C93A_CDB_1 + x]);
}

/* "The first Data Request fixes the direction, and the other direction is unexpected. Going out, that first Request is Reported
 * with no code and no byte moved [...]. Data moves as above; at zero left, 46h. A loaded count of zero expects no data." */
static uint32_t data_request(struct plain *p, uint8_t phase, uint8_t byte, bool bad)
{
    uint8_t direction = phase & 1 ? PLAIN_IN : PLAIN_OUT;
    bool first = p->direction == PLAIN_NOT_FIXED;
    if (left(p) == 0 || (!first && p->direction != direction)) return unexpected(p, phase);
    p->direction = direction;
    if (first && direction == PLAIN_OUT) {
        p->last = phase;
        return result(AM33C93A_REPORTED, 0);
    }
    uint32_t r = direction == PLAIN_IN ? move_in(p, phase, byte, bad) : move_out(p, phase);
    if (AM33C93A_ANSWER(r) == AM33C93A_DONE && left(p) == 0) p->stored[AM33C93A_COMMAND_PHASE] = 0x46;
    return r;
}

/* "Status goes to 0Fh; 50h. Going out, the FIFO is dropped and DBR closes; a count not used up stays." */
static uint32_t status_in(struct plain *p, uint8_t byte, bool bad)
{
    if (parity_halts(p, bad)) return halt(p, AM33C93A_STATUS_IN);
    p->stored[AM33C93A_TARGET_LUN] = byte;
    p->stored[AM33C93A_COMMAND_PHASE] = 0x50;
    if (p->direction == PLAIN_OUT) {
        p->direction = PLAIN_NOT_FIXED;
        p->first = p->waiting = 0;
    }
    return crossed(p, AM33C93A_STATUS_IN, byte);
}

/* A message that is good now: the phase register moves on. */
static uint32_t message_in(struct plain *p, uint8_t byte, bool bad, uint8_t next)
{
    if (parity_halts(p, bad)) return halt(p, AM33C93A_MESSAGE_IN);
    p->stored[AM33C93A_COMMAND_PHASE] = next;
    uint32_t r = crossed(p, AM33C93A_MESSAGE_IN, byte);
    if (next == 0x41) { /* "02 gives 41h, ACK held, ending with 21h" */
        p->held_ack = true;
        ending_with(p, AM33C93A_CODE_SAVE_POINTER);
    }
    if (next == 0x60) ending_with(p, AM33C93A_CODE_COMPLETE); /* "Message In 00 gives 60h, ending with 16h." */
    return r;
}

/* Before Status: "46h: Status or Message In"; "3xh at the size, 41h, 45h" Data too. */
static uint32_t middle_request(struct plain *p, uint8_t phase, uint8_t byte, bool bad, bool data)
{
    if (data && phase <= AM33C93A_DATA_IN) return data_request(p, phase, byte, bad);
    if (phase == AM33C93A_STATUS_IN) return status_in(p, byte, bad);
    if (phase == AM33C93A_MESSAGE_IN && byte == SAVE_POINTER) return message_in(p, byte, bad, 0x41);
    if (phase == AM33C93A_MESSAGE_IN && byte == GOING) return message_in(p, byte, bad, 0x42);
    return unexpected(p, phase);
}

/* "44h: Message In equal to 80h + LUN gives 45h", "50h: Message In 00 gives 60h": one message is good. */
static uint32_t one_message(struct plain *p, uint8_t phase, uint8_t byte, bool bad, uint8_t good, uint8_t next)
{
    if (phase != AM33C93A_MESSAGE_IN || byte != good) return unexpected(p, phase);
    return message_in(p, byte, bad, next);
}

/* "20h, 30h, 3xh short of the size (x taken, 0 at 20h)"; beyond the size "anything else" (R). */
static uint32_t command_request(struct plain *p, uint8_t phase, uint8_t byte, bool bad, unsigned x)
{
    unsigned size = cdb_size(p);
    if (x < size) return command_out(p, phase, x);
    return x == size ? middle_request(p, phase, byte, bad, true) : unexpected(p, phase);
}

static uint32_t combined_request(struct plain *p, uint8_t phase, uint8_t byte, bool bad)
{
    uint8_t at = p->stored[AM33C93A_COMMAND_PHASE];
    if (at >> 4 == 3) return command_request(p, phase, byte, bad, at & 0x0f);
    switch (at) {
    case 0x10:
        if (p->running == PLAIN_SELECT_TRANSFER_WITH_ATN) return identify_out(p, phase);
        return command_out(p, phase, 0); /* "With 09, as 20h." */
    case 0x20: return command_out(p, phase, 0);
    case 0x41:
    case 0x45: return middle_request(p, phase, byte, bad, true);
    case 0x46: return middle_request(p, phase, byte, bad, false);
    case 0x44: return one_message(p, phase, byte, bad, IDENTIFY | (p->stored[AM33C93A_TARGET_LUN] & 7), 0x45);
    case 0x50: return one_message(p, phase, byte, bad, COMMAND_COMPLETE, 0x60);
    default: return unexpected(p, phase);
    }
}

/* "Connected only. Held while ACK is held." With INT or an ending Held too: idle, every Request raises a code or is Held. */
uint32_t plain_request(struct plain *p, uint32_t phase, uint32_t byte, uint32_t parity)
{
    if (phase > 7 || byte > 255 || parity > 1) return result(AM33C93A_BAD_NUMBER, 0);
    if (p->connection != PLAIN_CONNECTED) return result(AM33C93A_OUT_OF_PLACE, 0);
    if (p->pending != PLAIN_NOTHING || p->held_ack) return result(AM33C93A_HELD, 0);
    if (!busy(p)) return idle_request(p, (uint8_t)phase);
    if (p->running == PLAIN_TRANSFER_INFO) return transfer_request(p, (uint8_t)phase, (uint8_t)byte, parity);
    return combined_request(p, (uint8_t)phase, (uint8_t)byte, parity);
}

/* "42h: Free gives 43h, Disconnected; with IDI, ending with 85h; without it, an outgoing FIFO stays, an incoming one is read out
 * first [...]; then it waits for reselection." */
static void free_at_42h(struct plain *p)
{
    p->stored[AM33C93A_COMMAND_PHASE] = 0x43;
    if (p->stored[AM33C93A_CONTROL] & IDI) ending_with(p, AM33C93A_CODE_DISCONNECTED);
    else if (readable(p) != 0) p->pending = PLAIN_READ_OUT;
    else p->connection = PLAIN_WAITING;
}

/* "connected only; unless Held, it disconnects and clears ATN and held ACK." Transfer Info: "ending with 85h if none left, else
 * 41h"; idle: "Free raises 85h"; Select-And-Transfer elsewhere than at 42h: "ending with 41h". */
uint32_t plain_free(struct plain *p)
{
    if (p->connection != PLAIN_CONNECTED) return result(AM33C93A_OUT_OF_PLACE, 0);
    if (p->pending != PLAIN_NOTHING) return result(AM33C93A_HELD, 0);
    p->connection = PLAIN_DISCONNECTED;
    p->atn = p->held_ack = false;
    bool over = !busy(p) || (p->running == PLAIN_TRANSFER_INFO && left(p) == 0);
    bool combined = busy(p) && p->running != PLAIN_TRANSFER_INFO;
    if (combined && p->stored[AM33C93A_COMMAND_PHASE] == 0x42) free_at_42h(p);
    else ending_with(p, over ? AM33C93A_CODE_DISCONNECTED : AM33C93A_CODE_GONE);
    return done(0);
}

/* What we drive on the bus, packed as am33c93a.h says. */
uint32_t plain_lines(const struct plain *p)
{
    uint32_t lines = (p->stored[AM33C93A_DESTINATION_ID] & 7) | (uint32_t)p->own << 8;
    if (p->connection == PLAIN_CONNECTED) lines |= AM33C93A_LINES_CONNECTED;
    if (p->connection == PLAIN_SELECTING) lines |= AM33C93A_LINES_SELECTING;
    if (p->connection == PLAIN_WAITING) lines |= AM33C93A_LINES_WAITING;
    if (p->atn) lines |= AM33C93A_LINES_ATN;
    if (p->held_ack) lines |= AM33C93A_LINES_ACK;
    return done(lines);
}
