/* A model of the Am33C93A SCSI controller, initiator role, in which every answer is proved.
 *
 * The caller lends the state of a controller as an image of am33c93a_image_length() bytes, made once by am33c93a_fresh.
 * Each entry but the first returns the answer's number in bits 0 to 7 and its value from bit 8 up (AM33C93A_ANSWER,
 * AM33C93A_VALUE). An image of another length, bytes that are no state's image and operands out of range are answered
 * AM33C93A_BAD_NUMBER, and no lent byte changes. No entry leaves an image that is not a state's. No state has INT and BSY both
 * set, so bytes that say both are no image, not to a Reset either: am33c93a_fresh makes a new one.
 *
 * What the caller owes: a slice is a pointer and a length, and the bytes it names can be read and written; the two slices of
 * am33c93a_block do not overlap; no other thread uses the same image during a call. A slice of length 0 may be null.
 *
 * A length has 64 bits on every target, also where size_t has 32: the library is one and the same proved module everywhere, and
 * takes it so. In C hand over a size_t or sizeof as it is, the prototype converts it. Whoever declares the entries elsewhere (in
 * another language, as pointers to functions) has to say 64 bits too, or on a 32-bit target the library sees other operands.
 */
#ifndef AM33C93A_H
#define AM33C93A_H

#include <stdint.h>

#ifdef __cplusplus
extern "C" {
#endif

/* The length of an image in bytes: always AM33C93A_IMAGE_LENGTH. */
uint32_t am33c93a_image_length(void);
/* Writes the image of a fresh controller: all registers zero, Disconnected, nothing pending. */
uint32_t am33c93a_fresh(uint8_t *image, uint64_t length);
/* Reads (mark 0) or sets (mark 1) the address pointer. */
uint32_t am33c93a_pointer(uint8_t *image, uint64_t length, uint32_t mark, uint32_t byte);
/* Reads auxiliary status; changes nothing. */
uint32_t am33c93a_auxiliary(uint8_t *image, uint64_t length);
/* Reads (mark 0) or writes (mark 1) the register at the pointer, and steps the pointer. */
uint32_t am33c93a_register(uint8_t *image, uint64_t length, uint32_t mark, uint32_t byte);
/* Single accesses at the Data register from the start of data, until it ends or no data moves; the value is the number moved. */
uint32_t am33c93a_block(uint8_t *image, uint64_t length, uint32_t mark, uint8_t *data, uint64_t data_length);
/* units of 8 ms pass, 0 to 255. */
uint32_t am33c93a_time(uint8_t *image, uint64_t length, uint32_t units);
/* The Target answers our selection. */
uint32_t am33c93a_answer(uint8_t *image, uint64_t length);
/* A Target reselects us: the eight data lines. */
uint32_t am33c93a_reselection(uint8_t *image, uint64_t length, uint32_t lines);
/* The Target asserts REQ in a phase, with a byte (looked at in the phases that come in) and its parity: 0 good, 1 bad. */
uint32_t am33c93a_request(uint8_t *image, uint64_t length, uint32_t phase, uint32_t byte, uint32_t parity);
/* The Target frees the bus. */
uint32_t am33c93a_free(uint8_t *image, uint64_t length);
/* What the controller drives on the bus (AM33C93A_LINES_ below); changes nothing. */
uint32_t am33c93a_lines(const uint8_t *image, uint64_t length);

#define AM33C93A_IMAGE_LENGTH 54

#define AM33C93A_ANSWER(result) ((result) & 0xffu) /* the number of an answer */
#define AM33C93A_VALUE(result) ((result) >> 8)     /* its value */

/* The nine answers. */
enum {
    AM33C93A_DONE = 0,                /* as the rules say; value: the byte read or crossed, a block: the number moved, else 0 */
    AM33C93A_HELD = 1,                /* nothing changed; offer it again */
    AM33C93A_OUT_OF_PLACE = 2,        /* nothing changed; the event has no place in this state */
    AM33C93A_BAD_NUMBER = 3,          /* nothing changed; a bad image or operand */
    AM33C93A_BLIND = 4,               /* value FFh; the register is not there or not reachable; only the pointer moves */
    AM33C93A_COMMAND_IGNORED = 5,     /* only LCI set */
    AM33C93A_RESELECTION_IGNORED = 6, /* nothing changed; not for us */
    AM33C93A_NO_DATA_NOW = 7,         /* value FFh; nothing changed; the Data register is not ready for this access */
    AM33C93A_REPORTED = 8             /* the byte was not taken; offer it again when the host has acted: served the interrupt, or filled the FIFO */
};

/* Auxiliary status. */
enum {
    AM33C93A_AUX_INT = 0x80, /* an interrupt is pending: read AM33C93A_SCSI_STATUS; never with BSY */
    AM33C93A_AUX_LCI = 0x40, /* the last command was ignored */
    AM33C93A_AUX_BSY = 0x20, /* a Level II command runs, or its ending is under way */
    AM33C93A_AUX_CIP = 0x10, /* command in progress: always 0 here */
    AM33C93A_AUX_PE = 0x02,  /* bad parity came in */
    AM33C93A_AUX_DBR = 0x01  /* the Data register wants to be read or written */
};

/* Register addresses. */
enum {
    AM33C93A_OWN_ID = 0x00,        /* our identity, taken at Reset (bits 2 to 0) */
    AM33C93A_CONTROL = 0x01,       /* IDI (bit 2), HSP (bit 0) */
    AM33C93A_TIMEOUT = 0x02,       /* selection timeout in units of 8 ms; 0: none */
    AM33C93A_CDB_1 = 0x03,         /* command bytes 1 to 12 stand at 03 to 0Eh */
    AM33C93A_TARGET_LUN = 0x0f,    /* LUN (bits 2 to 0); after Select-And-Transfer the status byte */
    AM33C93A_COMMAND_PHASE = 0x10, /* how far a Select-And-Transfer has come */
    AM33C93A_SYNCHRONOUS = 0x11,   /* stored, no effect */
    AM33C93A_COUNT_HIGH = 0x12,    /* the transfer count, high byte first */
    AM33C93A_COUNT_MIDDLE = 0x13,
    AM33C93A_COUNT_LOW = 0x14,
    AM33C93A_DESTINATION_ID = 0x15, /* the Target to select (bits 2 to 0) */
    AM33C93A_SOURCE_ID = 0x16,      /* ER (bit 7); SIV (bit 3) and the identity that reselected us (bits 2 to 0) */
    AM33C93A_SCSI_STATUS = 0x17,    /* the last code; a read clears INT */
    AM33C93A_COMMAND = 0x18,        /* a write is a command */
    AM33C93A_DATA = 0x19,           /* the FIFO's end for the host */

    /* Of Translate Address, where the command bytes stand otherwise; numbers of two and four bytes have their high byte first. 15h writes
     * the place over 0Ch to 0Eh, so write them anew before the next address. */
    AM33C93A_TOTAL_SECTORS = 0x03,   /* on a track */
    AM33C93A_TOTAL_HEADS = 0x04,
    AM33C93A_TOTAL_CYLINDERS = 0x05, /* two bytes */
    AM33C93A_LOGICAL_ADDRESS = 0x07, /* four bytes */
    AM33C93A_SECTOR_NUMBER = 0x0b,   /* of the place, from 0 */
    AM33C93A_HEAD_NUMBER = 0x0c,     /* of the place; before: the spare sectors on a cylinder, 0 if there are none */
    AM33C93A_CYLINDER_NUMBER = 0x0d  /* two bytes, of the place; before, with spares: the sectors on a cylinder, spares not counted */
};

/* Commands; bit 7 asks 20h for a single byte, and means nothing to the others. */
enum {
    AM33C93A_RESET = 0x00,                   /* always taken */
    AM33C93A_ABORT = 0x01,                   /* ends the running command */
    AM33C93A_ASSERT_ATN = 0x02,              /* while connected */
    AM33C93A_NEGATE_ACK = 0x03,              /* lets go of a held ACK */
    AM33C93A_DISCONNECT = 0x04,              /* drops everything, no interrupt */
    AM33C93A_SELECT_WITH_ATN = 0x06,         /* ends with 11h or 42h */
    AM33C93A_SELECT = 0x07,                  /* the same without ATN */
    AM33C93A_SELECT_TRANSFER_WITH_ATN = 0x08, /* a whole SCSI command; while connected: resume */
    AM33C93A_SELECT_TRANSFER = 0x09,         /* the same without ATN */
    AM33C93A_SET_IDI = 0x0f,                 /* sets IDI only */
    AM33C93A_TRANSLATE_ADDRESS = 0x18,       /* while Disconnected; 15h or 45h at once */
    AM33C93A_TRANSFER_INFO = 0x20,           /* bytes of the reported phase */
    AM33C93A_SINGLE_BYTE = 0x80              /* with TRANSFER_INFO: one byte */
};

/* Phases of a Request: MSG, C/D and I/O as 4, 2 and 1. */
enum {
    AM33C93A_DATA_OUT = 0,
    AM33C93A_DATA_IN = 1,
    AM33C93A_COMMAND_OUT = 2,
    AM33C93A_STATUS_IN = 3,
    AM33C93A_UNSPECIFIED_OUT = 4,
    AM33C93A_UNSPECIFIED_IN = 5,
    AM33C93A_MESSAGE_OUT = 6,
    AM33C93A_MESSAGE_IN = 7
};

/* Codes of SCSI status. Those that end in _PHASE carry a phase: add it. */
enum {
    AM33C93A_CODE_RESET = 0x00,             /* Reset is done */
    AM33C93A_CODE_SELECTED = 0x11,          /* the Target answered a Select */
    AM33C93A_CODE_TRANSLATED = 0x15,        /* the place of the address stands at 0Bh to 0Eh */
    AM33C93A_CODE_COMPLETE = 0x16,          /* a Select-And-Transfer came to its end */
    AM33C93A_CODE_TRANSFERRED_PHASE = 0x18, /* Transfer Info is over, and this phase is asked for next */
    AM33C93A_CODE_MESSAGE_IN = 0x20,        /* the last Message In byte came; ACK is held */
    AM33C93A_CODE_SAVE_POINTER = 0x21,      /* Save Data Pointer came in a Select-And-Transfer; ACK is held */
    AM33C93A_CODE_ABORTED = 0x22,           /* aborted while selecting, or waiting for reselection */
    AM33C93A_CODE_ABORTED_PHASE = 0x28,     /* aborted in this phase */
    AM33C93A_CODE_INVALID = 0x40,           /* the command is invalid now */
    AM33C93A_CODE_GONE = 0x41,              /* the Target left in the middle */
    AM33C93A_CODE_TIMEOUT = 0x42,           /* nobody answered the selection in time */
    AM33C93A_CODE_PARITY = 0x43,            /* bad parity, with HSP; ACK is held */
    AM33C93A_CODE_OFF_DISK = 0x45,          /* the address has no place on the disk, or the disk with spares is too large; no register is written */
    AM33C93A_CODE_UNEXPECTED_PHASE = 0x48,  /* this phase came unexpected */
    AM33C93A_CODE_RESELECTED = 0x80,        /* a Target reselected us */
    AM33C93A_CODE_DISCONNECTED = 0x85,      /* the Target freed the bus */
    AM33C93A_CODE_REQUESTED_PHASE = 0x88    /* connected and idle, this phase is asked for */
};

/* The value of am33c93a_lines. Bits 2 to 0 are the destination identity, bits 10 to 8 our own. */
enum {
    AM33C93A_LINES_DESTINATION = 0x007,
    AM33C93A_LINES_CONNECTED = 0x008,
    AM33C93A_LINES_SELECTING = 0x010,
    AM33C93A_LINES_WAITING = 0x020, /* for reselection */
    AM33C93A_LINES_ATN = 0x040,
    AM33C93A_LINES_ACK = 0x080, /* ACK is held */
    AM33C93A_LINES_OWN = 0x700
};

#ifdef __cplusplus
}
#endif

#endif
