/* What the files of the careful reference share: bytes under their names, digits, and what one file asks of another. */
#ifndef CAREFUL_INSIDE_H
#define CAREFUL_INSIDE_H

#include "careful.h"

enum {
    NUL = 0x00,
    SOH = 0x01,
    STX = 0x02,
    ETX = 0x03,
    EOT = 0x04,
    LOWEST_DATA = 0x05,    /* "Both are bytes 05H to FFH." */
    LOWEST_PRINTED = 0x20, /* "20H to 7EH otherwise stand for themselves" */
    HIGHEST_PRINTED = 0x7E,
    ESCAPE = 0x5F,         /* the "_" of an escape, which opens a printable frame too */
    PAIR = 3,              /* bytes of a header's pair; with its comma four */
    START_TYPE = 'z',      /* "First start of a new sign." */
    SUM_DIGITS = 4,
    NO_DIGIT = 0x10        /* the value of what is no hex digit: a bit that no digit has */
};

/* ---- digits */

/* A digit of memory: "upper-case hex digits". */
static inline unsigned careful_digit(uint8_t byte)
{
    if (byte >= '0' && byte <= '9')
        return byte - (unsigned)'0';
    if (byte >= 'A' && byte <= 'F')
        return byte - (unsigned)'A' + 10;
    return NO_DIGIT;
}

/* The capital of a to f; any other byte is its own. */
static inline uint8_t careful_capital(uint8_t byte)
{
    return byte >= 'a' && byte <= 'f' ? (uint8_t)(byte - 'a' + 'A') : byte;
}

/* A digit that a frame carries: small letters are taken there. */
static inline unsigned careful_frame_digit(uint8_t byte)
{
    return careful_digit(careful_capital(byte));
}

/* The low four bits as a digit, in capitals. */
static inline uint8_t careful_digit_of(unsigned value)
{
    return (uint8_t)"0123456789ABCDEF"[value & 0x0F];
}

/* Puts four digits, the most significant first. */
static inline void careful_put_word(uint8_t *to, unsigned word)
{
    to[0] = careful_digit_of(word >> 12);
    to[1] = careful_digit_of(word >> 8);
    to[2] = careful_digit_of(word >> 4);
    to[3] = careful_digit_of(word);
}

/* "bytes below 20H, above 7EH and 5FH": 1 for one of them. */
static inline int careful_needs_escape(uint8_t byte)
{
    return byte < LOWEST_PRINTED || byte > HIGHEST_PRINTED || byte == ESCAPE;
}

/* ---- blocks: careful_blocks.c */

/* A block as a walk over it finds it. */
typedef struct careful_block {
    const uint8_t *data;
    const uint8_t *end;  /* the first byte behind the data */
    const uint8_t *next; /* what follows the block: the next one's STX, or EOT */
    unsigned sum;        /* of all its bytes; the low 16 bits are its checksum, "drops every carry out of 16 bits" */
    uint8_t command;
    uint8_t kind;        /* PAGOZKIN_NO_BLOCK, PAGOZKIN_MORE or PAGOZKIN_LAST */
    uint8_t right;       /* 0: it has a checksum, and a wrong one */
} careful_block;

/* Whether a block begins at a place: its STX and its command byte. */
int careful_begin(const uint8_t *at, const uint8_t *end, careful_block *block);

/* Goes over the data of a block that has begun: its end and its sum. */
void careful_walk(const uint8_t *end, careful_block *block);

/* The same, and how many of command and data bytes need an escape. */
size_t careful_walk_counting(const uint8_t *end, careful_block *block);

/* What stands behind the data: kind, right and next. */
void careful_finish(const uint8_t *end, careful_block *block);

/* The three in a row: the block at a place, by its kind. */
uint8_t careful_take(const uint8_t *at, const uint8_t *end, careful_block *block);

/* ---- frames: careful_frame.c */

/* A frame whose lead and header are good, as the bytes that it stands for. */
typedef struct careful_frame {
    const uint8_t *bytes; /* the frame itself, or a room */
    size_t length;
    size_t header;
    size_t body;          /* the first block's STX, where the header ends */
    uint8_t printable;
} careful_frame;

/* Whether the header is a pair of type "z": no other type stands beside it. */
static inline int careful_starts(const careful_frame *frame)
{
    return frame->bytes[frame->header] == START_TYPE;
}

/* What the one walk over a body tells. */
typedef struct careful_facts {
    size_t blocks;
    size_t data;        /* bytes of data in all blocks */
    size_t escapes;     /* command and data bytes that need an escape, where they are asked for */
    uint8_t sums_right; /* no block has a wrong checksum */
    uint8_t has_read;   /* the last block is a read */
} careful_facts;

/* "1 to 16 pairs joined by commas", or one of type "z": the first byte behind them, or NULL. */
const uint8_t *careful_pairs(const uint8_t *header, const uint8_t *end);

/* Whether a type code is one that a board can have. */
int careful_is_own_type(uint8_t type);

/* "empty (3), first byte (4), raw length (3), 5, translated length (3), lead (4), 6"; whatever it answers, a printable frame may leave
 * bytes in the room. */
uint8_t careful_open(const uint8_t *raw, size_t raw_len, uint8_t *room, careful_frame *frame);

/* "7, 8", and all that a result needs to know of the body; escapes are counted where counting is 1. */
uint8_t careful_judge(const careful_frame *frame, int counting, careful_facts *facts);

/* ---- the board: careful_board.c */

enum {
    RECORD_TYPE = 1,    /* "A record is F T P SIZE QQQQ": where its parts stand */
    RECORD_GUARD = 2,
    RECORD_SIZE = 3,
    RECORD_CODES = 7,
    TEXT_FILE = 'A',
    STRING_FILE = 'B',
    NO_RECORD = 0x10000 /* the size of a record that is not good */
};

int careful_is_time(unsigned hour, unsigned minute);
int careful_is_date(unsigned month, unsigned day, unsigned year);
int careful_is_label(uint8_t byte);

/* SIZE of a record whose digits are capitals and whose parts are good, 0000 in a TEXT's included; else NO_RECORD. */
size_t careful_size(const uint8_t *record);

int careful_sound(const pagozkin_settings *settings, const uint8_t *memory, size_t memory_len);

/* ---- commands: careful_special.c, careful_run.c */

/* A sound board, and where its reply goes. */
typedef struct careful_board {
    pagozkin_settings *settings;
    uint8_t *memory;
    size_t memory_len;
    uint8_t *reply;
    size_t reply_length; /* 0 where there is no reply */
} careful_board;

/* "E" and "F", with label and data: 0, or 21 to 27. */
uint8_t careful_set(careful_board *board, const uint8_t *data, size_t length);
uint8_t careful_tell(careful_board *board, const uint8_t *data, size_t length);

/* What type "z" does before the blocks run: 0, or 28. */
uint8_t careful_start(careful_board *board);

/* "A reply is 20 NUL, SOH, "000", STX, the write code (A, G or E), label, data, ETX, checksum, EOT.": where the data go, and the rest
 * around so many of them that add up to sum. */
uint8_t *careful_reply_data(careful_board *board);
void careful_reply(careful_board *board, uint8_t code, uint8_t label, size_t length, unsigned sum);

#endif
