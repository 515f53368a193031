/* Pagozkin: what the board's firmware calls, for C99 and C++. The library is libport.a; its calls are proved.
 * The words in quotation marks are those of the definition of the build and of the requests that changed it; of the register's bits, of the
 * protocol.
 *
 * What C must see to, in every call:
 * - a pointer is valid for as many bytes as the length behind it says (a length of 0 asks nothing of its pointer), room for PAGOZKIN_ROOM;
 * - a buffer that is written (a pointer without const) shares no byte with another buffer of the call;
 * - nothing else writes the buffers while the call runs, and the stack has room for it (PAGOZKIN_STACK_..).
 * Nothing more: frames, boards, numbers and lengths may be anything, and each call does its own checking. But it sees a number as C hands it
 * over, and C converts silently: with the usual compilers 65537 handed over as int16_t months is 1, 265 as int8_t offset is 9 and 257 as
 * uint8_t form is 1. Test a number that may not fit before you hand it over (-Wconversion warns).
 * In frames hex digits may be small letters, a to f: in checksums, escapes, header addresses, E "7" and SIZE and QQQQ of E "$", and
 * nowhere else. Hex digits that the calls store, reply and write are capitals; a block's data are copied as received.
 * No call keeps anything for the next one or takes memory besides the stack, so calls on different buffers may run at one time.
 * The library calls memcpy and memset and nothing else. */
#ifndef PAGOZKIN_H
#define PAGOZKIN_H

#include <stddef.h>
#include <stdint.h>

#ifdef __cplusplus
extern "C" {
#endif

/* The version of header and library: a changed struct, number or call changes the first part, an added one the second part;
 * where only what a call answers has changed, the third. */
#define PAGOZKIN_VERSION_MAJOR 5
#define PAGOZKIN_VERSION_MINOR 1
#define PAGOZKIN_VERSION_PATCH 0

/* Marks every call: an answer that is thrown away hides a refusal, and a compiler that can warns of it. */
#if defined(__GNUC__) || defined(__clang__)
#define PAGOZKIN_MUST_USE __attribute__((warn_unused_result))
#else
#define PAGOZKIN_MUST_USE
#endif

/* The limits: how long buffers and frames may be, and how much they may hold. */
#define PAGOZKIN_MOST_STANDARD 8192   /* bytes of a standard frame: 3 is "over 8,192 bytes standard" */
#define PAGOZKIN_MOST_PRINTABLE 24576 /* characters of a printable frame: "or 24,576 printable" */
#define PAGOZKIN_MOST_TRANSLATED 8192 /* bytes that a printable frame stands for: "or over 8,192 translated" */
#define PAGOZKIN_MOST_PAIRS 16        /* "1 to 16 pairs joined by commas" */
#define PAGOZKIN_MOST_BLOCKS 64       /* "1 to 64 blocks" */
#define PAGOZKIN_LEAST_MEMORY 64      /* "Memory is 64 to 32,768 bytes." */
#define PAGOZKIN_MOST_MEMORY 32768    /* the same */
#define PAGOZKIN_START_MEMORY 4186    /* memory that a frame with type "z" needs: 28 is "memory below 4,186 bytes" */
#define PAGOZKIN_MOST_FILES 64        /* "It holds 0 to 64 files" */
#define PAGOZKIN_RECORD 11            /* bytes of memory that a file takes besides its SIZE: "an 11-byte record" */
#define PAGOZKIN_FIRST_LABEL 0x20     /* "for each label 20H to 7EH": the first of them */
#define PAGOZKIN_PLACES 95            /* and how many they are */
#define PAGOZKIN_NOWHERE 0xFFFF       /* the place of a label that no file has: "that there is none" */
#define PAGOZKIN_REPLY_ROOM 64        /* what a reply buffer needs beyond the memory's length: "memory plus 64" */
#define PAGOZKIN_MOST_RESULT 24576    /* bytes of a result, in any form: "8,192 translated bytes", each at most three in print */

#define PAGOZKIN_FIRST_YEAR 2000      /* years of dates: "2000 to 2099" */
#define PAGOZKIN_LAST_YEAR 2099       /* the same */
#define PAGOZKIN_MOST_MONTHS 1199     /* months that a renewal counts, forward or back: "Counts run from -1,199 to 1,199." */

#define PAGOZKIN_MOST_OFFSET 9        /* degrees of a temperature offset, warmer or colder: "-9 to 9" */
#define PAGOZKIN_LEAST_READING (-128) /* degrees that are read: "a reading from -128 to 127" */
#define PAGOZKIN_MOST_READING 127     /* the same */

/* The bits of the serial error status register, of which bit 7 is "Always 0" and bit 6 "Always 1". */
#define PAGOZKIN_ERROR_PARITY 0x01   /* "Parity error": from the port driver */
#define PAGOZKIN_ERROR_FRAMING 0x02  /* "Bit framing error": from the port driver */
#define PAGOZKIN_ERROR_TIME_OUT 0x04 /* "Serial timeout": from the port driver */
#define PAGOZKIN_ERROR_OVERFLOW 0x08 /* "Insufficient serial buffer space": no call sets it */
#define PAGOZKIN_ERROR_CHECKSUM 0x10 /* "Serial Checksum Error": a block was refused with 20 */
#define PAGOZKIN_ERROR_ILLEGAL 0x20  /* "Illegal Command Code, File Label": a block was refused with 21 or 23 */
#define PAGOZKIN_NO_ERRORS 0x40      /* a cleared register: "default value (40H or 01000000B)" */

/* The room that a read is lent: bytes that a printable frame stands for, at most. */
#define PAGOZKIN_ROOM PAGOZKIN_MOST_TRANSLATED

/* Initialises an array of the types that a board may have: "Own type is one of Table 4's codes 23H to 26H, 31H, 32H, 43H, 44H, 45H,
 * 55H, 5EH, 61H to 72H, 74H, 75H." */
#define PAGOZKIN_OWN_TYPES                                                                              \
    {                                                                                                   \
        0x23, 0x24, 0x25, 0x26, 0x31, 0x32, 0x43, 0x44, 0x45, 0x55, 0x5E, 0x61, 0x62, 0x63, 0x64, 0x65, \
        0x66, 0x67, 0x68, 0x69, 0x6A, 0x6B, 0x6C, 0x6D, 0x6E, 0x6F, 0x70, 0x71, 0x72, 0x74, 0x75        \
    }

/* The numbers that come back. */
enum {
    PAGOZKIN_DONE = 0,             /* "frame run, written, re-formed or joined; fresh board made" */
    PAGOZKIN_NOT_SOUND = 1,        /* "board not sound" */
    PAGOZKIN_REPLY_TOO_SHORT = 2,  /* "reply buffer shorter than memory plus 64" */
    PAGOZKIN_WRONG_LENGTH = 3,     /* "input empty, over 8,192 bytes standard or 24,576 printable, or over 8,192 translated" */
    PAGOZKIN_WRONG_LEAD = 4,       /* "wrong first byte or lead" */
    PAGOZKIN_BAD_PRINTABLE = 5,    /* "printable: bad escape or byte outside 20H to 7EH" */
    PAGOZKIN_BAD_HEADER = 6,       /* "bad header", and ""z" beside other pairs" */
    PAGOZKIN_BAD_BODY = 7,         /* "bad body" */
    PAGOZKIN_READ_NOT_LAST = 8,    /* "a read that is not last" */
    PAGOZKIN_NOT_ADDRESSED = 9,    /* "not addressed" */
    PAGOZKIN_WRONG_TYPE = 10,      /* "fresh board: wrong type" */
    PAGOZKIN_WRONG_MEMORY = 11,    /* "wrong memory length" */
    PAGOZKIN_HEADERS_DIFFER = 12,  /* "join: header texts differ", in more than small letters of addresses */
    PAGOZKIN_FIRST_HAS_READ = 13,  /* "first frame has a read" */
    PAGOZKIN_NO_ROOM = 14,         /* "output buffer too short" */
    PAGOZKIN_WRONG_FORM = 15,      /* "form not 1, 2 or 3" */
    PAGOZKIN_BYTE_TOO_LOW = 16,    /* "command or data byte below 05H" */
    PAGOZKIN_WRONG_SUM = 17,       /* "input has a wrong checksum" */
    PAGOZKIN_TOO_LONG = 18,        /* "result over 8,192 translated bytes or 64 blocks" */
    PAGOZKIN_START_JOINED = 19,    /* "joining a "z" header" */
    PAGOZKIN_MEMORY_TOO_SMALL = 28 /* a frame with type "z": "memory below 4,186 bytes" */
};

/* "20 to 27 concern one block; the frame's number is 0." */
enum {
    PAGOZKIN_BLOCK_WRONG_CHECKSUM = 20, /* "block: wrong checksum" */
    PAGOZKIN_BLOCK_UNKNOWN = 21,        /* "unknown command byte or function label" */
    PAGOZKIN_BLOCK_MALFORMED = 22,      /* "data missing, in excess, or malformed" */
    PAGOZKIN_BLOCK_NO_FILE = 23,        /* "no file of that label and type" */
    PAGOZKIN_BLOCK_TOO_LONG = 24,       /* "message longer than SIZE" */
    PAGOZKIN_BLOCK_BAD_RECORD = 25,     /* ""$": bad record, count or length" */
    PAGOZKIN_BLOCK_LABEL_TWICE = 26,    /* "label twice" */
    PAGOZKIN_BLOCK_NO_ROOM = 27         /* "no room" */
};

/* Renewal dates, weekdays and days between dates: "in that order; all answer with zeros". */
enum {
    PAGOZKIN_NO_DATE = 30,       /* "a date that does not exist" */
    PAGOZKIN_COUNT_OUTSIDE = 31, /* "a count outside its range" */
    PAGOZKIN_RESULT_OUTSIDE = 32 /* "a result outside 2000 to 2099" */
};

/* A reading and the temperature offset: "in both the call answers 0". */
enum {
    PAGOZKIN_OFFSET_OUTSIDE = 1,  /* "an offset outside -9 to 9, from the call too": as a run answers for a board with such an offset */
    PAGOZKIN_READING_OUTSIDE = 33 /* "then 33 for a reading outside its range" */
};

/* The three forms of a frame. */
enum {
    PAGOZKIN_PLAIN_FORM = 1,    /* "blocks parted by ETX, EOT straight after the last data" */
    PAGOZKIN_SUMMED_FORM = 2,   /* "the same with ETX and checksum on each block" */
    PAGOZKIN_PRINTABLE_FORM = 3 /* "form 2 without the NULs, bytes below 20H, above 7EH and 5FH as escapes" */
};

/* "Settings travel as one record, handed in and handed back". The library keeps no clock: between runs the firmware's clock writes
 * hour, minute, month, day and year here, these alone and so that time and date exist. A run answers 1 where a field is not as said here.
 * Settings that an older version kept lack fields: docs/MIGRATING.md says what to write there, once.
 * The library keeps unused and places true: leave them alone, and errors to pagozkin_port_errors. */
typedef struct pagozkin_settings {
    uint8_t hour;    /* 0 to 23 */
    uint8_t minute;  /* 0 to 59 */
    uint8_t month;   /* "month 01 to 12" */
    uint8_t day;     /* 1 to the month's last, "with 29 February in each year divisible by four" */
    uint8_t year;    /* 0 to 99, "years being 2000 to 2099" */
    uint8_t format;  /* time format, "S" or "M" */
    uint8_t speaker; /* 1 on, 0 off */
    uint8_t address; /* serial address, "Any address 00 to FF is in range." */
    uint8_t own;     /* own type, "one of Table 4's codes" */
    uint8_t files;   /* "0 to 64 files" */
    uint16_t unused; /* "the memory length less, for each file, its record and its counted size": 0 to 32,768 */
    /* "for each label 20H to 7EH, where its record begins", or PAGOZKIN_NOWHERE */
    uint16_t places[PAGOZKIN_PLACES];
    int8_t offset;  /* temperature offset, set by E "T": "-9 to 9" */
    uint8_t errors; /* serial error status register, cleared by E "4" and, once it is told, by F "*": 40H to 7FH */
} pagozkin_settings;

/* "A run returns a number, blocks done, blocks refused, .." */
typedef struct pagozkin_tally {
    uint8_t done;    /* "blocks done" */
    uint8_t refused; /* "blocks refused" */
    uint8_t place;   /* "the place (from 1) .. of the first refused block", "0 if none" */
    uint8_t reason;  /* "and number of the first refused block", "0 if none" */
    size_t length;   /* "the reply's length", 0 "where there is no reply" */
} pagozkin_tally;

/* The outcome of a run. */
typedef struct pagozkin_answer {
    uint8_t number;             /* 0, or 1 to 9 or 28: "board and buffers untouched", the tally all 0 */
    pagozkin_tally tally;
    pagozkin_settings settings; /* the next settings; with 1 to 9 and 28 those handed in */
} pagozkin_answer;

/* The outcome of making a fresh board. */
typedef struct pagozkin_made {
    uint8_t number;             /* 0, 10 or 11 */
    pagozkin_settings settings; /* "from 10 or 11 all zero" */
} pagozkin_made;

/* The outcome of noting what the port driver saw. */
typedef struct pagozkin_driven {
    uint8_t number;             /* 0, or 1 with the settings as they were */
    pagozkin_settings settings; /* the next settings: their register alone is another */
} pagozkin_driven;

/* The outcome of writing, re-forming or joining. */
typedef struct pagozkin_written {
    uint8_t number; /* 0, or a refusal: "output .. untouched, length 0" */
    size_t length;  /* "The result starts the output buffer; .. its length is returned." */
} pagozkin_written;

/* Where header and blocks of a frame stand. */
typedef struct pagozkin_places {
    uint8_t number;    /* 0, or 3 to 8 with everything else 0 */
    uint8_t printable; /* 1: the bytes that the frame stands for are at the start of the room; 0: they are the frame itself */
    size_t length;     /* how many they are */
    size_t header;     /* where the header starts among them, as it was received; it ends where the body starts */
    size_t body;       /* where the first block's STX is among them */
} pagozkin_places;

/* What stands at a place of a frame. */
enum {
    PAGOZKIN_NO_BLOCK = 0, /* no good block */
    PAGOZKIN_MORE = 1,     /* a block, another one behind it */
    PAGOZKIN_LAST = 2      /* the last block */
};

/* "A block is STX, a command byte, data." */
typedef struct pagozkin_block_places {
    uint8_t kind;    /* one of the three above; with PAGOZKIN_NO_BLOCK the rest but next is 0 */
    uint8_t command; /* its command byte */
    uint8_t right;   /* 0: it has a checksum, and a wrong one; else 1 */
    size_t from;     /* where its data start */
    size_t to;       /* where they end: the first byte behind them */
    size_t next;     /* where the next block starts, or the end of the bytes */
} pagozkin_block_places;

/* A date, by itself. The settings keep a year of two digits, this has it in full: PAGOZKIN_FIRST_YEAR and the settings' year. */
typedef struct pagozkin_date {
    uint16_t year; /* 2000 to 2099 */
    uint8_t month; /* 1 to 12 */
    uint8_t day;   /* 1 to the month's last */
} pagozkin_date;

/* The outcome of a renewal. */
typedef struct pagozkin_renewed {
    uint8_t number;     /* 0, or 30, 31 or 32 with a date of zeros */
    pagozkin_date date; /* "the renewal date" */
} pagozkin_renewed;

/* The weekday of a date. */
typedef struct pagozkin_day_of_week {
    uint8_t number;  /* 0, or 30 with 0 */
    uint8_t weekday; /* "1 Sunday to 7 Saturday" */
} pagozkin_day_of_week;

/* The days between two dates. */
typedef struct pagozkin_days_apart {
    uint8_t number; /* 0, or 30 with 0 */
    int32_t days;   /* "negative when the second is earlier": -36,524 to 36,524 */
} pagozkin_days_apart;

/* A reading with the temperature offset added. */
typedef struct pagozkin_corrected {
    uint8_t number; /* 0, or 1 or 33 with 0 */
    int16_t sum;    /* "the exact sum": -137 to 136 */
} pagozkin_corrected;

/* Stack in bytes that a call needs, the settings that are handed over by value and memcpy and memset of the kit's C library included,
 * as libport.a stands (x86-64). */
#define PAGOZKIN_STACK_FRESH 768
#define PAGOZKIN_STACK_IS_SOUND 768
#define PAGOZKIN_STACK_RUN 12800
#define PAGOZKIN_STACK_WRITE 512
#define PAGOZKIN_STACK_REFORM 9216
#define PAGOZKIN_STACK_JOIN 17920
#define PAGOZKIN_STACK_READ 512
#define PAGOZKIN_STACK_STEP 512
#define PAGOZKIN_STACK_RENEWAL_DATE 512
#define PAGOZKIN_STACK_WEEKDAY 3072
#define PAGOZKIN_STACK_DAYS_BETWEEN 3072
#define PAGOZKIN_STACK_ADD_OFFSET 512
#define PAGOZKIN_STACK_PORT_ERRORS 768

/* "A fresh board has 00:00, 01 01 00, format S, speaker off, address 00, no files, memory all zero." 0, 10 or 11.
 * C must see to: memory valid for memory_len bytes. */
pagozkin_made pagozkin_fresh(uint8_t own, uint8_t *memory, size_t memory_len) PAGOZKIN_MUST_USE;

/* "A board is sound when all this holds": 1 if it is, 0 if not.
 * C must see to: memory valid for memory_len bytes. */
uint8_t pagozkin_is_sound(pagozkin_settings settings, const uint8_t *memory, size_t memory_len) PAGOZKIN_MUST_USE;

/* "running one frame on a board": 0, 1 to 9 or 28. A reply "stands at the start of the reply buffer; nothing after it is touched".
 * A frame whose header is one pair of type "z", as "z00", is for the first start of a new sign: every board whose address fits "first
 * gets, as by "$", files A to Z of 150 bytes each", TEXT and empty, and then runs the blocks. The files that it had are gone, whatever
 * becomes of the blocks; of the settings the start changes files, unused and places alone. With 28, memory too small, nothing changes.
 * C must see to: memory, reply and frame valid for their lengths, and no byte in two of them. */
pagozkin_answer pagozkin_run(pagozkin_settings settings, uint8_t *memory, size_t memory_len, uint8_t *reply, size_t reply_len,
                             const uint8_t *frame, size_t frame_len) PAGOZKIN_MUST_USE;

/* "writing a one-command frame": 0, 15, 6, 16, 18 or 14. header is the header's text, text the command's data;
 * the header's addresses are written in capitals.
 * C must see to: header, text and out valid for their lengths, and no byte of out in the others. */
pagozkin_written pagozkin_write(uint8_t form, const uint8_t *header, size_t header_len, uint8_t command, const uint8_t *text,
                                size_t text_len, uint8_t *out, size_t out_len) PAGOZKIN_MUST_USE;

/* "putting a frame into another form (re-forming)": 0, 15, 3 to 8, 17, 18 or 14. The header's addresses are written in capitals.
 * C must see to: frame and out valid for their lengths, and no byte of out in frame. */
pagozkin_written pagozkin_reform(uint8_t form, const uint8_t *frame, size_t frame_len, uint8_t *out,
                                 size_t out_len) PAGOZKIN_MUST_USE;

/* "Joining puts the second frame's blocks after the first's under the common header.": 0, 15, 3 to 8, 17, 12, 19, 13, 18 or 14.
 * "Headers that differ only in" small letters of their addresses "count as equal"; the common one is written in capitals.
 * Frames with type "z" are never joined, 19: "Two such frames would empty the files twice", the joined one only once.
 * C must see to: first, second and out valid for their lengths, and no byte of out in the others. */
pagozkin_written pagozkin_join(uint8_t form, const uint8_t *first, size_t first_len, const uint8_t *second, size_t second_len,
                               uint8_t *out, size_t out_len) PAGOZKIN_MUST_USE;

/* "How a frame reads": 0, or 3 to 8, and where its blocks start. A printable frame that is refused
 * neither with 3 nor with 5 leaves the bytes that it stands for at the start of the room, with 4, 6, 7 and 8 too; nothing behind
 * them is touched. Any other frame leaves the room untouched.
 * C must see to: frame valid for frame_len bytes, room for PAGOZKIN_ROOM, and no byte in both. */
pagozkin_places pagozkin_read(const uint8_t *frame, size_t frame_len, uint8_t room[PAGOZKIN_ROOM]) PAGOZKIN_MUST_USE;

/* "The blocks are taken by a reader that remembers the frame and its place in it.": the block at a place, at first places.body,
 * then block.next as long as kind is PAGOZKIN_MORE. bytes are the frame, or those in the room, places.length of them.
 * C must see to: bytes valid for bytes_len bytes; at may be any number. */
pagozkin_block_places pagozkin_step(const uint8_t *bytes, size_t bytes_len, size_t at) PAGOZKIN_MUST_USE;

/* "same day of the month as the first date, or that month's last day if it is shorter": 0, or 30, 31 or 32. months is the count,
 * forward or, below 0, back. "It is always reckoned from the first date": keep the first date of a permit and count from it, since
 * a renewal date that is renewed again loses the days that a short month cut off. */
pagozkin_renewed pagozkin_renewal_date(pagozkin_date first, int16_t months) PAGOZKIN_MUST_USE;

/* "the weekday (1 Sunday to 7 Saturday; 1 January 2000 gives 7)": 0, or 30. */
pagozkin_day_of_week pagozkin_weekday(pagozkin_date date) PAGOZKIN_MUST_USE;

/* "the days between two dates, negative when the second is earlier": 0, or 30 where either date does not exist. */
pagozkin_days_apart pagozkin_days_between(pagozkin_date first, pagozkin_date second) PAGOZKIN_MUST_USE;

/* "adds the offset to a reading from -128 to 127 and returns the exact sum": 0, 1 or 33; 1 is tested first. offset is the settings' own, which
 * after a run that was not answered with 1 is -9 to 9; reading is what the sensor says. The sum of a good pair is always answered,
 * also where a byte would not hold it: show sum, and not a part of it. */
pagozkin_corrected pagozkin_add_offset(int8_t offset, int16_t reading) PAGOZKIN_MUST_USE;

/* "Parity, framing and time-out bits come from the port driver through a call, which ignores other bits.": 0, or 1 where the
 * register's fixed bits are wrong. bits are PAGOZKIN_ERROR_PARITY, .._FRAMING and .._TIME_OUT, any of them together; one that is not
 * there stays as it was. Nothing else of the settings is looked at. Between runs, not while one runs: the settings that a run answers
 * are made from those which it was handed, so that bits set meanwhile would be lost. What was seen while a frame came in is best set
 * before that frame is run: then F "*" in it tells it. */
pagozkin_driven pagozkin_port_errors(pagozkin_settings settings, uint8_t bits) PAGOZKIN_MUST_USE;

#ifdef __cplusplus
}
#endif

#endif
