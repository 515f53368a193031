/* pagozkin_step beside a plain reading of one block, byte by byte: data of 0 to 100 bytes, so of up to six whole strides and every rest,
 * with each control byte at each place, good and bad ends, right and wrong sums, in capitals and in small letters, and long ones whose sum is carried out of 16 bits. The
 * compiler makes wide instructions of the library's steps, and no proof covers the compiler. */
#include "digits.h"
#include "expect.h"

#include <pagozkin.h>
#include <string.h>

enum { STX = 2, ETX = 3, EOT = 4, PLAIN = 5, LONGEST = 100, CARRYING = 600 };

static uint8_t bytes[CARRYING + 64];
static size_t length;
static size_t tried;

static unsigned byte_at(size_t i)
{
    return i < length ? bytes[i] : 0;
}

static int digit(unsigned c)
{
    return c >= '0' && c <= '9' ? (int)c - '0' : c >= 'A' && c <= 'F' ? (int)c - 'A' + 10 : c >= 'a' && c <= 'f' ? (int)c - 'a' + 10 : -1;
}

static pagozkin_block_places no_block(void)
{
    pagozkin_block_places b = {PAGOZKIN_NO_BLOCK, 0, 0, 0, 0, 0};
    b.next = length;
    return b;
}

/* "then STX or EOT", EOT "as the very last byte": a block, by what stands behind it. */
static pagozkin_block_places follow(pagozkin_block_places b, size_t next)
{
    int more = byte_at(next) == STX;
    if (!more && (byte_at(next) != EOT || next + 1 != length))
        return no_block();
    b.kind = more ? PAGOZKIN_MORE : PAGOZKIN_LAST;
    b.next = more ? next : length;
    return b;
}

static pagozkin_block_places plain_step(void)
{
    if (byte_at(0) != STX || byte_at(1) < PLAIN)
        return no_block();
    pagozkin_block_places b = {PAGOZKIN_NO_BLOCK, (uint8_t)byte_at(1), 1, 2, 2, 0};
    unsigned sum = STX + byte_at(1) + ETX;
    for (; byte_at(b.to) >= PLAIN; b.to++)
        sum += byte_at(b.to);
    if (byte_at(b.to) == EOT)
        return follow(b, b.to);
    if (byte_at(b.to) != ETX)
        return no_block();
    if (byte_at(b.to + 1) == STX || byte_at(b.to + 1) == EOT)
        return follow(b, b.to + 1);
    unsigned carried = 0;
    for (size_t i = b.to + 1; i < b.to + 5; i++) {
        if (digit(byte_at(i)) < 0)
            return no_block();
        carried = carried * 16 + (unsigned)digit(byte_at(i));
    }
    b.right = carried == (sum & 0xFFFF);
    return follow(b, b.to + 5);
}

static void compare(void)
{
    pagozkin_block_places ours = pagozkin_step(bytes, length, 0);
    pagozkin_block_places theirs = plain_step();
    IS(ours.kind, theirs.kind);
    IS(ours.command, theirs.command);
    IS(ours.right, theirs.right);
    IS(ours.from, theirs.from);
    IS(ours.to, theirs.to);
    IS(ours.next, theirs.next);
    tried++;
}

static void put(const char *text, size_t n)
{
    memcpy(bytes + length, text, n);
    length += n;
}

/* STX, a command byte and n bytes of data, which differ from one block to the next. */
static void begin(size_t n, unsigned command)
{
    length = 0;
    put("\002", 1);
    bytes[length++] = (uint8_t)command;
    for (size_t i = 0; i < n; i++)
        bytes[length++] = (uint8_t)(PLAIN + (i * 37 + n * 11 + command) % (256 - PLAIN));
}

/* ETX, and the checksum with `off` added to it. */
static void end_with_sum(size_t off)
{
    put("\003", 1);
    size_t sum = off;
    for (size_t i = 0; i < length; i++)
        sum += bytes[i];
    put_hex(bytes + length, sum, 4);
    length += 4;
}

/* The sum's digits as small letters. */
static void in_small(size_t at)
{
    for (size_t i = at; i < at + 4; i++)
        if (bytes[i] >= 'A')
            bytes[i] += 'a' - 'A';
}

/* Good ends, then bad ones. */
static const char *const ends[] = {
    "\004", "\003\004", "\003\002", "\003\002AB\003\002CDEFGHIJKLMNOPQ\003\004", "\003", "\003\001", "", "\001", "\003X",
};

static void blocks(size_t n)
{
    for (size_t e = 0; e < sizeof ends / sizeof ends[0]; e++) {
        begin(n, 'A');
        put(ends[e], strlen(ends[e]));
        compare();
        for (unsigned control = 0; control < PLAIN; control++)
            for (size_t at = 0; at < n; at++) {
                uint8_t kept = bytes[2 + at];
                bytes[2 + at] = (uint8_t)control;
                compare();
                bytes[2 + at] = kept;
            }
    }
    for (unsigned command = PLAIN - 1; command < 256; command += 25)
        for (unsigned off = 0; off < 4; off++) {
            static const size_t by[] = {0, 1, 0xFFFF, 0x100};
            begin(n, command);
            end_with_sum(by[off]);
            put("\004", 1);
            compare();
            bytes[length - 1] = STX;
            compare();
            in_small(length - 5);
            compare();
        }
    /* every byte in the place of each digit of the sum */
    for (size_t k = 2; k <= 5 && n < 17; k++)
        for (unsigned c = 0; c < 256; c++) {
            begin(n, 'A');
            end_with_sum(0);
            put("\004", 1);
            bytes[length - k] = (uint8_t)c;
            compare();
        }
    /* a byte of the data is another than the sum has it */
    for (size_t at = 0; at < n; at++) {
        begin(n, 'G');
        end_with_sum(0);
        put("\004", 1);
        bytes[2 + at] ^= 0x20;
        compare();
    }
}

/* Bytes FFH, whose sums go over 65,535. */
static void carries(size_t n)
{
    begin(n, 'A');
    memset(bytes + 2, 0xFF, n);
    end_with_sum(0);
    put("\004", 1);
    compare();
}

int main(void)
{
    for (size_t n = 0; n <= LONGEST; n++)
        blocks(n);
    for (size_t n = 200; n <= CARRYING; n++)
        carries(n);
    if (faults == 0)
        printf("steps: %zu blocks are taken as a plain reading takes them\n", tried);
    return faults != 0;
}
