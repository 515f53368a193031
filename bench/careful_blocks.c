/* Blocks: "A block is STX, a command byte, data." */
#include "careful_inside.h"

int careful_begin(const uint8_t *at, const uint8_t *end, careful_block *block)
{
    if (end - at < 2 || at[0] != STX || at[1] < LOWEST_DATA)
        return 0;
    block->command = at[1];
    block->data = at + 2;
    return 1;
}

void careful_walk(const uint8_t *end, careful_block *block)
{
    const uint8_t *p = block->data;
    /* "adds every byte from STX to ETX, both counted" */
    unsigned sum = STX + ETX + (unsigned)block->command;
    while (p < end && *p >= LOWEST_DATA)
        sum += *p++;
    block->end = p;
    block->sum = sum;
}

size_t careful_walk_counting(const uint8_t *end, careful_block *block)
{
    const uint8_t *p = block->data;
    unsigned sum = STX + ETX + (unsigned)block->command;
    size_t escapes = (size_t)careful_needs_escape(block->command);
    for (; p < end && *p >= LOWEST_DATA; p++) {
        sum += *p;
        escapes += (size_t)careful_needs_escape(*p);
    }
    block->end = p;
    block->sum = sum;
    return escapes;
}

/* Whether the next block or the frame's end stands here: "STX or EOT". */
static int is_next(const uint8_t *p, const uint8_t *end)
{
    return p < end && (*p == STX || *p == EOT);
}

/* "otherwise four upper-case hex digits, then STX or EOT"; small letters too. */
static int finish_sum(const uint8_t *p, const uint8_t *end, careful_block *block)
{
    unsigned a, b, c, d;
    if (end - p <= SUM_DIGITS)
        return 0;
    a = careful_frame_digit(p[0]);
    b = careful_frame_digit(p[1]);
    c = careful_frame_digit(p[2]);
    d = careful_frame_digit(p[3]);
    if ((a | b | c | d) & NO_DIGIT)
        return 0;
    block->right = (a << 12 | b << 8 | c << 4 | d) == (block->sum & 0xFFFF);
    block->next = p + SUM_DIGITS;
    return is_next(block->next, end);
}

/* "ETX ends a block; only the last may end at EOT without it. After ETX, STX or EOT means no checksum" */
static int is_finished(const uint8_t *end, careful_block *block)
{
    const uint8_t *p = block->end;
    block->right = 1;
    block->next = p;
    if (p == end)
        return 0;
    if (*p == EOT)
        return 1;
    if (*p != ETX)
        return 0;
    block->next = ++p;
    return is_next(p, end) || finish_sum(p, end, block);
}

void careful_finish(const uint8_t *end, careful_block *block)
{
    block->kind = PAGOZKIN_NO_BLOCK;
    if (!is_finished(end, block))
        return;
    if (*block->next == STX)
        block->kind = PAGOZKIN_MORE;
    else if (end - block->next == 1) /* "then EOT as the very last byte" */
        block->kind = PAGOZKIN_LAST;
}

uint8_t careful_take(const uint8_t *at, const uint8_t *end, careful_block *block)
{
    if (!careful_begin(at, end, block))
        return PAGOZKIN_NO_BLOCK;
    careful_walk(end, block);
    careful_finish(end, block);
    return block->kind;
}

/* "A read (codes "B", "F", "H", "J", "N")" */
static int is_read(uint8_t command)
{
    return command == 'B' || command == 'F' || command == 'H' || command == 'J' || command == 'N';
}

uint8_t careful_judge(const careful_frame *frame, int counting, careful_facts *facts)
{
    const uint8_t *end = frame->bytes + frame->length;
    int early_read = 0;
    careful_block block;
    facts->blocks = facts->data = facts->escapes = 0;
    facts->sums_right = 1;
    facts->has_read = 0;
    block.next = frame->bytes + frame->body;
    do {
        early_read |= facts->has_read;
        if (facts->blocks == PAGOZKIN_MOST_BLOCKS || !careful_begin(block.next, end, &block))
            return PAGOZKIN_BAD_BODY;
        if (counting)
            facts->escapes += careful_walk_counting(end, &block);
        else
            careful_walk(end, &block);
        careful_finish(end, &block);
        if (block.kind == PAGOZKIN_NO_BLOCK)
            return PAGOZKIN_BAD_BODY;
        facts->blocks++;
        facts->data += (size_t)(block.end - block.data);
        facts->sums_right &= block.right;
        facts->has_read = (uint8_t)is_read(block.command);
    } while (block.kind == PAGOZKIN_MORE);
    /* "may only be the last block, good sum or not"; only now, for a bad body comes before it */
    return early_read ? PAGOZKIN_READ_NOT_LAST : PAGOZKIN_DONE;
}

pagozkin_block_places careful_step(const uint8_t *bytes, size_t bytes_len, size_t at)
{
    pagozkin_block_places places = {PAGOZKIN_NO_BLOCK, 0, 0, 0, 0, 0};
    careful_block block;
    places.next = bytes_len;
    if (at >= bytes_len || careful_take(bytes + at, bytes + bytes_len, &block) == PAGOZKIN_NO_BLOCK)
        return places;
    places.kind = block.kind;
    places.command = block.command;
    places.right = block.right;
    places.from = (size_t)(block.data - bytes);
    places.to = (size_t)(block.end - bytes);
    if (block.kind == PAGOZKIN_MORE)
        places.next = (size_t)(block.next - bytes);
    return places;
}
