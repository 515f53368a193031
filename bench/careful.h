/* The calls of pagozkin.h once more, in careful C: the yardstick that bench.c holds the library to. Same arguments, same answers, same
 * bytes in every buffer, and the same that C must see to. No memory besides the stack, and nothing kept from call to call. */
#ifndef CAREFUL_H
#define CAREFUL_H

#include <pagozkin.h>

pagozkin_places careful_read(const uint8_t *frame, size_t frame_len, uint8_t room[PAGOZKIN_ROOM]);

pagozkin_block_places careful_step(const uint8_t *bytes, size_t bytes_len, size_t at);

uint8_t careful_is_sound(pagozkin_settings settings, const uint8_t *memory, size_t memory_len);

pagozkin_answer careful_run(pagozkin_settings settings, uint8_t *memory, size_t memory_len, uint8_t *reply, size_t reply_len,
                            const uint8_t *frame, size_t frame_len);

pagozkin_written careful_write(uint8_t form, const uint8_t *header, size_t header_len, uint8_t command, const uint8_t *text,
                               size_t text_len, uint8_t *out, size_t out_len);

pagozkin_written careful_reform(uint8_t form, const uint8_t *frame, size_t frame_len, uint8_t *out, size_t out_len);

pagozkin_written careful_join(uint8_t form, const uint8_t *first, size_t first_len, const uint8_t *second, size_t second_len,
                              uint8_t *out, size_t out_len);

#endif
