/* Throws the answer of every call away: with -Werror it must not compile. With -DKEEP it keeps them, and must. */
#include <pagozkin.h>

#ifdef KEEP
#define ANSWER(name) name =
#else
#define ANSWER(name)
#endif

pagozkin_made made;
uint8_t sound;
pagozkin_answer answer;
pagozkin_written written;
pagozkin_places places;
pagozkin_block_places block;
pagozkin_renewed renewed;
pagozkin_day_of_week day;
pagozkin_days_apart apart;
pagozkin_corrected corrected;
pagozkin_driven driven;

void calls(pagozkin_settings settings, pagozkin_date date, uint8_t *a, uint8_t *b, const uint8_t *c, size_t n);

void calls(pagozkin_settings settings, pagozkin_date date, uint8_t *a, uint8_t *b, const uint8_t *c, size_t n)
{
    ANSWER(made) pagozkin_fresh('C', a, n);
    ANSWER(sound) pagozkin_is_sound(settings, a, n);
    ANSWER(answer) pagozkin_run(settings, a, n, b, n, c, n);
    ANSWER(written) pagozkin_write(PAGOZKIN_PLAIN_FORM, c, n, 'A', c, n, a, n);
    ANSWER(written) pagozkin_reform(PAGOZKIN_PLAIN_FORM, c, n, a, n);
    ANSWER(written) pagozkin_join(PAGOZKIN_PLAIN_FORM, c, n, c, n, a, n);
    ANSWER(places) pagozkin_read(c, n, a);
    ANSWER(block) pagozkin_step(c, n, 0);
    ANSWER(renewed) pagozkin_renewal_date(date, 1);
    ANSWER(day) pagozkin_weekday(date);
    ANSWER(apart) pagozkin_days_between(date, date);
    ANSWER(corrected) pagozkin_add_offset(0, 0);
    ANSWER(driven) pagozkin_port_errors(settings, PAGOZKIN_ERROR_PARITY);
}
