/* tests/c/replay.c with the careful reference in the library's place: the same cases, guards and stack. */
#include "careful.h"

#define pagozkin_read careful_read
#define pagozkin_step careful_step
#define pagozkin_is_sound careful_is_sound
#define pagozkin_run careful_run
#define pagozkin_write careful_write
#define pagozkin_reform careful_reform
#define pagozkin_join careful_join

#include "../tests/c/replay.c"
