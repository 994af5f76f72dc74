/* The ordered judge alone: it decides what a quick pass doubts, and here that is every pair. It is not
   measured, but held to the stored verdicts as the rivals are, statements included. */
#include "judge.h"

static int quick(const struct files *f, uint32_t *leaving, uint64_t *totals)
{
    (void)f;
    (void)leaving;
    (void)totals;
    return 0;
}

uint8_t ordered_check(const uint8_t *day, size_t day_length, const uint8_t *clearing, size_t clearing_length,
                      uint8_t *room, size_t room_length, size_t *place, size_t places)
{
    const struct rest day_rest = {day, day_length}, clearing_rest = {clearing, clearing_length};
    return check_by(quick, day_rest, clearing_rest, room, room_length, place, places);
}
