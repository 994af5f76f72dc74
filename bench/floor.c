/* The floor: the least that a checker must do, which is to read both files. It is called like a checker,
   gives 0 and as the place the sum of each file and 0, and leaves the room as it was. */
#include <stddef.h>
#include <stdint.h>
#include <string.h>

/* A file as 64-bit words, and its last few bytes. */
static uint64_t sum(const uint8_t *file, size_t length)
{
    uint64_t total = 0, word;
    size_t at = 0;
    for (; length - at >= 8; at += 8) {
        memcpy(&word, file + at, 8);
        total += word;
    }
    for (; at < length; at++) total += file[at];
    return total;
}

uint8_t floor_check(const uint8_t *day, size_t day_length, const uint8_t *clearing, size_t clearing_length,
                    uint8_t *room, size_t room_length, size_t *place, size_t places)
{
    (void)room;
    (void)room_length;
    if (places != 3) return 255;
    place[0] = sum(day, day_length);
    place[1] = sum(clearing, clearing_length);
    place[2] = 0;
    return 0;
}
