/* The verdict on FOLDER/day.bin and FOLDER/clearing.bin, as the program `ayinzhad` prints it.
 *
 *   cc -O2 -Iinclude examples/verdict.c target/staticlib/libembed.a -o target/verdict-c
 *   target/verdict-c samples/accepted
 */
#include <inttypes.h>
#include <stdio.h>
#include <string.h>

#include "ayinzhad.h"

#define MOST 65536 /* longer than any file that reads without fault */

/* The bytes of a file up to MOST, or -1 where it can't be opened or read. */
static long read_file(const char *folder, const char *name, uint8_t *bytes)
{
    char path[4096];
    if ((size_t)snprintf(path, sizeof path, "%s/%s", folder, name) >= sizeof path)
        return -1;
    FILE *file = fopen(path, "rb");
    if (file == NULL)
        return -1;
    size_t length = fread(bytes, 1, MOST, file);
    int failed = ferror(file);
    fclose(file);
    return failed ? -1 : (long)length;
}

/* A whole number in little-endian bytes, the sign in the highest bit of the last one. */
static int64_t number(const uint8_t *bytes, size_t width)
{
    uint64_t n = 0;
    for (size_t k = 0; k < width; k++)
        n |= (uint64_t)bytes[k] << (8 * k);
    uint64_t sign = (uint64_t)1 << (8 * width - 1);
    return (int64_t)((n ^ sign) - sign);
}

int main(int count, char **words)
{
    static uint8_t day[MOST], clearing[MOST];
    const char *folder = count > 1 ? words[1] : ".";
    long day_length = read_file(folder, "day.bin", day);
    if (day_length < 0)
        return puts("missing day"), 0;
    long clearing_length = read_file(folder, "clearing.bin", clearing);
    if (clearing_length < 0)
        return puts("missing clearing"), 0;

    uint8_t room[AYINZHAD_LONGEST];
    size_t place[AYINZHAD_PLACE];
    uint8_t verdict = ayinzhad_check(day, day_length, clearing, clearing_length, room, sizeof room, place, AYINZHAD_PLACE);
    printf("verdict %u %zu %zu %zu\n", verdict, place[0], place[1], place[2]);
    if (verdict != 0)
        return 0;

    static const char *const names[AYINZHAD_TOTALS] = {"order value", "buyers", "sellers", "rent", "traded", "shortfall"};
    int64_t totals[AYINZHAD_TOTALS];
    ayinzhad_totals(day, day_length, clearing, clearing_length, totals, AYINZHAD_TOTALS);
    for (size_t k = 0; k < AYINZHAD_TOTALS; k++)
        printf("%s %" PRId64 "\n", names[k], totals[k]);

    size_t periods[AYINZHAD_PLACE], codes[AYINZHAD_PLACE];
    ayinzhad_look_up(day, day_length, 1, periods, AYINZHAD_PLACE);
    ayinzhad_look_up(day, day_length, 2, codes, AYINZHAD_PLACE);
    size_t hours = periods[1] / 8;
    for (size_t k = 0; k < codes[1] / 2 * hours; k++) {
        const uint8_t *code = day + codes[0] + 2 * (k / hours);
        printf("net %u %zu %" PRId64 "\n", code[0] | code[1] << 8, k % hours, number(room + 52 + 4 * k, 4));
    }
    return 0;
}
