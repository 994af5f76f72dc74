/* Runs a checker for bench/measure:
     harness verdicts NAME <PAIRS                judges framed pairs, prints as the program does, tries rooms
     harness calls NAME DAY CLEARING COUNT       judges one pair COUNT times, for counting instructions
     harness times SECONDS DAY CLEARING NAME...  times the named on one pair, in turn */
#include <stdio.h>
#include <stdlib.h>
#include <string.h>
#include <time.h>

#include "../include/ayinzhad.h"

typedef uint8_t check(const uint8_t *, size_t, const uint8_t *, size_t, uint8_t *, size_t, size_t *, size_t);
check rival_check, tuned_check, ordered_check, floor_check;

static const struct checker {
    const char *name;
    check *check;
} checkers[] = {{"ayinzhad", ayinzhad_check}, {"rival", rival_check}, {"tuned", tuned_check},
                {"ordered", ordered_check}, {"floor", floor_check}};

/* A file is cut at MOST bytes, longer than any that reads without fault. A room has some bytes BEHIND the
   longest statement. */
enum { MOST = 65536, PERIODS = 25, HEAD = 4 + 8 * AYINZHAD_TOTALS, ROOM = AYINZHAD_LONGEST, BEHIND = 16 };

struct file {
    uint8_t bytes[MOST];
    size_t length;
};

struct verdict {
    unsigned number;
    size_t place[AYINZHAD_PLACE];
};

static _Noreturn void fail(const char *what, const char *which)
{
    fprintf(stderr, "harness: %s %s\n", what, which);
    exit(1);
}

static check *find_checker(const char *name)
{
    for (size_t i = 0; i < sizeof checkers / sizeof *checkers; i++)
        if (strcmp(checkers[i].name, name) == 0) return checkers[i].check;
    fail("no checker is called", name);
}

/* One call of a checker; a function of its own, for the count of instructions begins and ends with it. */
__attribute__((noinline))
static struct verdict harness_call(check *by, const struct file *day, const struct file *clearing,
                                   uint8_t *room, size_t length)
{
    struct verdict v;
    v.number = by(day->bytes, day->length, clearing->bytes, clearing->length, room, length, v.place,
                  AYINZHAD_PLACE);
    return v;
}

/* -------------------------------------------------- verdicts */

static unsigned at16(const uint8_t *p) { return p[0] | (unsigned)p[1] << 8; }

static uint32_t at32(const uint8_t *p) { return at16(p) | (uint32_t)at16(p + 2) << 16; }

static int64_t at64(const uint8_t *p) { return (int64_t)(at32(p) | (uint64_t)at32(p + 4) << 32); }

static void take(uint8_t *to, size_t length)
{
    if (fread(to, 1, length, stdin) != length) fail("the pairs end early", "");
}

/* Takes a file of so many bytes: the first MOST of them, and passes over the rest. */
static void take_file(struct file *file, size_t length)
{
    file->length = length < MOST ? length : MOST;
    take(file->bytes, file->length);
    for (length -= file->length; length; length--)
        if (getchar() == EOF) fail("the pairs end early", "");
}

/* Prints the number and the place. */
static void print_verdict(const struct verdict *v)
{
    printf("verdict %u", v->number);
    for (size_t i = 0; i < AYINZHAD_PLACE; i++) printf(" %zu", v->place[i]);
    putchar('\n');
}

/* Prints an accepted day's statement and gives its length. */
static size_t print_statement(const struct file *day, const uint8_t *room)
{
    static const char *const names[] = {"order value", "buyers", "sellers", "rent", "traded", "shortfall"};
    size_t periods = at16(day->bytes), count = at16(room + HEAD - 2);
    if (periods < 1 || periods > PERIODS || at16(room) != AYINZHAD_TOTALS || HEAD + 4 * count > ROOM)
        fail("an accepted day", "has no statement");
    for (size_t i = 0; i < AYINZHAD_TOTALS; i++)
        printf("%s %lld\n", names[i], (long long)at64(room + 2 + 8 * i));
    const uint8_t *codes = day->bytes + 4 + 8 * periods, *nets = room + HEAD;
    for (size_t i = 0; i < count; i++)
        printf("net %u %zu %d\n", at16(codes + 2 * (i / periods)), i % periods, (int32_t)at32(nets + 4 * i));
    return HEAD + 4 * count;
}

static int all_are(const uint8_t *bytes, size_t length, uint8_t value)
{
    for (size_t i = 0; i < length; i++)
        if (bytes[i] != value) return 0;
    return 1;
}

/* Other rooms for an accepted pair with this statement: one a byte too short is 18 and stays as it was, one
   that just fits gets the statement and no more; and a place one number short is 255 and changes nothing. */
static void try_rooms(check *by, const struct file *day, const struct file *clearing, const uint8_t *room,
                      size_t length)
{
    uint8_t other[ROOM + BEHIND];
    memset(other, 0x55, sizeof other);
    struct verdict v = harness_call(by, day, clearing, other, length - 1);
    if (v.number != 18 || !all_are((const uint8_t *)v.place, sizeof v.place, 0)
        || !all_are(other, sizeof other, 0x55))
        fail("a room one byte short", "is not 18, or changed");
    v = harness_call(by, day, clearing, other, length);
    if (v.number || memcmp(other, room, length) || !all_are(other + length, sizeof other - length, 0x55))
        fail("a room that just fits", "is not the statement alone");
    memset(v.place, 0x55, sizeof v.place);
    if (by(day->bytes, day->length, clearing->bytes, clearing->length, other, length, v.place,
           AYINZHAD_PLACE - 1) != AYINZHAD_WRONG_LENGTH
        || !all_are((const uint8_t *)v.place, sizeof v.place, 0x55))
        fail("a place one number short", "is not 255, or changed");
}

static void verdicts(check *by)
{
    static struct file day, clearing;
    uint8_t lengths[8], room[ROOM + BEHIND];
    while (fread(lengths, 1, 1, stdin) == 1) {
        take(lengths + 1, 7);
        take_file(&day, at32(lengths));
        take_file(&clearing, at32(lengths + 4));
        memset(room, 0xaa, sizeof room);
        struct verdict v = harness_call(by, &day, &clearing, room, ROOM);
        print_verdict(&v);
        size_t length = v.number ? 0 : print_statement(&day, room);
        if (!all_are(room + length, sizeof room - length, 0xaa))
            fail("a room changed", v.number ? "by a refusal" : "behind the statement");
        if (length) try_rooms(by, &day, &clearing, room, length);
    }
}

/* -------------------------------------------------- calls and times of one pair */

static void load(struct file *file, const char *name)
{
    FILE *from = fopen(name, "rb");
    if (!from) fail("cannot open", name);
    file->length = fread(file->bytes, 1, MOST, from);
    fclose(from);
}

static void calls(check *by, const struct file *day, const struct file *clearing, long count)
{
    static uint8_t room[ROOM];
    for (long i = 0; i < count; i++)
        if (harness_call(by, day, clearing, room, ROOM).number) fail("the day", "was refused");
}

/* The seconds on a clock that never goes back. */
static double now(void)
{
    struct timespec at;
    clock_gettime(CLOCK_MONOTONIC, &at);
    return (double)at.tv_sec + 1e-9 * (double)at.tv_nsec;
}

static int by_size(const void *a, const void *b)
{
    double x = *(const double *)a, y = *(const double *)b;
    return (x > y) - (x < y);
}

/* Rounds until the seconds are over, in each of which every checker is timed once; each round begins with
   the next of them, so that none is always behind the same. The first rounds only warm up. */
enum { WARM = 10, FEWEST = 50, ROUNDS = 5000, CHECKERS = sizeof checkers / sizeof *checkers };

static void times(double seconds, const struct file *day, const struct file *clearing, char **names, int n)
{
    static double taken[CHECKERS][ROUNDS];
    check *by[CHECKERS];
    if (n > CHECKERS) fail("too many", "checkers");
    for (int i = 0; i < n; i++) by[i] = find_checker(names[i]);

    const double end = now() + seconds;
    long rounds = -WARM;
    for (; rounds < FEWEST || (rounds < ROUNDS && now() < end); rounds++)
        for (int turn = 0; turn < n; turn++) {
            int i = (int)((turn + rounds + WARM) % n);
            double from = now();
            calls(by[i], day, clearing, 1);
            if (rounds >= 0) taken[i][rounds] = 1e6 * (now() - from);
        }

    printf("%ld rounds\n", rounds);
    for (int i = 0; i < n; i++) {
        qsort(taken[i], (size_t)rounds, sizeof(double), by_size);
        printf("%-28s %9.2f median %9.2f lowest, in microseconds\n", names[i], taken[i][rounds / 2],
               taken[i][0]);
    }
    for (int i = 1; i < n; i++)
        printf("%s / %-*s %9.2f median %9.2f lowest\n", names[0], 25 - (int)strlen(names[0]), names[i],
               taken[0][rounds / 2] / taken[i][rounds / 2], taken[0][0] / taken[i][0]);
}

int main(int argc, char **argv)
{
    static struct file day, clearing;
    if (argc == 3 && strcmp(argv[1], "verdicts") == 0) {
        verdicts(find_checker(argv[2]));
        return 0;
    }
    if (argc < 6)
        fail("usage: verdicts NAME, calls NAME DAY CLEARING COUNT,", "times SECONDS DAY CLEARING NAME...");
    load(&day, argv[3]);
    load(&clearing, argv[4]);
    if (strcmp(argv[1], "calls") == 0) calls(find_checker(argv[2]), &day, &clearing, atol(argv[5]));
    else if (strcmp(argv[1], "times") == 0) times(atof(argv[2]), &day, &clearing, argv + 5, argc - 5);
    else fail("no such word:", argv[1]);
    return 0;
}
