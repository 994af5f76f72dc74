"""The edges of include/ayinzhad.h: pointers to nothing, buffers of other lengths, rooms too short, sections that are not there.

    python3 examples/edges.py target/libayinzhad.so samples/accepted
"""
import ctypes
import pathlib
import sys

from verdict import PLACE, Ayinzhad

FILL = 170


def filled(kind, length):
    return (kind * length)(*[FILL] * length)


def main(path, folder):
    checker = Ayinzhad(path)
    library = checker.library
    day, clearing = (pathlib.Path(folder, name).read_bytes() for name in ("day.bin", "clearing.bin"))
    files = (day, len(day), clearing, len(clearing))
    said = []

    def hold(what, got, wanted):
        said.append(got == wanted)
        print("%-58s %s" % (what, "holds" if got == wanted else "is %r and not %r" % (got, wanted)))

    # pointers to nothing, with length 0
    place = filled(ctypes.c_size_t, PLACE)
    hold("no files at all", (library.ayinzhad_check(None, 0, None, 0, None, 0, place, PLACE), *place), (1, 1, 0, 0))
    place = filled(ctypes.c_size_t, PLACE)
    hold("no clearing file", (library.ayinzhad_check(day, len(day), None, 0, None, 0, place, PLACE), *place), (5, 1, 0, 0))
    place = filled(ctypes.c_size_t, PLACE)
    hold("no room", (library.ayinzhad_check(*files, None, 0, place, PLACE), *place), (18, 0, 0, 0))
    hold("no place", library.ayinzhad_check(*files, None, 0, None, 0), 255)
    hold("no totals", library.ayinzhad_totals(*files, None, 0), 255)
    hold("nothing for what is found", library.ayinzhad_look_up(day, len(day), 1, None, 0), 255)

    # rooms
    for length, number, place in ((59, 18, (0, 0, 0)), (60, 0, (0, 0, 0)), (61, 0, (0, 0, 0))):
        room, lent = filled(ctypes.c_uint8, length), filled(ctypes.c_size_t, PLACE)
        got = library.ayinzhad_check(*files, room, length, lent, PLACE), tuple(lent)
        hold("a room of %d bytes" % length, got, (number, place))
        kept = bytes(room) if number else bytes(room)[60:]
        hold("  is as it was" if number else "  is as it was behind the statement", kept, bytes([FILL]) * len(kept))

    # answers of another length: 255, and nothing changes
    for length in (0, 1, 2, 4):
        room, lent = filled(ctypes.c_uint8, 60), filled(ctypes.c_size_t, length)
        got = library.ayinzhad_check(*files, room, 60, lent, length)
        hold("a place of %d" % length, (got, set(lent) | set(room)), (255, {FILL}))
        got = library.ayinzhad_look_up(day, len(day), 2, lent, length)
        hold("a find of %d" % length, (got, set(lent)), (255, {FILL} if length else set()))
    for length in (0, 5, 7):
        lent = filled(ctypes.c_int64, length)
        got = library.ayinzhad_totals(*files, lent, length)
        hold("totals of %d" % length, (got, set(lent)), (255, {FILL} if length else set()))

    # a refusal gives zero totals
    lent = filled(ctypes.c_int64, 6)
    hold("the totals of a refusal", (library.ayinzhad_totals(day, len(day) - 1, clearing, len(clearing), lent, 6), *lent), (1,) + (0,) * 6)

    # the look-up
    hold("the zones", checker.look_up(day, 2), (0, bytes([10, 0, 20, 0])))
    hold("the rows of all sections", [len(checker.look_up(day, k)[1]) for k in range(1, 6)], [8, 4, 10, 48, 12])
    for section in (0, 6, 2 ** 64 - 1):
        hold("section %d" % section, checker.look_up(day, section), (19, (0, 0, 0)))
    hold("a section of a day file with one byte more", checker.look_up(day + b"\0", 1), (4, (0, 0, 0)))

    # a refusal for a field names it: the spare byte, and the price behind it, of the step 1
    start = day.index(checker.look_up(day, 4)[1])
    for field, offset in ((3, 3), (4, 7)):
        bad = bytearray(day)
        bad[start + 12 + offset] = 100
        hold("field %d of the step 1" % field, checker.check(bytes(bad), clearing)[:2], (3, (4, 1, field)))
        hold("  named by the look-up", checker.look_up(bytes(bad), 1), (3, (4, 1, field)))

    # the ratio of the block, in the clearing's last two bytes: below the least, which 0 says is 1,000; beyond 1,000; in one byte
    for ratio, number, where in ((999, 20, (0, 0, 0)), (1, 20, (0, 0, 0)), (1001, 7, (4, 0, 0))):
        got = checker.check(day, clearing[:-2] + ratio.to_bytes(2, "little"))[:2]
        hold("a ratio of %d" % ratio, got, (number, where))
    hold("a ratio in one byte", checker.check(day, clearing[:-1])[:2], (5, (4, 0, 0)))
    return 0 if all(said) else 1


if __name__ == "__main__":
    sys.exit(main(*sys.argv[1:]))
