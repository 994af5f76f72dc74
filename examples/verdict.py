"""The verdict on FOLDER/day.bin and FOLDER/clearing.bin, from Python over a shared object.

    cc -shared -Wl,--whole-archive target/staticlib/libembed.a -Wl,--no-whole-archive -o target/libayinzhad.so
    python3 examples/verdict.py target/libayinzhad.so samples/accepted
"""
import ctypes
import pathlib
import sys

LONGEST = 852
PLACE = 3
TOTALS = ("order value", "buyers", "sellers", "rent", "traded", "shortfall")


class Ayinzhad:
    def __init__(self, path):
        self.library = ctypes.CDLL(str(path))
        size, pointer = ctypes.c_size_t, ctypes.POINTER
        file = [ctypes.c_char_p, size]
        self.library.ayinzhad_check.argtypes = file + file + [pointer(ctypes.c_uint8), size, pointer(size), size]
        self.library.ayinzhad_totals.argtypes = file + file + [pointer(ctypes.c_int64), size]
        self.library.ayinzhad_look_up.argtypes = file + [size, pointer(size), size]
        for function in (self.library.ayinzhad_check, self.library.ayinzhad_totals, self.library.ayinzhad_look_up):
            function.restype = ctypes.c_uint8

    def check(self, day, clearing, room=LONGEST):
        """Number, place, and the bytes of a room of that length after the check."""
        lent, place = (ctypes.c_uint8 * room)(), (ctypes.c_size_t * PLACE)()
        number = self.library.ayinzhad_check(day, len(day), clearing, len(clearing), lent, room, place, PLACE)
        return number, tuple(place), bytes(lent)

    def totals(self, day, clearing):
        """Number, and the six totals: zeros for a refusal."""
        totals = (ctypes.c_int64 * 6)()
        number = self.library.ayinzhad_totals(day, len(day), clearing, len(clearing), totals, 6)
        return number, tuple(totals)

    def look_up(self, day, section):
        """Number, and the rows of the section, or the place of the refusal."""
        found = (ctypes.c_size_t * PLACE)()
        number = self.library.ayinzhad_look_up(day, len(day), section, found, PLACE)
        return number, day[found[0]:found[0] + found[1]] if number == 0 else tuple(found)


def main(library, folder="."):
    checker = Ayinzhad(library)
    files = []
    for name in ("day", "clearing"):
        try:
            files.append(pathlib.Path(folder, name + ".bin").read_bytes())
        except OSError:
            return print("missing", name)
    number, place, _ = checker.check(*files)
    print("verdict", number, *place)
    if number == 0:
        for name, total in zip(TOTALS, checker.totals(*files)[1]):
            print(name, total)


if __name__ == "__main__":
    main(*sys.argv[1:])
