#!/usr/bin/env python3
"""Calls the library on made files, good and bad, and compares each outcome with a reading in this language: the number, the three numbers
that are reported, every byte of the output, and that the file is as it was.

  calls.py ROOM WORDS..      ROOM is a folder for the jobs; the words run tests/ivf/host.c

Exit status: 0 nothing differs, 1 something does."""
import os
import random
import struct
import subprocess
import sys

from reading import call, mended

random.seed(12)


def header(count=None, length=32, mark=b"DKIF"):
    count = random.getrandbits(32) if count is None else count
    return mark + random.randbytes(2) + struct.pack("<H", length) + random.randbytes(16) + struct.pack("<I", count) + random.randbytes(4)


def frame(size, said=None):
    return struct.pack("<I", size if said is None else said) + random.randbytes(8 + size)


# ---- the kinds of files. Each gives pairs of a file and the length of an output.
def rooms(file):
    """Output lengths around what is kept, and around the file's own."""
    kept = len(mended(file)[0]) if len(file) >= 32 else 32
    return sorted({n for n in (0, kept - 1, kept, kept + 1, len(file), len(file) + 19) if n >= 0})


def noise():
    """0 to 200 bytes of noise: as they are, under a good header, and under a header with one bit of its first 8 bytes changed."""
    for n in range(201):
        for _ in range(6):
            bytes_ = random.randbytes(n)
            small = bytes(random.choice((0, 0, 0, 1, 7, 30)) for _ in range(n))
            bad = bytearray(header())
            bad[random.randrange(8)] ^= 1 << random.randrange(8)
            for front in (b"", header(), bytes(bad)):
                for file in ((front + bytes_[len(front):])[:n], (front + small[len(front):])[:n]):
                    for room in rooms(file):
                        yield file, room


def headers():
    """Every header length, every changed bit of the mark and of the two bytes after it, and every length of a header alone."""
    for length in range(65536):
        yield header(length=length) + frame(3), 60
    good = header() + frame(5) + frame(0)
    for bit in range(64):
        bad = bytearray(good)
        bad[bit // 8] ^= 1 << bit % 8
        for room in rooms(bytes(bad)):
            yield bytes(bad), room
    for n in range(len(good) + 1):
        yield good[:n], 100


def cuts():
    """Recordings cut at every byte, into outputs with just room, with one byte too few and with more."""
    for sizes in ((), (0,), (0, 0, 0), (1, 0, 2), (13, 0, 100, 1, 0), (480, 20, 0, 500), (500, 1, 1, 1, 1, 3000, 7), (5, 4000, 0)):
        whole = header(len(sizes)) + b"".join(frame(size) for size in sizes)
        for n in range(len(whole) + 1):
            for room in rooms(whole[:n]):
                yield whole[:n], room


def stretches():
    """Frames that end on, before and after the places up to which the library copies at a time."""
    for first in range(440, 600):
        for second in (0, 1, 499, 500, 501, 1012):
            file = header() + frame(first) + frame(second) + frame(2)
            for left in (0, 1, 5, 14):
                yield file[:len(file) - left], len(file)


def drawn(count):
    """Drawn at random: many sizes, sizes that lie, cuts, changed bits and outputs of any length."""
    for _ in range(count):
        kind = random.choice((lambda: 0, lambda: random.randrange(20), lambda: random.randrange(700), lambda: random.choice((0, 3, 500, 5000))))
        parts = [header()] + [frame(kind()) for _ in range(random.randrange(14))]
        if random.random() < 0.3:
            at = random.randrange(len(parts))
            left = sum(len(part) for part in parts[at + 1:])
            said = random.choice((2**32 - 1, 2**32 - 12, 2**32 - 13, 2**31, 2**31 - 1, left, left + 1, max(left - 1, 0), random.getrandbits(32)))
            parts.insert(at + 1, frame(0, said))
        file = b"".join(parts)
        if random.random() < 0.5:
            file = file[:random.randrange(len(file) + 1)]
        if random.random() < 0.05 and file:
            changed = bytearray(file)
            changed[random.randrange(min(len(file), 48))] ^= 1 << random.randrange(8)
            file = bytes(changed)
        yield file, random.choice((len(file), len(file) + random.randrange(40), random.randrange(len(file) + 40), *rooms(file)))


# ---- the comparison
class Tally:
    def __init__(self):
        self.numbers = {0: 0, 7: 0, 15: 0}
        self.again = 0
        self.bytes = 0


def run(room, words, jobs):
    with open(os.path.join(room, "jobs"), "wb") as f:
        for file, out, place in jobs:
            f.write(struct.pack("<III", len(file), len(out), place) + file + out)
    with open(os.path.join(room, "jobs"), "rb") as f, open(os.path.join(room, "answers"), "wb") as answers:
        subprocess.run(words, stdin=f, stdout=answers, check=True)
    with open(os.path.join(room, "answers"), "rb") as f:
        for file, out, _ in jobs:
            number, *told = struct.unpack("<IQQQ", f.read(28))
            yield number, tuple(told), f.read(len(file)), f.read(len(out))
        if f.read(1):
            sys.exit("calls.py: the host answers more than it was asked")


def compare(room, words, pairs, tally, again=False):
    jobs = [(file, random.randbytes(n), random.randrange(2)) for file, n in pairs]
    more = []
    for (file, out, place), answer in zip(jobs, run(room, words, jobs), strict=True):
        number, told, after = call(file, out)
        if answer != (number, told, file, after):
            print(f"differs: a file of {len(file)} bytes, an output of {len(out)}, placed {place}")
            print(f"  file   {file[:80].hex()}{'..' if len(file) > 80 else ''}")
            print(f"  due    {number} {told}\n  given  {answer[0]} {answer[1]}")
            print(f"  file unchanged: {answer[2] == file}, output as due: {answer[3] == after}")
            sys.exit(1)
        tally.numbers[number] += 1
        tally.bytes += len(out)
        if number == 0 and not again:
            more.append((answer[3][:len(file) - told[2]], told[1]))
        if again and (told != (told[1], told[1], 0) or answer[3][:len(file)] != file):
            sys.exit("calls.py: a mended file is changed when it is mended again")
    return more


def main():
    room, words = sys.argv[1], sys.argv[2:]
    tally = Tally()
    for name, pairs in (("noise", noise()), ("headers", headers()), ("cuts", cuts()), ("stretches", stretches()), ("drawn", drawn(200000))):
        before = sum(tally.numbers.values())
        batch = []
        for pair in pairs:
            batch.append(pair)
            if len(batch) == 20000:
                finish(room, words, batch, tally)
                batch = []
        finish(room, words, batch, tally)
        print(f"  {name}: {sum(tally.numbers.values()) - before} calls", flush=True)
    done, short, refused = tally.numbers[0], tally.numbers[7], tally.numbers[15]
    print(f"calls: {done + short + refused} compared ({done} done, {tally.again} of them a second mending; {short} refused with 7, {refused} with 15), "
          f"{tally.bytes} bytes of output looked at; nothing differs")


def finish(room, words, pairs, tally):
    again = compare(room, words, pairs, tally)
    tally.again += len(again)
    compare(room, words, [(file, len(file) + random.randrange(3)) for file, _ in again], tally, again=True)


if __name__ == "__main__":
    main()
