#!/usr/bin/env python3
"""Calls the library on made headers and frames, good and bad, and compares each outcome with a reading in this language: the number, what is
reported, every byte of the output, and that the input is as it was.

  calls.py ROOM WORDS..      ROOM is a folder for the jobs; the words run tests/y4m/host.c

Exit status: 0 nothing differs, 1 something does."""
import os
import random
import struct
import subprocess
import sys

import reading

random.seed(9)
HEADER, READ, WRITE, CUTS = range(4)
UNSET = 2**64 - 1


# ---- headers. Each is a file.
def drawn_digits():
    return random.choice((
        lambda: b"%d" % random.randint(1, 16384),
        lambda: b"%05d" % random.randint(1, 16384),
        lambda: b"%0*d" % (random.randint(1, 7), random.choice((0, 1, 9, 10, 99, 100, 16383, 16384))),
    ))()


def drawn_other():
    name = random.choice(b"FIAXwhcx0" + bytes((1, 9, 13, 127, 200)))
    return bytes((name,)) + bytes(random.choice(b"WHC0123456789:=jpeg\t\r\0") for _ in range(random.randrange(9)))


def drawn_parameters():
    words = [b"W" + drawn_digits(), b"H" + drawn_digits()] + [drawn_other() for _ in range(random.choice((0, 0, 1, 3)))]
    if random.random() < 0.5:
        words.append(b"C420jpeg")
    random.shuffle(words)
    return words


def line(words, mark=b"YUV4MPEG2", space=b" ", end=b"\n"):
    return mark + b"".join(space + word for word in words) + end


def damaged(words):
    """A header with one clause broken: each is broken in turn."""
    at = random.randrange(len(words) + 1)
    first = words[:at]
    last = words[at:]
    size = random.choice((b"W", b"H"))
    others = [word for word in words if word[:1] != size]
    yield line(first + [b""] + last)
    yield line(words + [b""])
    yield line(words, end=b"")
    yield line(words, end=b"\r\n")
    yield line(words, end=b" \n")
    yield line(words, end=b"\0")
    yield line(words, space=b"\t")
    yield line(words, mark=b"YUV4MPEG")
    yield line(words, mark=b"YUV4MPEG2 ")
    yield line(words, mark=b" YUV4MPEG2")
    yield line(words, mark=b"YUV4MPEG2x")
    yield line(words, mark=b"yuv4mpeg2")
    yield line(words, mark=b"")
    yield line(others)
    yield line(words + [size + drawn_digits()])
    for bad in (b"", b"0", b"00000", b"16385", b"65536", b"99999", b"100000", b"000016", b"ide", b"1x", b"-1", b"+1", b"1 6", b"0x10", b"\xb1", b"1\0"):
        yield line(others + [size + bad])
    for colour in (b"C", b"C420", b"C420mpeg2", b"C420paldv", b"C422", b"C420jpegx", b"C420jpe", b"C420JPEG", b"Cmono"):
        yield line([word for word in first if word[:1] != b"C"] + [colour] + [word for word in last if word[:1] != b"C"])
    yield line(words + [b"C420jpeg", b"C420jpeg"])


def around_limit():
    """Headers of 250 to 262 bytes, and of 255 to 257 with frames behind them."""
    for words in ([b"W16", b"H8"], [b"W16384", b"H00001", b"C420jpeg"]):
        short = len(line(words + [b""]))
        for n in range(250, 263):
            file = line(words + [b"X" * (n - short)])
            yield file
            yield file + b"FRAME\n" + bytes(20)
            yield line([b"X" * (n - short)] + words)
            yield b"YUV4MPEG2 " + b"X" * (n - 11) + b"\n"


def headers():
    yield from around_limit()
    for n in range(300):
        yield random.randbytes(n)
        yield b"YUV4MPEG2 W16 H8 " + b" " * n + b"\n"
    for sizes in range(0, 20001):
        yield line([b"W%d" % sizes, b"H%05d" % (sizes % 16400)])
    whole = line([b"W1919", b"H1079", b"F25:1", b"Ip", b"A1:1", b"C420jpeg", b"XYSCSS=420JPEG"])
    for n in range(len(whole) + 1):
        yield whole[:n]
        for value in (0, 9, 10, 13, 32, 48, 57, 58, 67, 72, 87, 119, 128, 255, random.randrange(256)):
            yield whole[:n] + bytes((value,)) + whole[n:]
            yield whole[:n] + bytes((value,)) + whole[n + 1:]
        yield whole[:n] + whole[n + 1:]
    for _ in range(3000):
        words = drawn_parameters()
        yield line(words)
        yield line(words) + random.choice((b"\n", b"FRAME\n", b" W16", random.randbytes(9)))
        yield from damaged(words)
    for _ in range(30000):
        yield bytes(random.choice(b"YUV4MPEG2WHC0168jpeg \n\n") for _ in range(random.randrange(40)))
        yield b"YUV4MPEG2 " + b"".join(random.choice((b" ", b"W", b"H", b"C", b"1", b"6", b"420jpeg", b"\n", b" W8", b" H8", b"X")) for _ in range(random.randrange(14)))


def header_jobs():
    for file in headers():
        yield HEADER, file, 0, 0, 0


# ---- frames. Each job is a call, an input, a width, a height and the length of an output.
def frame_len(w, h):
    return 6 + reading.samples(reading.planes(w, h))


def padded_len(w, h):
    return reading.samples(reading.padded_planes(w, h))


def all_sizes():
    """Every size from 1x1 to 70x70: read and written, with just room, one byte too little of each, and more."""
    for w in range(1, 71):
        for h in range(1, 71):
            n, long = frame_len(w, h), padded_len(w, h)
            file = reading.MARK + random.randbytes(n - 6)
            more = random.randbytes(random.randrange(40))
            yield READ, file, w, h, long
            yield READ, file + more, w, h, long + random.randrange(40)
            yield READ, file, w, h, long - 1
            yield READ, file[:-1], w, h, long
            yield READ, file[:-1], w, h, long - 1
            frame = reading.padded(file[6:], w, h)
            noise = random.randbytes(long)
            yield WRITE, frame, w, h, n
            yield WRITE, noise + more, w, h, n + random.randrange(40)
            yield WRITE, noise, w, h, n - 1
            yield WRITE, noise[:-1], w, h, n
            yield WRITE, noise[:-1], w, h, n - 1


def rooms():
    """Frames of every length, into outputs of every length."""
    for w, h in ((1, 1), (3, 2), (16, 16), (17, 16), (16, 17), (35, 3)):
        n, long = frame_len(w, h), padded_len(w, h)
        file = reading.MARK + random.randbytes(n - 6)
        frame = random.randbytes(long)
        for room in range(long + 2):
            yield READ, file, w, h, room
            yield WRITE, frame[:room], w, h, n
        for room in range(n + 2):
            yield WRITE, frame, w, h, room


def marks():
    """Every changed bit of the mark, and every front of it with other bytes behind."""
    for w, h in ((1, 1), (5, 3)):
        file = reading.MARK + random.randbytes(frame_len(w, h) - 6)
        for bit in range(48):
            bad = bytearray(file)
            bad[bit // 8] ^= 1 << bit % 8
            yield READ, bytes(bad), w, h, padded_len(w, h)
        for n in range(7):
            for behind in (b"", b"\n", b" I\n", random.randbytes(500)):
                yield READ, reading.MARK[:n] + behind, w, h, random.choice((0, 384))


def odd_sizes():
    """Sizes that are none, and sizes whose frames are far longer than what is lent."""
    numbers = (0, 1, 2, 15, 16, 17, 16383, 16384, 16385, 32768, 65536, 2**31, 2**32, 2**32 + 1, 2**48, 2**63 - 1, 2**63, 2**64 - 1)
    for w in numbers:
        for h in numbers:
            for file in (b"", b"F", reading.MARK, reading.MARK + bytes(600), b"FRAMES" + bytes(600)):
                yield READ, file, w, h, random.choice((0, 383, 384, 1000))
                yield WRITE, file, w, h, random.choice((0, 9, 1000))


def drawn(count):
    for _ in range(count):
        w, h = random.randint(1, 70), random.randint(1, 70)
        n, long = frame_len(w, h), padded_len(w, h)
        file = bytes(random.choice(b"FRAME\n \0") for _ in range(6)) if random.random() < 0.2 else reading.MARK
        file += random.randbytes(n - 6 + random.randrange(9))
        if random.random() < 0.4:
            file = file[:random.randrange(len(file) + 1)]
        yield READ, file, w, h, random.choice((long, long + random.randrange(30), random.randrange(long)))
        frame = random.randbytes(random.choice((long, long + random.randrange(30), random.randrange(long))))
        yield WRITE, frame, w, h, random.choice((n, n + random.randrange(30), random.randrange(n)))


# ---- the comparison
def due(call, given, w, h, out):
    if call == HEADER:
        number, told = reading.header(given)
        return number, told, out
    number, bytes_, after = (reading.read if call == READ else reading.write)(given, w, h, out)
    return number, (bytes_, UNSET, UNSET), after


def ask(room, words, jobs):
    with open(os.path.join(room, "jobs"), "wb") as f:
        for call, given, w, h, out, place in jobs:
            f.write(struct.pack("<IIIIQQ", call, len(given), len(out), place, w, h) + given + out)
    with open(os.path.join(room, "jobs"), "rb") as f, open(os.path.join(room, "answers"), "wb") as answers:
        subprocess.run(words, stdin=f, stdout=answers, check=True)


def run(room, words, jobs):
    ask(room, words, jobs)
    with open(os.path.join(room, "answers"), "rb") as f:
        for _, given, _, _, out, _ in jobs:
            number, *told = struct.unpack("<IQQQ", f.read(28))
            yield number, tuple(told), f.read(len(given)), f.read(len(out))
        if f.read(1):
            sys.exit("calls.py: the host answers more than it was asked")


def compare(room, words, jobs, tally):
    """Compares each answer; gives the frames that were read, to be written."""
    jobs = [(call, given, w, h, random.randbytes(n), random.randrange(2)) for call, given, w, h, n in jobs]
    written = []
    for (call, given, w, h, out, place), answer in zip(jobs, run(room, words, jobs), strict=True):
        number, told, after = due(call, given, w, h, out)
        if answer != (number, told, given, after):
            print(f"differs: {('header', 'read', 'write')[call]} of {len(given)} bytes, {w} by {h}, an output of {len(out)}, placed {place}")
            print(f"  input  {given[:280]!r}{'..' if len(given) > 280 else ''}")
            print(f"  due    {number} {told}\n  given  {answer[0]} {answer[1]}")
            print(f"  input unchanged: {answer[2] == given}, output as due: {answer[3] == after}")
            sys.exit(1)
        tally[call, number] = tally.get((call, number), 0) + 1
        if call == READ and number == 0 and told[0] > 0:
            written.append((answer[3], w, h, given[:told[0]]))
    return written


def write_back(room, words, written, tally):
    """Each frame that was read is written: the bytes are those that were taken."""
    jobs = [(WRITE, frame, w, h, taken, 0) for frame, w, h, taken in written]
    jobs = [(call, frame, w, h, random.randbytes(len(taken) + random.randrange(3)), 0) for call, frame, w, h, taken, _ in jobs]
    for (_, _, _, _, out, _), (_, _, _, taken), (number, told, _, after) in zip(jobs, written, run(room, words, jobs), strict=True):
        if number != 0 or told[0] != len(taken) or after != taken + out[len(taken):]:
            sys.exit("calls.py: a frame that was read and written has other bytes")
    tally["back"] = tally.get("back", 0) + len(jobs)


def see_cuts(room, words, tally):
    """A frame of every size from 1x1 to 70x70, cut at every byte."""
    count = 0
    for w in range(1, 71):
        jobs = [(CUTS, reading.MARK + random.randbytes(frame_len(w, h) - 6), w, h, random.randbytes(random.choice((0, padded_len(w, h)))), 0) for h in range(1, 71)]
        ask(room, words, jobs)
        with open(os.path.join(room, "answers"), "rb") as f:
            for _, file, _, h, out, _ in jobs:
                answers = struct.iter_unpack("<IQ", f.read(12 * len(file)))
                for n, answer in enumerate(answers):
                    if answer != reading.read(file[:n], w, h, out)[:2]:
                        sys.exit(f"calls.py: a frame of {w} by {h} cut at byte {n}: {answer}")
                    tally[READ, answer[0]] = tally.get((READ, answer[0]), 0) + 1
                    count += 1
                if f.read(len(out)) != out:
                    sys.exit(f"calls.py: an output is changed by a cut frame of {w} by {h}")
    print(f"  cuts: {count} calls", flush=True)


def main():
    room, words = sys.argv[1], sys.argv[2:]
    tally = {}
    kinds = (("headers", header_jobs()), ("every size", all_sizes()), ("rooms", rooms()), ("marks", marks()), ("odd sizes", odd_sizes()), ("drawn", drawn(15000)))
    for name, jobs in kinds:
        count = 0
        batch = []
        for job in jobs:
            batch.append(job)
            if len(batch) == 4000:
                write_back(room, words, compare(room, words, batch, tally), tally)
                count += len(batch)
                batch = []
        write_back(room, words, compare(room, words, batch, tally), tally)
        print(f"  {name}: {count + len(batch)} calls", flush=True)
    see_cuts(room, words, tally)
    back = tally.pop("back")
    words = ", ".join(f"{('header', 'read', 'write')[call]} {number}: {count}" for (call, number), count in sorted(tally.items()))
    print(f"calls: {sum(tally.values())} compared ({words}), and {back} frames that were read, written again; nothing differs")


if __name__ == "__main__":
    main()
