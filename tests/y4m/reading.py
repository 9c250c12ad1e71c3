"""YUV4MPEG2 files read independently of the library: headers by patterns, planes as lists of rows that grow at their edges."""
import re

MARK = b"FRAME\n"
SIZE = re.compile(rb"[0-9]{1,5}")
LINE = re.compile(rb"YUV4MPEG2((?: [^ \n]+)*)\n")


def header(file):
    """What a call on a header leaves: its number, width, height and the bytes taken."""
    refused = 12, (0, 0, 0)
    found = LINE.match(file[:256])
    if not found:
        return refused
    told = {b"W": [], b"H": [], b"C": []}
    for word in found[1].split(b" ")[1:]:
        if word[:1] in told:
            told[word[:1]].append(word[1:])
    if [len(told[b"W"]), len(told[b"H"])] != [1, 1] or told[b"C"] not in ([], [b"420jpeg"]):
        return refused
    sizes = [told[b"W"][0], told[b"H"][0]]
    if not all(SIZE.fullmatch(digits) and 1 <= int(digits) <= 16384 for digits in sizes):
        return refused
    return 0, (int(sizes[0]), int(sizes[1]), found.end())


def planes(width, height):
    """The columns and rows of Y, U and V."""
    half = (width + 1) // 2, (height + 1) // 2
    return (width, height), half, half


def up(n, to):
    return n + -n % to


def padded_planes(width, height):
    w, h = up(width, 16), up(height, 16)
    return (w, h), (w // 2, h // 2), (w // 2, h // 2)


def samples(sizes):
    return sum(w * h for w, h in sizes)


def rows(data, sizes):
    """Planes that stand one after the other, each as the list of its rows."""
    at = 0
    for w, h in sizes:
        yield [data[at + r * w:at + (r + 1) * w] for r in range(h)]
        at += w * h


def padded(data, width, height):
    out = []
    for plane, (w, h) in zip(rows(data, planes(width, height)), padded_planes(width, height)):
        wide = [row + row[-1:] * (w - len(row)) for row in plane]
        out += wide + wide[-1:] * (h - len(wide))
    return b"".join(out)


def cropped(data, width, height):
    out = []
    for plane, (w, h) in zip(rows(data, padded_planes(width, height)), planes(width, height)):
        out += [row[:w] for row in plane[:h]]
    return b"".join(out)


def sized(width, height):
    return 1 <= width <= 16384 and 1 <= height <= 16384


def read(file, width, height, out):
    """What reading a frame leaves: its number, the bytes taken, and the bytes of the output."""
    if not sized(width, height):
        return 1, 0, out
    if not file:
        return 0, 0, out
    if not file.startswith(MARK):
        return 13, 0, out
    end = len(MARK) + samples(planes(width, height))
    if len(file) < end:
        return 14, 0, out
    long = samples(padded_planes(width, height))
    if len(out) < long:
        return 7, 0, out
    return 0, end, padded(file[len(MARK):end], width, height) + out[long:]


def write(frame, width, height, out):
    """What writing a frame leaves: its number, the bytes written, and the bytes of the output."""
    if not sized(width, height):
        return 1, 0, out
    long = samples(padded_planes(width, height))
    if len(frame) < long:
        return 14, 0, out
    end = len(MARK) + samples(planes(width, height))
    if len(out) < end:
        return 7, 0, out
    return 0, end, MARK + cropped(frame[:long], width, height) + out[end:]
