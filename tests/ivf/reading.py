"""IVF files read independently of the library: as a stream, from the front, and never by places in a list."""
import io


def frames(file):
    """The complete frames of a file, each with its size and time in front, up to the first that the file has no bytes for."""
    stream = io.BytesIO(file)
    stream.read(32)
    while True:
        head = stream.read(12)
        if len(head) < 12:
            return
        size = int.from_bytes(head[:4], "little")
        data = stream.read(size)
        if len(data) < size:
            return
        yield head + data


def is_recording(file):
    return 32 <= len(file) <= 2147483647 and file.startswith(b"DKIF") and file[6:8] == b"\x20\x00"


def mended(file):
    """The mended file of a recording, and how many frames it has."""
    complete = list(frames(file))
    return b"".join([file[:24], len(complete).to_bytes(4, "little"), file[28:32]] + complete), len(complete)


def call(file, out):
    """What a call leaves: its number, the three numbers that it reports, and the bytes of the output."""
    if not is_recording(file):
        return 15, (0, 0, 0), out
    whole, count = mended(file)
    if len(out) < len(whole):
        return 7, (0, 0, 0), out
    old = int.from_bytes(file[24:28], "little")
    return 0, (old, count, len(file) - len(whole)), whole + out[len(whole):]
