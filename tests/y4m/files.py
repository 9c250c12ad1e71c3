#!/usr/bin/env python3
"""Files of common tools through the program y4m: shown, padded, and cropped back to the very bytes; the padded file as ffmpeg reads it.

  files.py ROOM WORDS..      ROOM is a folder for the files; the words run the program. Wants ffmpeg, vpxenc and vpxdec.

Exit status: 0 all as it should be, 1 something is not."""
import os
import subprocess
import sys

import reading

FRAMES = 7
SIZES = ((1, 1), (1, 2), (3, 5), (15, 16), (16, 16), (17, 33), (64, 48), (175, 143), (176, 144), (321, 241), (639, 480), (1919, 1079), (1920, 1080))


def run(*words):
    done = subprocess.run(words, stdout=subprocess.PIPE, stderr=subprocess.STDOUT, check=False)
    if done.returncode != 0:
        sys.exit(f"files.py: {' '.join(words)} gave {done.returncode}:\n{done.stdout.decode(errors='replace')}")
    return done.stdout.decode(errors="replace")


def content(name):
    with open(name, "rb") as f:
        return f.read()


def by_ffmpeg(name, width, height):
    run("ffmpeg", "-y", "-v", "error", "-f", "lavfi", "-i", "testsrc2=size=1920x1080:rate=25", "-frames:v", str(FRAMES),
        "-vf", f"format=yuv444p,crop={width}:{height}:exact=1", "-pix_fmt", "yuv420p", name)


def by_vpxdec(name, width, height):
    """The same pictures through an encoder and its decoder, which writes the file."""
    made = name + ".made.y4m"
    by_ffmpeg(made, width, height)
    run("vpxenc", "--codec=vp8", "--ivf", "--limit=" + str(FRAMES), "--target-bitrate=800", "-q", "-o", name + ".ivf", made)
    run("vpxdec", "--codec=vp8", "-o", name, name + ".ivf")


def raw(name):
    """The samples of a file as ffmpeg reads them."""
    run("ffmpeg", "-y", "-v", "error", "-i", name, "-f", "rawvideo", "-pix_fmt", "yuv420p", name + ".raw")
    return content(name + ".raw")


def see(room, words, make, width, height):
    name, big, back = (os.path.join(room, end) for end in ("made.y4m", "padded.y4m", "back.y4m"))
    make(name, width, height)
    whole = content(name)
    said = run(*words, "show", name)
    if f"whole frames: {FRAMES}, the last of them ends at byte {len(whole)}" not in said or f"  {width} by {height} samples" not in said:
        sys.exit(f"files.py: of {width} by {height} it shows\n{said}")
    run(*words, "pad", name, big)
    run(*words, "crop", f"{width}x{height}", big, back)
    if content(back) != whole or content(name) != whole:
        sys.exit(f"files.py: a file of {width} by {height} comes back changed")
    samples, wide = raw(name), raw(big)
    n = reading.samples(reading.planes(width, height))
    due = b"".join(reading.padded(samples[i:i + n], width, height) for i in range(0, len(samples), n))
    if len(samples) != FRAMES * n or wide != due:
        sys.exit(f"files.py: the padded file of {width} by {height} is not what ffmpeg's samples give")


def main():
    room, words = sys.argv[1], sys.argv[2:]
    count = 0
    for make in (by_ffmpeg, by_vpxdec):
        for width, height in SIZES:
            see(room, words, make, width, height)
            count += 1
    print(f"files: {count} of ffmpeg and vpxdec, {FRAMES} frames each, 1x1 to 1920x1080, padded and cropped back to the very bytes; "
          f"ffmpeg sees the padding that a reading in Python gives")


if __name__ == "__main__":
    main()
