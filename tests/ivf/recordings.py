#!/usr/bin/env python3
"""Cuts real recordings, at every byte of their last frames and at random, mends each by the program mend, and asks a common player's prober
what it sees: it must be exactly the complete frames, each with its size, its time and its data.

  recordings.py ROOM WORDS..      ROOM is a folder for the files; the words run the program

Takes ffmpeg, ffprobe and vpxenc (on Debian: ffmpeg, vpx-tools), which make the recordings anew. Exit status: 0 all as it should be, 1
something is not."""
import hashlib
import json
import os
import random
import subprocess
import sys

from reading import frames, mended

LAST = 400  # the last frames that begin in so many bytes are cut at every byte
RANDOM = 100  # cuts drawn anywhere
random.seed(12)

ENCODERS = {
    "ffmpeg, VP8": "ffmpeg -v error -f lavfi -i {source} -c:v libvpx -b:v 60k -g 20 -f ivf {file}",
    "ffmpeg, VP9": "ffmpeg -v error -f lavfi -i {source} -c:v libvpx-vp9 -b:v 40k -f ivf {file}",
    "vpxenc, VP8": "vpxenc --quiet --codec=vp8 --ivf --target-bitrate=60 --limit=60 -o {file} {raw}",
}
SOURCE = "testsrc=size=96x64:rate=25:duration=2.4"


def said(words):
    return subprocess.run(words, check=True, capture_output=True, text=True).stdout


def packets(file):
    """What the prober sees: the size, the time and the data's hash of each packet."""
    words = ["ffprobe", "-v", "quiet", "-f", "ivf", "-show_packets", "-show_data_hash", "md5", "-of", "json", file]
    seen = json.loads(subprocess.run(words, capture_output=True, text=True).stdout or "{}").get("packets", [])
    return [(int(p["size"]), p.get("pts"), p["data_hash"]) for p in seen]


def due(file):
    """The same of the complete frames, read in this language."""
    return [(len(f) - 12, int.from_bytes(f[4:12], "little"), "MD5:" + hashlib.md5(f[12:]).hexdigest()) for f in frames(file)]


def places(file):
    """Where to cut: every byte of the last frames, the whole, and places drawn anywhere."""
    at, starts = 32, []
    for f in frames(file):
        starts.append(at)
        at += len(f)
    last = next(start for start in starts if len(file) - start <= LAST)
    return list(range(last, len(file) + 1)), [random.randrange(32, last) for _ in range(RANDOM)]


def write(name, data):
    with open(name, "wb") as f:
        f.write(data)


def try_recording(room, words, name, encoder):
    whole_name, cut_name, out_name = (os.path.join(room, n) for n in ("whole.ivf", "cut.ivf", "out.ivf"))
    if os.path.exists(whole_name):
        os.remove(whole_name)
    said([word.format(source=SOURCE, file=whole_name, raw=os.path.join(room, "raw.y4m")) for word in encoder.split()])
    with open(whole_name, "rb") as f:
        whole = f.read()
    if packets(whole_name) != due(whole):
        sys.exit(f"{name}: the prober and the reading do not agree on the whole recording")
    every, drawn = places(whole)
    misread = 0
    for n in every + drawn:
        cut = whole[:n]
        write(cut_name, cut)
        misread += n % 10 == 0 and packets(cut_name) != due(cut)
        subprocess.run(words + [cut_name, out_name], check=True, capture_output=True)
        with open(out_name, "rb") as f:
            out = f.read()
        if out != mended(cut)[0]:
            sys.exit(f"{name}: cut at byte {n}, the output is not the mended file")
        if packets(out_name) != due(cut):
            sys.exit(f"{name}: cut at byte {n}, the prober does not see the complete frames")
    tenth = sum(n % 10 == 0 for n in every + drawn)
    print(f"  {name}: {len(whole)} bytes, {len(due(whole))} frames; cut at every byte from {every[0]} on ({len(every)}) and at {len(drawn)} "
          f"drawn places: after mending the prober sees exactly the complete frames; before it, it misread {misread} of {tenth} looked at",
          flush=True)
    return len(every) + len(drawn)


def main():
    room, words = sys.argv[1], sys.argv[2:]
    said(["ffmpeg", "-v", "error", "-y", "-f", "lavfi", "-i", SOURCE, "-pix_fmt", "yuv420p", os.path.join(room, "raw.y4m")])
    cuts = sum(try_recording(room, words, name, encoder) for name, encoder in ENCODERS.items())
    print(f"recordings: {cuts} cuts of {len(ENCODERS)} recordings mended")


if __name__ == "__main__":
    main()
