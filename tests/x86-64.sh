# Sourced by the scripts that build and run Rust beside the static library, which
# is for x86-64 alone. On another processor they cross-compile and emulate; the
# answers are the same, and times say nothing.
#
# Takes from the environment: RUSTC, EMULATOR; NATIVE, not empty where the
# processor at hand will do: no archive is linked, or one made for it.
# Sets: RUSTC; for_x86_64, words for it; emulator, words to run a program with.
# Words are to be split where they are used.

lacking() {
    cat >&2 <<'EOT'
To build for x86-64 on this processor, three things are needed:
  - a rustc with the standard library for x86-64: rustup target add
    x86_64-unknown-linux-gnu, or RUSTC=... (on Debian: rustc-web with
    libstd-rust-web-dev:amd64)
  - x86_64-linux-gnu-gcc (on Debian: gcc-x86-64-linux-gnu)
  - qemu-x86_64 (on Debian: qemu-user), or EMULATOR=...
EOT
    exit 2
}

RUSTC=${RUSTC:-rustc}
for_x86_64=
emulator=
if [ -z "${NATIVE:-}" ] && [ "$(uname -m)" != x86_64 ]; then
    for_x86_64="--target x86_64-unknown-linux-gnu -C linker=x86_64-linux-gnu-gcc"
    [ -d "$("$RUSTC" $for_x86_64 --print target-libdir)" ] || lacking
    libc=$(x86_64-linux-gnu-gcc -print-file-name=libc.so.6) || lacking
    emulator=${EMULATOR:-qemu-x86_64 -L ${libc%/lib/libc.so.6}}
    command -v "${emulator%% *}" >/dev/null || lacking
fi
