# What the trials of the programs share; programs/NAME.test reads it, with the program as its first word. They run in a folder beside the
# program, which is removed at the end. EMULATOR, words to run it with on another processor. The exit status is 1 where something is not as
# it should be. Wants a POSIX shell and the usual tools.
set -u

program=$(cd "$(dirname "$1")" && pwd)/$(basename "$1")
name=$(basename "$1")
emulator=${EMULATOR:-}
room=$(mktemp -d "$(dirname "$program")/trial-XXXXXX") || exit 1
trap 'rm -rf "$room"' EXIT
cd "$room" || exit 1
tried=0

wrong() {
    echo "$name: $*"
    echo "it said:"
    cat said complained
    exit 1
}

# run STATUS WORDS..: runs the program, and wants this exit status.
run() {
    due=$1
    shift
    $emulator "$program" "$@" >said 2>complained
    got=$?
    tried=$((tried + 1))
    [ "$got" = "$due" ] || wrong "$* gave status $got, and $due was due"
}

# says FILE WORDS: the words stand in what it said.
says() {
    grep -qF -- "$2" "$1" || wrong "it does not say: $2"
}

same() {
    cmp -s "$1" "$2" || wrong "$1 is not as it should be"
}

# nothing_left OUT: neither a temporary file nor the output.
nothing_left() {
    [ -z "$(find . -name ".$name-*")" ] || wrong "a temporary file is left"
    [ ! -e "$1" ] || wrong "$1 is there"
}

# no_room OUT WORDS..: with room for few bytes it says so, and leaves nothing.
no_room() {
    out=$1
    shift
    (ulimit -f 1000 && exec $emulator "$program" "$@") >said 2>complained && wrong 'it had no room, and says nothing'
    says complained 'there is no room for it'
    nothing_left "$out"
    tried=$((tried + 1))
}

# A signal that comes once the temporary file is there, which the program then writes for a while.
interrupted() {
    signal=$1
    out=$2
    shift 2
    # A shell starts what runs beside it with INT ignored, and nohup what it runs with HUP.
    env --default-signal=INT,HUP $emulator "$program" "$@" >said 2>complained &
    child=$!
    while [ -z "$(find . -name ".$name-*")" ] && kill -0 "$child" 2>/dev/null; do :; done
    kill -s "$signal" "$child" 2>/dev/null
    wait "$child" 2>/dev/null
    got=$?
    [ "$got" -ne 0 ] || rm -f "$out"
    [ "$got" -gt 128 ]
}

# ended_by_signals OUT WORDS..: nothing is left. Where it was done by then, it is tried again.
ended_by_signals() {
    for kind in TERM INT HUP; do
        interrupted "$kind" "$@" || interrupted "$kind" "$@" || interrupted "$kind" "$@" || wrong "SIG$kind did not end it: status $got"
        tried=$((tried + 1))
        nothing_left "$1"
    done
}

all_tried() {
    echo "$name: $tried trials, each as it should be"
}
