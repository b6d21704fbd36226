# Sourced by tests/console/files and tests/console/signals: installs the program into a folder of its own below the system's temporary folder,
# $room, goes to an empty folder in it, and has the words that both use. Relies on target/bin/console, tools/splicelog.c and the second program.
# CC and CFLAGS are the wrapper's compiler and more flags for it, as -fsanitize=address,undefined; UNDER is what runs it, as valgrind.
# shellcheck shell=bash disable=SC2034

# A signal that whoever started this ignores, as a script does for what it runs in the background, would stay ignored in all that follows.
[ -n "${SIGNALS_ARE_DEFAULT-}" ] || SIGNALS_ARE_DEFAULT=yes exec env --default-signal bash "$0" "$@"

cd "$(dirname "$0")/../.." || exit 1
console=$PWD/target/bin/console
second=$PWD/tests/second/target/release/second
version=$(sed -n 's/^#define SPLICELOG_VERSION "\(.*\)"$/\1/p' include/splicelog.h)
# shellcheck disable=SC2206
under=(${UNDER-}) flags=(${CFLAGS--O2})
tests/program
cargo build --quiet --release --offline --manifest-path tests/second/Cargo.toml
room=$(mktemp -d)
full=
clean_up() {
    [ -z "$full" ] || umount "$full"
    rm -rf "$room"
}
trap clean_up EXIT
chmod 755 "$room"
mkdir -p "$room/bin" "$room/libexec/splicelog" "$room/folder"
splicelog=$room/bin/splicelog
"${CC:-cc}" -std=c99 -Wall -Wextra -Wpedantic -Wconversion -Werror "${flags[@]}" -Iinclude -DPROGRAM="\"$room/libexec/splicelog/console\"" \
    -o "$splicelog" tools/splicelog.c
cp "$console" "$room/libexec/splicelog/console"
cp crates/console/stdin "$room/paper"
cp crates/console/stdout "$room/paper.printed"
cp tests/console/empty_path.txt "$room/empty_path"
: > "$room/out"
: > "$room/err"
cd "$room/folder" || exit 1
cases=0
as_user=()

wrong() {
    echo "${0##*/}: $1" >&2
    head -n 5 "$room/out" "$room/err" >&2 || true
    exit 1
}

# exits STATUS COMMAND.. : compares the exit status of a command, whose standard output is the caller's.
exits() {
    local want=$1 status=0
    shift
    cases=$((cases + 1))
    "$@" 2> "$room/err" || status=$?
    [ "$status" -eq "$want" ] || wrong "${*//"$room"/}: exit status $status, not $want"
}

# expect STATUS WORDS.. : runs the program with these words on standard input, and compares its exit status.
expect() {
    local want=$1
    shift
    exits "$want" "${as_user[@]}" "${under[@]}" "$splicelog" "$@" > "$room/out"
}

# The image is as it was, with nothing beside it.
kept() { # FILE COPY
    cmp -s "$1" "$2" || wrong "$1: its bytes have changed"
    [ ! -e "$1.new" ] || wrong "$1: $1.new was left"
}

# The same, and no answer was printed.
untouched() { # FILE COPY
    [ ! -s "$room/out" ] || wrong "$1: answers were printed"
    kept "$1" "$2"
}

printed() { [ "$(cat "$room/out")" = "$1" ] || wrong "printed something other than $1"; }
said() { grep -q -- "$1" "$room/err" || wrong "standard error does not say: $1"; }

# await WHAT COMMAND.. : waits until the command succeeds, for a minute at most.
await() {
    local what=$1 limit=$((SECONDS + 60))
    shift
    until "$@"; do
        [ "$SECONDS" -lt "$limit" ] || wrong "waited a minute for this: $what"
        sleep 0.01
    done
}

# Has the process this state, a letter of ps? Has it ended, also where nobody has asked for its status yet?
has_state() { grep -qs "^State:[[:space:]]*$2" "/proc/$1/status"; } # PROCESS LETTER
is_over() { ! grep -qs '^State:[[:space:]]*[^ZX]' "/proc/$1/status"; }

# start_run COMMAND.. : runs the command in a group of its own, $run, fed through descriptor 8, until it has answered its first line. Its
# program is $child.
start_run() {
    rm -f "$room/in"
    mkfifo "$room/in"
    : > "$room/out"
    set -m
    "$@" < "$room/in" > "$room/out" 2> "$room/err" &
    run=$!
    set +m
    exec 8> "$room/in"
    echo 'put killed 01' >&8
    await "the first answer" test -s "$room/out"
    # grep fails where a process ends meanwhile.
    child=$({ grep -ls "^PPid:[[:space:]]*$run\$" /proc/[0-9]*/status || true; } | tr -dc '0-9')
    [ -d "/proc/$child/fd" ] || wrong "the run has not one program: $child"
}

# end_run STATUS: ends the run's input and compares its exit status; its program has ended too.
end_run() {
    local status=0
    exec 8>&-
    cases=$((cases + 1))
    wait "$run" 2> /dev/null || status=$?
    [ "$status" -eq "$1" ] || wrong "the run's exit status is $status, not $1"
    is_over "$child" || wrong "the run has ended, and its program has not"
}
