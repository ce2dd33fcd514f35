# Read by the scripts here and by bench/calls.sh: packages the library, and compiles programs against the archive into a temporary
# directory, $room.
#   compile NAME FLAGS [DIRECTORY...]   $room/NAME of NAME.c and all C files of the directories; FLAGS go to gcc
#   second                              the second program as a static library, which `compile` then links too; needs rustc
#   run NAME [WORDS...]                 runs the program
# CFLAGS_EXTRA may hold further options of gcc, such as -fsanitize=address,undefined, and RUNNER a program to run it under, such as
# valgrind. Where a script is given --help, nothing is packaged: its program then answers without the library.
set -eu
here=$(cd "$(dirname "$0")/../host" && pwd)
room=$(mktemp -d)
trap 'rm -rf "$room"' EXIT
headers=$here/../target/include
archive=$here/../target/lib/libwritebehind.a
second_archive=
libraries=
without_library=-Wl,--unresolved-symbols=ignore-all
for word; do
    [ "$word" != --help ] || { headers=$here/../include archive=$without_library libraries=-no-pie; }
done
[ "$archive" = "$without_library" ] || "$here/../package" >&2

compile() {
    name=${1##*/} flags=$2 includes= sources=$1.c
    shift 2
    for directory; do
        includes="$includes -I$directory" sources="$sources $directory/*.c"
    done
    # shellcheck disable=SC2086
    (cd "$here" && gcc -O2 -Wall -Wextra -pedantic -Werror $flags ${CFLAGS_EXTRA:-} "-I$headers" -I. $includes -o "$room/$name" $sources \
        "$archive" ${second_archive:+"$second_archive"} $libraries)
}

second() {
    command -v rustc >/dev/null || { echo "$0: rustc is not on the PATH; the second program is compiled with it" >&2; exit 2; }
    second_archive=$room/libsecond_calls.a libraries="$libraries -lpthread -ldl -lm"
    rustc --edition 2021 -C opt-level=3 --crate-type rlib --crate-name second -o "$room/libsecond.rlib" "$here/../second/src/lib.rs"
    rustc --edition 2021 -C opt-level=3 -C panic=abort --crate-type staticlib --extern second="$room/libsecond.rlib" \
        -o "$second_archive" "$here/second_calls.rs"
}

run() {
    name=$1
    shift
    # shellcheck disable=SC2086
    ${RUNNER:-} "$room/$name" "$@"
}
