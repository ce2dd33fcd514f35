# Read by form.sh and log.sh: links a program in Rust with proved functions that no crate of the repository exports, and with the
# second program.
#   linked NAME CRATES ENTRIES SOURCE
# In a copy of crates/ a static library NAME over CRATES is made of the text ENTRIES, proved and compiled; the libraries that stand in out/
# are copied too, and not proved again. The program is $room/NAME, of the file SOURCE.
here=$(cd "$(dirname "$0")" && pwd)
top=$here/..
room=$(mktemp -d)
trap 'rm -rf "$room"' EXIT
build() { rustc --edition 2021 -C opt-level=3 "$@"; }
linked() {
    for crate in $2; do
        [ -f "$top/crates/$crate/out/rlib/stamp" ] || { echo "$crate is not built: run 'rt lib' in crates/$crate first" >&2; exit 2; }
    done
    (cd "$top" && tar -cf - --exclude=out --exclude=must-fail crates) | tar -C "$room" -xf -
    for built in "$top"/crates/*/out/rlib; do
        crate=${built%/out/rlib}
        mkdir "$room/crates/${crate##*/}/out"
        cp -Rp "$built" "$room/crates/${crate##*/}/out"
    done
    mkdir -p "$room/crates/$1/src"
    cp "$here/$3" "$room/crates/$1/src/lib.rt"
    { cat "$top/crates.txt"; echo "$1 staticlib: $2"; } >"$room/crates.txt"
    (cd "$room/crates/$1" && rt lib) >"$room/said" 2>&1 || { cat "$room/said" >&2; exit 2; }
    build --crate-type rlib --crate-name second -o "$room/libsecond.rlib" "$top/second/src/lib.rs"
    build --extern second="$room/libsecond.rlib" -L native="$room/crates/$1/out" -l static="$1" -o "$room/$1" "$here/$4"
}
