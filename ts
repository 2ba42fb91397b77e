#!/bin/sh
# Runs the typesetter on these words in the caller's folder. It is built first, which proves it, unless a program is there
# that is newer than every source, than the list of crates and than the kit, and no source is gone since.
here=$(CDPATH= cd -- "$(dirname -- "$0")" && pwd) || exit 8
program=$here/crates/ts_program/out/ts_program

# A file that is gone shows in the time of its folder.
changed() {
    find "$here/crates.txt" "$(command -v rt)" -newer "$program" -print
    find "$here/crates" -name out -prune -o -newer "$program" \( -name '*.rt' -o -name '*.antt' -o \
        -type d \( -path '*/src*' -o -path '*/specs*' -o -path '*/proofs*' \) \) -print
}

if [ ! -x "$program" ] || [ -n "$(changed | head -n 1)" ]; then
    echo 'ts: building the program, which proves it first: some ten minutes on a new machine' >&2
    log=$(mktemp) || exit 8
    rm -f "$program"
    # With no words the program that was built tells its usage.
    (cd "$here/crates/ts_program" && rt run) >"$log" 2>&1
    if [ ! -x "$program" ] || ! grep -q '^usage: typeset NAME' "$log"; then
        cat "$log" >&2
        rm -f "$log"
        exit 8
    fi
    rm -f "$log"
fi
exec "$program" "$@"
