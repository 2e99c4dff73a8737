#!/usr/bin/env bash
# Shows that the compiler refuses a lay on a closed canvas, and refuses writing into the cells' memory while the canvas is
# in use: each edit of a caller is made in a copy outside the repository, and the borrow error's number is looked for.
set -eu
here=$(cd "$(dirname "$0")/.." && pwd)
room=$(mktemp -d)
trap 'rm -rf "$room"' EXIT
(cd "$here" && tar -c --exclude=out crates crates.txt) | tar -x -C "$room"
caller="$room/crates/draw/src/halves.rt"

refused() { # LABEL NUMBER OLD NEW: the text OLD of the caller becomes NEW
    cp "$here/crates/draw/src/halves.rt" "$caller"
    OLD=$3 NEW=$4 perl -0pi -e 's/\Q$ENV{OLD}\E/$ENV{NEW}/ or die "the text is not there\n"' "$caller"
    if (cd "$room/crates/draw" && rt try) > "$room/log" 2>&1; then
        echo "$1: not refused"
        exit 1
    fi
    grep -q "$2" "$room/log" || { echo "$1: refused, and not by $2"; tail -5 "$room/log"; exit 1; }
    echo "$1: refused by $2"
}

refused 'a lay on a closed canvas' borrow-e0382 '    canvas.close()
' '    let counts = canvas.close();
    let _ = canvas.lay(0, right, mask, image);
    counts
'
refused 'writing into the memory of a canvas in use' borrow-e0503 '    canvas.close()
' '    memory[0] = Cell { colour, level: 0 };
    canvas.close()
'
