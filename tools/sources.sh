# Sourced by .ci/run, tools/run-proved and cabi/tools.sh, which set `top` to the repository's root and have a function `stop`. It tells whether a file
# in a crate's out/ was built from these very sources: a note of it, in target/run-proved, has the sum of all sources and the file's own.

# Sets kit, the folder of the Rattle kit.
find_kit() {
    command -v rt >/dev/null || stop "rt, the command of the Rattle kit, is not on the PATH"
    guide=$(rt doc </dev/null) || stop "rt, the command of the Rattle kit, does not run"
    kit=$(cd "$(dirname "$guide")" && pwd)
}

# The sum of all that is proved and built from, the kit among it. Sums and not times: a time does not tell a file that was copied from another tree,
# or changed while the proof ran. And not `rt run` at each use: it takes half a second, which a sum does not, and writes to out/.
sources() {
    (cd "$top" && find -L crates.txt crates -path 'crates/*/out' -prune -o -type f ! -name '*.edit' -exec sha256sum {} + 2>/dev/null |
        LC_ALL=C sort | cat - "$kit/KIT-ID" 2>/dev/null | sha256sum)
}

# Whether a file is the one that was built from these sources, as its note says.
noted() { # FILE NOTE
    [ -r "$1" ] && [ "$(cat "$2" 2>/dev/null)" = "$(sources) $(sha256sum <"$1")" ]
}

# Notes that a file was built from the sources of this sum. Where one was changed meanwhile, or this cannot be written, the next use builds again.
write_note() { # FILE NOTE SUM
    rm -f "$2"
    [ "$3" != "$(sources)" ] || { echo "$3 $(sha256sum <"$1")" >"$2"; } 2>/dev/null || true
}

# One command builds at a time, where there is a flock: a second one waits for it, and says so. Descriptor 9 is the repository's root. A check that is
# started by hand at the same time waits too, by rt's own locks.
wait_turn() { # NAME
    if command -v flock >/dev/null && ! flock -n 9; then
        echo "$1: waits for another command that builds" >&2
        flock 9
    fi
}
