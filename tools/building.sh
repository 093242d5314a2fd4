# shellcheck shell=sh
# What `macsecd`, `tools/prove`, `tools/build_unproved` and `.ci/run` have in common. Each reads it with `top` set to the
# repository's folder.
#
# A built program is in out/LEVEL, named after its level of processors; one that is not proved is in out/LEVEL/unproved. Beside it is
# `sources`, the checksum of all that it was built from. `out` is at the top, since the gate clears that of each crate.

# The level of processors that this machine belongs to: x86-64-v3 where that serves, else the toolchain's default.
processor() {
    for feature in avx avx2 bmi1 bmi2 f16c fma abm movbe; do
        grep -q -m 1 -w "$feature" /proc/cpuinfo || {
            echo x86-64-v2
            return
        }
    done
    echo x86-64-v3
}

# The crates that a crate needs, the program if none is named, and it, lowest first.
crates() { # [CRATE]
    awk -F: -v root="${1:-macsecd}" '
        { sub(/#.*/, "") }
        NF == 2 { split($1, words, " "); names[++count] = words[1]; below[words[1]] = $2 }
        END {
            needed[root]
            for (at = count; at > 0; at--) if (names[at] in needed) {
                libraries = split(below[names[at]], of, " ")
                for (i = 1; i <= libraries; i++) needed[of[i]]
            }
            for (at = 1; at <= count; at++) if (names[at] in needed) print names[at]
        }' "$top/crates.txt"
}

# A checksum of the names and the octets of all that the program is built from, or the crate that is named.
source_sum() ( # [CRATE]
    cd "$top" || exit
    crates=$(crates "${1:-macsecd}")
    set --
    for crate in $crates; do
        for part in src specs proofs; do
            [ ! -d "crates/$crate/$part" ] || set -- "$@" "crates/$crate/$part"
        done
    done
    find crates.txt HANDLES tools/tree_for "$@" -type f -print0 | LC_ALL=C sort -z | xargs -0 sha256sum | sha256sum | cut -d ' ' -f 1
)

# Whether the program in a folder was built from sources with this checksum.
is_of() { # FOLDER SUM
    [ -x "$1/macsecd" ] && [ -n "$2" ] && [ "$(cat "$1/sources" 2>/dev/null)" = "$2" ]
}

# Puts a program that was built from sources with this checksum into a folder, if the sources are the same still. It takes the
# place of an older one at once, also while that one runs.
keep() { # PROGRAM FOLDER SUM
    [ "$(source_sum)" = "$3" ] || {
        echo "macsecd: a source changed while the program was built, so it is not kept: run this again" >&2
        return 1
    }
    mkdir -p "$2" && rm -f "$2/sources" && cp "$1" "$2/macsecd.$$" && mv "$2/macsecd.$$" "$2/macsecd" && echo "$3" >"$2/sources"
}
