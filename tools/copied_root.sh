# shellcheck shell=sh
# What `tools/try_package` and `tools/try_unit` have in common. Both work over a copy in memory of a root folder, in namespaces of their own.

top=$(dirname "$(dirname "$(readlink -f "$0")")")

# A copy of a folder with a Debian system, at $root: what is written there is in $room/upper alone. The package is /run/package.deb.
copy_root() { # FOLDER PACKAGE
    room=/mnt root=/mnt/root
    mount -t tmpfs none "$room"
    mkdir "$room/upper" "$room/work" "$root"
    mount -t overlay overlay -o "lowerdir=$1,upperdir=$room/upper,workdir=$room/work" "$root"
    mount -t proc proc "$root/proc"
    mount -t tmpfs -o mode=755 none "$root/run"
    cp "$2" "$root/run/package.deb"
    ip link set lo up
}

# A block of commands of the manual page on a link as a service, from 1 on.
block_of_page() { # NUMBER
    sed -n '/^## A link as a service/,/^## /p' "$top/docs/PACKAGE.md" |
        awk -v wanted="$1" '/^```/ { inside = /^```sh/; count += inside; next } inside && count == wanted'
}

# Its commands that make fresh keys, and the files of both ends with them in /run, where the page has them carried.
key_commands() {
    echo 'cd /run'
    block_of_page 1
}

# Its commands that start an end of a link, once its file is there.
commands_of() { # left|right
    block_of_page 2 | case $1 in right) sed 's/left/right/g; s/0200000000010001/0200000000020001/' ;; *) cat ;; esac
}

# What a step showed: its name, and one line.
say() {
    printf '%-10s %s\n' "$1" "$(printf %s "$2" | tr '\n' ';')"
}

fail() {
    say "$1" "NOT as it should be: $2"
    exit 1
}

# A frame each way, by a host at each end.
carry() { # WHAT COMMAND..
    what=$1
    shift
    said=$("$@" python3 "$top/examples/link/hosts.py") || fail frames "$said"
    say frames "$what: $said"
}
