#!/bin/bash
# The commands that the documents show print what stands below them there; and each link of a document leads somewhere.
. "$(dirname "${BASH_SOURCE[0]}")/../expect.bash"
. "$top/tests/readme.bash"

python3 "$top/tests/shell/documents.py" </dev/null

# A reader types a command at the top of the repository. Here that is a folder with the same names, in which it may leave files.
# place FOLDER: makes it
place() {
    local each
    mkdir "$1"
    for each in dnp README.md docs tests; do ln -s "$top/$each" "$1/$each"; done
    cp -r "$top/examples" "$1/examples"
}

# free_ports: the first four digits of ten ports at which nobody listens, of this process alone
taken=$((BASHPID % 80 * 3))
free_ports() {
    local port
    while taken=$((taken + 1)); do
        for port in {0..9}; do
            grep -qi ":$(printf '%04X' $(((3000 + taken % 260) * 10 + port))) [0-9A-F]*:0000 0A" /proc/net/tcp && continue 2
        done
        ports=$((3000 + taken % 260))
        return
    done
}

# on_free_ports FILE..: ports that are free, in place of those that the documents have
on_free_ports() {
    sed -i -E "s/\b2001([01])\b/$ports\1/g; s/\b20100\b/${ports}5/g; s/\b20101\b/${ports}6/g; s/\b20000\b/${ports}8/g" "$@"
}

# Commands that need each other go side by side with the rest
waiting=()
for file in docs/tutorial.md docs/poll.md examples/README.md; do
    name=${file//[\/.]/-}
    place "$room/at-$name"
    free_ports
    blocks "$name" "$top/$file"
    on_free_ports "$room/$name"-*.block "$room/at-$name"/examples/network/*.sh
    shows_in_turn "$name" "$room/at-$name" "$room/at-$name:$PATH" >"$room/$name.said" &
    waiting+=($! "$name")
done

place "$room/here"
for file in README.md docs/{scripts,decode,trace}.md; do
    name=${file//[\/.]/-}
    blocks "$name" "$top/$file"
    for block in "$room/$name"-*.block; do
        prints_block "$block" "$room/here" "$room/here:$PATH"
    done
done

set -- "${waiting[@]}"
while [ $# -gt 0 ]; do
    wait "$1"
    cat "$room/$2.said"
    shift 2
done
