# Functions of the samples' scripts that write trees byte by byte, as docs/FORMATS.md tells, also ones that no program
# writes.

# number WIDTH VALUE: its bytes, the highest first.
number() {
    local digits
    digits=$(printf "%0$(($1 * 2))x" "$2")
    # shellcheck disable=SC2059
    printf "$(sed 's/../\\x&/g' <<< "$digits")"
}

# Nodes: `folder COUNT`, behind which as many entries follow; `entry NAME`, behind which its node follows.
folder() { printf D; number 4 "$1"; }
entry() { number 2 "${#1}"; printf %s "$1"; }
file() { printf 'F\0'; number 8 "${#1}"; printf %s "$1"; }
program() { printf 'F\1'; number 8 "${#1}"; printf %s "$1"; }
link() { printf L; number 2 "${#1}"; printf %s "$1"; }

# spelled NODE..: the spelling of a tree of these nodes, each a text of words as above.
spelled() {
    local node
    printf 'CNBT\1'
    for node; do eval "$node"; done
}

# stored FOLDER NODE..: puts the spelling into the trees of a store or a cache, and prints its digest.
stored() {
    local digest
    mkdir -p "$1/trees"
    spelled "${@:2}" > "$1/spelling"
    digest=$(sha256sum "$1/spelling" | cut -d ' ' -f 1)
    mv "$1/spelling" "$1/trees/$digest"
    echo "$digest"
}
