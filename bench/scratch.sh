# What the benches of crates share: a program of their own over libraries of the repository. It is built in a temporary
# copy of these and of those below them, with their lines of crates.txt. What an earlier build proved of them is taken
# along, so that then only the program is proved. It is kept in bin/, for later runs over the same sources by the same kit.

top=$(cd "$(dirname "${BASH_SOURCE[0]}")/.." && pwd)
work=$(mktemp -d)
trap 'rm -rf "$work"' EXIT

# copied CRATE: copies a crate of the repository and those below it. The copy has no wrong bodies: a program tries none.
copied() {
    local part library
    [ -d "$top/crates/$1" ] && [ ! -d "$work/crates/$1" ] || return 0
    for part in src specs proofs out/rlib; do
        [ -d "$top/crates/$1/$part" ] || continue
        mkdir -p "$work/crates/$1/$part"
        # Linked where both folders are on one disk.
        cp -al "$top/crates/$1/$part/." "$work/crates/$1/$part" 2> /dev/null ||
            cp -a "$top/crates/$1/$part/." "$work/crates/$1/$part"
    done
    grep "^$1:" "$top/crates.txt" >> "$work/crates.txt"
    for library in $(sed -n "s/^$1://p" "$top/crates.txt"); do copied "$library"; done
}

# sources: a digest of all that the program is built from.
sources() {
    (
        cd "$work" || exit 1
        find . -name out -prune -o -type f -print0 | LC_ALL=C sort -z | xargs -0 sha256sum
        rt version
    ) | sha256sum
}

# scratch NAME LIBRARY..: builds the program whose main.rt is on standard input over these libraries, of the repository
# or of the kit, and goes to its crate's folder. There it is out/NAME.
scratch() {
    local library now kept=$top/bin/$1
    mkdir -p "$work/crates/$1/src"
    cat > "$work/crates/$1/src/main.rt"
    cp "$top/HANDLES" "$work"
    for library in "${@:2}"; do copied "$library"; done
    echo "$1: ${*:2}" >> "$work/crates.txt"
    cd "$work/crates/$1" || exit 1
    now=$(sources)
    mkdir -p out "$top/bin"
    if [ -x "$kept" ] && [ "$(cat "$kept.sources" 2> /dev/null)" = "$now" ]; then
        cp "$kept" out
        return
    fi
    # `rt run` builds the program and runs it once, without words.
    rt run > "$work/build.log" 2>&1 < /dev/null || { tail -n 40 "$work/build.log" >&2; exit 1; }
    rm -f "$kept.sources"
    cp "out/$1" "$kept"
    echo "$now" > "$kept.sources"
}
