# Functions that the samples' scripts share: they write buildpacks and orders.

# component BUILDPACKS ID VERSION [LINE]: a buildpack whose bin/detect is the script on standard input. LINE is added to
# its descriptor's table.
component() {
    local folder=$1/${2//\//_}/$3
    mkdir -p "$folder/bin"
    printf 'api = "0.10"\n\n[buildpack]\nid = "%s"\nversion = "%s"\n%s\n' "$2" "$3" "${4-}" > "$folder/buildpack.toml"
    { echo '#!/bin/sh'; cat; } > "$folder/bin/detect"
    chmod 755 "$folder/bin/detect"
}

# targeted BUILDPACKS ID TARGET..: a buildpack of version 1.0.0 has these targets too, as `linux/arm64`, `linux/` or `/arm64`.
targeted() {
    local target
    for target in "${@:3}"; do
        echo '[[targets]]'
        [ -z "${target%/*}" ] || echo "os = \"${target%/*}\""
        [ -z "${target#*/}" ] || echo "arch = \"${target#*/}\""
    done >> "$1/${2//\//_}/1.0.0/buildpack.toml"
}

# analyzed WORK OS ARCH: `analyzed.toml` of a work folder, for a run image of this target.
analyzed() {
    mkdir -p "$1"
    printf 'run = "run"\nos = "%s"\narch = "%s"\n' "$2" "$3" > "$1/analyzed.toml"
}

# builder BUILDPACKS ID VERSION: the bin/build of a buildpack is the script on standard input.
builder() {
    local program=$1/${2//\//_}/$3/bin/build
    { echo '#!/bin/sh'; cat; } > "$program"
    chmod 755 "$program"
}

# composite BUILDPACKS ID GROUP..: a buildpack of version 1.0.0 that stands for each of its groups in turn.
composite() {
    local folder=$1/${2//\//_}/1.0.0
    mkdir -p "$folder"
    printf 'api = "0.10"\n\n[buildpack]\nid = "%s"\nversion = "1.0.0"\n\n' "$2" > "$folder/buildpack.toml"
    order "${@:3}" >> "$folder/buildpack.toml"
}

# order GROUP..: an order. A group is a text of entries: an id, `@` and a version where one is named, `?` where the
# entry is optional.
order() {
    local group entry id
    for group; do
        printf '[[order]]\ngroup = [\n'
        for entry in $group; do
            id=${entry%\?}
            printf '    { id = "%s"' "${id%@*}"
            [ "$id" = "${id%@*}" ] || printf ', version = "%s"' "${id#*@}"
            [ "$id" = "$entry" ] || printf ', optional = true'
            printf ' },\n'
        done
        printf ']\n\n'
    done
}

# plan WORD..: the lines of a detect script that write a Build Plan: `provides NAME`, `requires NAME`, and `or` in front of
# each further alternative.
plan() {
    local before=
    printf 'cat > "$2" <<PLAN\n'
    while [ $# -gt 0 ]; do
        if [ "$1" = or ]; then
            before=or.
            printf '[[or]]\n'
            shift
        else
            printf '[[%s%s]]\nname = "%s"\n' "$before" "$1" "$2"
            shift 2
        fi
    done
    printf 'PLAN\n'
}
