# What the scripts of cases on images share: in $at an application, a buildpack `a` that builds it, folders for run
# images, and the words of each command over them. A script sources this behind cases.sh.

# What stands at the image's document: none, a folder, the old document that `remember` took, or a new one.
stands() {
    local document=$at/store/images/image.toml
    if [ ! -e "$document" ]; then
        echo none
    elif [ -d "$document" ]; then
        echo folder
    elif cmp -s "$document" "$room/image.old"; then
        echo old
    else
        echo new
    fi
}

remember() { cp "$at/store/images/image.toml" "$room/image.old"; }

# words_of COMMAND: its words over what stands in $at, in `words`.
words_of() {
    local sources=(--buildpacks "$at/buildpacks" --app "$at/app" --platform "$at/platform")
    local of_store=(--store "$at/store") of_work=(--work "$at/work") of_layers=(--layers "$at/layers")
    local of_cache=(--cache "$at/cache") of_image=(--image image) of_run=(--run run) of_order=(--order "$at/order.toml")
    local of_launcher=(--launcher "$at/launcher")
    case $1 in
        base) words=("${of_store[@]}" "${of_run[@]}" --os linux --arch amd64 --tree "$at/base") ;;
        analyze) words=("${of_store[@]}" "${of_run[@]}" "${of_work[@]}" --previous image) ;;
        detect) words=("${of_order[@]}" "${sources[@]}" "${of_work[@]}") ;;
        restore) words=("${of_store[@]}" "${of_work[@]}" "${of_layers[@]}" "${of_cache[@]}") ;;
        build) words=("${sources[@]}" "${of_work[@]}" "${of_layers[@]}") ;;
        export)
            words=("${of_store[@]}" "${of_work[@]}" "${of_layers[@]}" --app "$at/app" "${of_launcher[@]}" "${of_image[@]}"
                "${of_cache[@]}")
            ;;
        create)
            words=("${of_order[@]}" "${sources[@]}" "${of_work[@]}" "${of_layers[@]}" "${of_store[@]}" "${of_run[@]}"
                "${of_launcher[@]}" "${of_image[@]}" "${of_cache[@]}")
            ;;
        rebase) words=("${of_store[@]}" "${of_image[@]}" --run newer) ;;
        unpack) words=("${of_store[@]}" "${of_image[@]}" --root "$at/root") ;;
        show) words=("${of_store[@]}" "${of_image[@]}") ;;
        launch) words=(--root "$at/root") ;;
    esac
    words=("$1" "${words[@]}")
}

# step NAME STATUS PRINTED STANDS COMMAND [WORD..]: a case of a command over what stands in $at, with further words.
step() {
    words_of "$5"
    expect "$1" "$2" "$3" "$4" "$lifecycle" "${words[@]}" "${@:6}"
}

# through COMMAND..: commands that have to do their work before a case begins.
through() {
    local command
    for command; do
        words_of "$command"
        "$lifecycle" "${words[@]}" > "$room/printed" 2> "$room/said" || {
            echo "$command, before a case: $(cat "$room/printed" "$room/said")"
            exit 1
        }
    done
}

# keep NAME, fresh NAME: $at is kept as it stands, and stands again as it was kept.
keep() {
    rm -rf "${room:?}/$1"
    cp -a "$at" "$room/$1"
}
fresh() {
    chmod -R u+w "$at"
    rm -rf "$at"
    cp -a "$room/$1" "$at"
}

# The buildpack's build: a layer of each kind, two processes, and metadata of its own.
builds() {
    builder "$at/buildpacks" a 1.0.0 <<'SCRIPT'
set -eu
mkdir -p "$1/kept/bin" "$1/kept/exec.d" "$1/note/env.launch" "$1/tools"
printf '#!/bin/sh\necho "kept $*"\n' > "$1/kept/bin/kept"
printf '#!/bin/sh\necho '"'"'SET = "set"'"'"' >&3\n' > "$1/kept/exec.d/set"
chmod 755 "$1/kept/bin/kept" "$1/kept/exec.d/set"
printf noted > "$1/note/env.launch/NOTE"
echo tool > "$1/tools/tool"
printf '[types]\nlaunch = true\ncache = true\n' > "$1/kept.toml"
printf '[types]\nlaunch = true\n\n[metadata]\nnumber = 1\n' > "$1/note.toml"
printf '[types]\nbuild = true\ncache = true\n' > "$1/tools.toml"
printf '[metadata]\nstored = "yes"\n' > "$1/store.toml"
cat > "$1/launch.toml" <<'LAUNCH'
[[processes]]
type = "web"
command = ["kept"]
args = ["one"]
default = true

[[processes]]
type = "job"
command = ["sh", "-c"]
args = ["exit 3"]
LAUNCH
SCRIPT
}

# stage [LAUNCHER]: all that `create` is given, and two run images. Where no launcher is named, one line stands for it.
stage() {
    mkdir -p "$at/app" "$at/platform/env" "$at/base/etc" "$at/newer/etc" "$at/launcher"
    echo one > "$at/base/etc/release"
    echo two > "$at/newer/etc/release"
    echo source > "$at/app/main"
    if [ $# -eq 0 ]; then echo 'no launcher' > "$at/launcher/launcher"; else cp "$1" "$at/launcher/launcher"; fi
    echo 'exit 0' | component "$at/buildpacks" a 1.0.0
    builds
    order a > "$at/order.toml"
    through base
    "$lifecycle" base --store "$at/store" --run newer --os linux --arch amd64 --tree "$at/base" --tree "$at/newer" > /dev/null
}
