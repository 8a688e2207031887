# Completions of lifecycle for bash. To use them: source docs/lifecycle.bash

# The options of a command.
_lifecycle_options() {
    case $1 in
        detect) echo --order --buildpacks --app --platform --work --workers --record ;;
        analyze) echo --store --run --work --previous ;;
        restore) echo --store --work --layers --cache ;;
        build) echo --buildpacks --app --platform --work --layers ;;
        export) echo --store --work --layers --app --launcher --image --cache ;;
        create)
            echo --order --buildpacks --app --platform --work --layers --store --run --launcher --image \
                --previous --workers --cache
            ;;
        rebase) echo --store --image --run ;;
        base) echo --store --run --os --arch --tree ;;
        unpack) echo --store --image --root ;;
        show | verify) echo --store --image ;;
        prune) echo --store ;;
        check) echo --order --buildpacks --work --record ;;
        launch) echo --root -- ;;
    esac
}

# The options that may still be given: those that stand already are left out, but for the ones that may stand again.
_lifecycle_left() {
    local option
    for option in $(_lifecycle_options "${COMP_WORDS[1]}"); do
        case $option in
            --cache | --tree) echo "$option" ;;
            *) [[ " ${COMP_WORDS[*]:2:COMP_CWORD-2} " == *" $option "* ]] || echo "$option" ;;
        esac
    done
}

# The names of a folder of the store that the words name.
_lifecycle_names() {
    local place document
    for ((place = 2; place < COMP_CWORD; place++)); do
        [ "${COMP_WORDS[place]}" = --store ] || continue
        for document in "${COMP_WORDS[place + 1]}/$1"/*.toml; do
            [ ! -e "$document" ] || basename "$document" .toml
        done
    done
}

_lifecycle() {
    local current=${COMP_WORDS[COMP_CWORD]} words
    COMPREPLY=()
    if [ "$COMP_CWORD" -eq 1 ]; then
        words='analyze base build check create detect drill export launch prune rebase restore show unpack verify'
    else
        case ${COMP_WORDS[COMP_CWORD - 1]} in
            --order | --record) mapfile -t COMPREPLY < <(compgen -f -- "$current") && return ;;
            --app | --buildpacks | --cache | --launcher | --layers | --platform | --root | --store | --tree | --work)
                mapfile -t COMPREPLY < <(compgen -d -- "$current") && return
                ;;
            --image | --previous) words=$(_lifecycle_names images) ;;
            --run) words=$(_lifecycle_names runs) ;;
            --os) words=linux ;;
            --arch) words='amd64 arm64' ;;
            --workers) words='1 2 4 8 16 32 64' ;;
            *) words=$(_lifecycle_left) ;;
        esac
    fi
    mapfile -t COMPREPLY < <(compgen -W "$words" -- "$current")
}

complete -F _lifecycle lifecycle
