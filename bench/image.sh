# An image for benches: a run image of one folder, one buildpack that leaves what its build script makes, and the phases
# over them.

# image FOLDER [SCRIPT]: builds an image on this folder; the buildpack's bin/build is SCRIPT.
image() {
    mkdir -p "$work/app" "$work/launcher"
    echo launcher > "$work/launcher/launcher"
    "$lifecycle" base --store "$work/store" --run run --os linux --arch amd64 --tree "$1" > /dev/null
    echo 'exit 0' | component "$work/buildpacks" a 1.0.0
    echo "${2-exit 0}" | builder "$work/buildpacks" a 1.0.0
    order a > "$work/order.toml"
    phases
}

# phases: the phases that make an image, one after another.
phases() {
    local sources=(--buildpacks "$work/buildpacks" --app "$work/app" --platform "$work/platform")
    local store=(--store "$work/store") phase=(--work "$work/work") layers=(--layers "$work/layers")
    {
        "$lifecycle" analyze "${store[@]}" --run run "${phase[@]}" --previous image
        "$lifecycle" detect --order "$work/order.toml" "${sources[@]}" "${phase[@]}"
        "$lifecycle" restore "${store[@]}" "${phase[@]}" "${layers[@]}" --cache "$work/cache"
        "$lifecycle" build "${sources[@]}" "${phase[@]}" "${layers[@]}"
        "$lifecycle" export "${store[@]}" "${phase[@]}" "${layers[@]}" --app "$work/app" --launcher "$work/launcher" --image image \
            --cache "$work/cache"
    } > "$work/phases" 2>&1 || { cat "$work/phases" >&2; exit 1; }
}
