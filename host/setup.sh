# Sourced by the scripts of this folder, which they have made the current one.
# Sets: reference, the folder of the reference source, empty where there is none;
#       unready, why nothing can be built, empty where all is there.

registry=/usr/share/cargo/registry
packages="librust-serde-dev librust-serde-derive-dev librust-serde-json-dev librust-clap-dev librust-clap-derive-dev librust-indicatif-dev"

debian_has_crates() {
    local crate
    for crate in serde-1 serde_derive-1 serde_json-1 clap-4 clap_derive-4 indicatif-0.17; do
        compgen -G "$registry/$crate.*/Cargo.toml" >/dev/null || return 1
    done
}

install_crates() {
    [ "$(id -u)" -eq 0 ] && command -v apt-get >/dev/null || return 1
    echo "installing $packages"
    export DEBIAN_FRONTEND=noninteractive
    # shellcheck disable=SC2086
    apt-get install -qq -y --no-install-recommends $packages >/dev/null 2>&1 ||
        { apt-get update -qq && apt-get install -qq -y --no-install-recommends $packages; } >/dev/null 2>&1
}

# Cargo takes the crates from Debian's packages where they are, else from the usual registry.
use_registry() {
    mkdir -p .cargo
    local wanted=""
    debian_has_crates && wanted="[source.crates-io]
replace-with = \"debian\"

[source.debian]
directory = \"$registry\""
    if [ "$wanted" != "$(cat .cargo/config.toml 2>/dev/null)" ]; then
        printf '%s\n' "$wanted" >.cargo/config.toml
        rm -f Cargo.lock
    fi
    debian_has_crates || cargo fetch --quiet 2>/dev/null
}

find_reference() {
    reference=${BUCKETBEACH_REFERENCE:-../../shared/docs/src}
    if [ -f "$reference/INDEX.md" ]; then
        reference=$(realpath "$reference")
        export BUCKETBEACH_REFERENCE=$reference
    else
        echo "SKIPPED: the comparison with the reference: no source at $reference (BUCKETBEACH_REFERENCE can name its folder)"
        reference=
    fi
}

unready=
if ! command -v cargo >/dev/null; then
    unready="no cargo"
else
    debian_has_crates || install_crates
    use_registry || unready="no serde, clap or indicatif: neither $packages nor the usual registry can be had"
    export CARGO_NET_OFFLINE=true
fi
find_reference

# For the scripts that need the reference.
need_reference() {
    [ -z "$unready" ] || { echo "cannot be built: $unready"; exit 2; }
    [ -n "$reference" ] || exit 2
}

# Proves a crate of Rattle and makes its static library over the libraries that `rt ci` left in out/ of their crates.
build_over_ci() {
    local crate=$1 kit below words=()
    kit=$(dirname "$(rt doc)")
    for below in $(sed -n "s/^$crate staticlib: *//p" ../crates.txt); do
        words+=(--extern "$below=../$below/out/rlib/$below.rlib")
    done
    for below in ../crates/*/out/rlib; do
        words+=(-L "dependency=../${below#../crates/}")
    done
    (cd "../crates/$crate" && "$kit/bin/rattle" build --crate-name "$crate" src/lib.rt --crate-type staticlib \
        --extern "std=$kit/rlibs/std.rlib" -L "dependency=$kit/rlibs" "${words[@]}" --links "$crate=" \
        --antt-project "$kit/rattle/logic/antt-project.json" --logic-built "$kit/logic_built" \
        --toolchain "$kit/toolchain" --backend llvm -o "out/lib$crate.a")
}

# Proves a crate of Rattle and makes its static library, target/staticlib/libNAME.a: NAME is the crate's, or the one by which its users link
# it. What it builds on is proved too, but where over_ci says that `rt ci` has just proved it here: `rt lib` does not take what that proved.
# A stamp is of a library that a command other than `rt ci` made; with it `rt lib` is quick.
make_staticlib() {
    local crate=$1 name=${2:-$1}
    if [ -n "${over_ci:-}" ] && ! compgen -G "../crates/*/out/rlib/stamp" >/dev/null; then
        build_over_ci "$crate"
    else
        (cd "../crates/$crate" && rt lib)
    fi && mkdir -p ../target/staticlib && cp "../crates/$crate/out/lib$crate.a" "../target/staticlib/lib$name.a"
}

# The static library of the proved calls, to which BUCKETBEACH_STATICLIB then leads. Tells each crate that has to be proved; all that is
# said, which is long, only where it fails.
make_library() {
    local said status
    said=$(mktemp)
    make_staticlib api_c api 2>&1 | tee "$said" | sed -un 's/^rt: chose --jobs [0-9]* for /proving /p'
    status=${PIPESTATUS[0]}
    [ "$status" -eq 0 ] || cat "$said"
    rm -f "$said"
    BUCKETBEACH_STATICLIB=$(realpath -m ../target/staticlib)
    export BUCKETBEACH_STATICLIB
    return "$status"
}
