# What the programs tests/*/run and benches/run share; they source it. It assumes that $root is the
# repository's folder and $target the program's own folder below target/.
#
#   CI                 where it is set, and neither 0 nor false, a check that cannot run is a failure
#   RICESHOAL_LIB_DIR  the folder of libcapi.a; where it is not set, crates/capi/out
#   CUSTOMASM_SRC      the Rust's folder; where it is not set, ../shared/docs/src/src, beside this
#                      repository or beside the one that it is a clone of
registry=/usr/share/cargo/registry

# Says in one line what was not run, and why. Where the environment says CI, that ends the run as a
# failure: there nobody would see the line.
left_out() {
    echo "$1: not run: $2"
    case ${CI:-} in
        '' | 0 | false) ;;
        *) exit 1 ;;
    esac
}

# The same for a whole run, which ends.
not_run() {
    left_out "$1" "$2"
    exit 0
}

# Says beside a file that rt made which rt it was.
made() {
    rt version >"$1.version"
}

# Whether a file that rt made is missing, of another rt, or older than a source.
is_missing() {
    [ ! -f "$1" ] || [ "$(cat "$1.version" 2>/dev/null)" != "$(rt version)" ] ||
        [ -n "$(find "$root/crates" "$root/crates.txt" -name out -prune -o -newer "$1" \
            \( -name '*.rt' -o -name '*.antt' -o -name crates.txt \) -print | head -n 1)" ]
}

# Runs rt in a crate's folder, on its stdin where it has one, to make a file below its out/ where that
# is missing: what it is for, the crate, the file, rt's words.
make_file() {
    file=$root/crates/$2/out/$3
    if is_missing "$file"; then
        mkdir -p "$root/target"
        echo "$1: rt $4 in crates/$2" >&2
        input=$root/crates/$2/stdin
        [ -f "$input" ] || input=/dev/null
        if ! (cd "$root/crates/$2" && rt "$4" <"$input") >"$root/target/$2.log" 2>&1; then
            tail -n 20 "$root/target/$2.log"
            echo "$1: $3 was not made"
            exit 1
        fi
        made "$file"
    fi
}

# Sets RICESHOAL_LIB_DIR to the folder of libcapi.a, which is made where it is missing.
find_library() {
    if [ -z "${RICESHOAL_LIB_DIR:-}" ]; then
        make_file "$1" capi libcapi.a lib
        RICESHOAL_LIB_DIR=$root/crates/capi/out
    fi
    RICESHOAL_LIB_DIR=$(CDPATH= cd -- "$RICESHOAL_LIB_DIR" && pwd -P)
    export RICESHOAL_LIB_DIR
}

# Runs a command that asks a server, up to three times.
ask() {
    "$@" || { sleep 5 && "$@"; } || { sleep 20 && "$@"; }
}

# Asks for the lists of Debian's packages, once; fails where they cannot be had.
update_lists() {
    case ${lists:-} in
        new) return 0 ;;
        none) return 1 ;;
    esac
    lists=none
    [ "$(id -u)" = 0 ] && ask apt-get -qq update && lists=new
}

# Installs a package of Debian's, where that can be done.
install_package() {
    export DEBIAN_FRONTEND=noninteractive
    update_lists && ask apt-get -qq -y --no-install-recommends install "$1"
}

has_bigint() {
    for folder in "$registry"/num-bigint-[0-9]*; do
        [ -d "$folder" ] && return 0
    done
    return 1
}

# Prints the folder of the Rust: beside this repository, or beside the one that it is a clone of.
rust_folder() {
    folder=../shared/docs/src/src
    origin=$(git -C "$root" config remote.origin.url 2>/dev/null || :)
    if [ ! -d "$root/$folder" ] && [ -d "$origin/$folder" ]; then
        echo "$origin/$folder"
    else
        echo "$root/$folder"
    fi
}

# Sets CUSTOMASM_SRC to the folder of the Rust. The argument is a function that is told what cannot be
# had, and ends the run.
find_rust() {
    package=librust-num-bigint-dev
    CUSTOMASM_SRC=${CUSTOMASM_SRC:-$(rust_folder)}
    cargo --version >/dev/null 2>&1 || "$1" "there is no cargo"
    for file in util/bigint util/bitvec util/bitvec_format util/char_counter util/fileserver \
        diagn/report diagn/span; do
        [ -f "$CUSTOMASM_SRC/$file.rs" ] || "$1" "there is no $file.rs in $CUSTOMASM_SRC"
    done
    has_bigint || install_package "$package" >/dev/null 2>&1 || "$1" "$package is not installed"
    has_bigint || "$1" "$package did not bring num-bigint to $registry"
    CUSTOMASM_SRC=$(CDPATH= cd -- "$CUSTOMASM_SRC" && pwd -P)
    export CUSTOMASM_SRC
}

# Builds the program of this folder beside the Rust; the arguments go to cargo. Crates come from
# Debian's folder alone.
build_rust() {
    CARGO_TARGET_DIR=$target
    export CARGO_TARGET_DIR
    rm -f Cargo.lock
    cargo build --release --offline --quiet \
        --config 'source.crates-io.replace-with="debian"' \
        --config "source.debian.directory=\"$registry\"" "$@" >&2
}
