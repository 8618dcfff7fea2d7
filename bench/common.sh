# shellcheck shell=bash
# What the measurements and the checks outside the gate do alike; they source it. They work in the
# folder $room, from the top of the repository in $top.

# lacks WHAT HOW: ends with one line that says what is missing and how it is got.
lacks() {
    echo "$0 needs $1: $2" >&2
    exit 2
}

# need NAME..: ends so where a command or a Debian package is missing.
need() {
    local name missing=()
    for name in "$@"; do
        command -v "$name" > /dev/null || dpkg -s "$name" > /dev/null 2>&1 || missing+=("$name")
    done
    [ ${#missing[@]} = 0 ] || lacks "${missing[*]}" "apt-get install ${missing[*]}"
}

# take_original CRATE ROOM: the source of the Rust crate in $crate, and the folder $room.
take_original() {
    if [ $# -lt 2 ] || [ ! -f "$1/src/lib.rs" ]; then
        lacks "CRATE, the source of serde-content 0.1.2, and ROOM, a folder to work in" \
            "'cargo add serde-content@=0.1.2 && cargo vendor' in a Rust crate puts the source in vendor/serde-content"
    fi
    need rsync cargo python3 librust-serde-dev librust-serde-derive-dev
    crate=$(cd "$1" && pwd)
    mkdir -p "$2"
    room=$(cd "$2" && pwd)
}

# place_ours CRATE SOURCE LINE: a copy of the repository with one crate more, from the folder SOURCE,
# whose line of crates.txt is LINE. Files there end in .in, since the gate stops at a .rt file that
# no check reads.
place_ours() {
    local crate=$room/ours/crates/$1
    rsync -a --delete --exclude out --exclude .git --exclude "/crates/$1" "$top/" "$room/ours/"
    rsync -a --delete --exclude out "$2/" "$crate/"
    find "$crate" -name '*.in' | while read -r file; do mv "$file" "${file%.in}"; done
    rm -rf "$room/ours/bench"
    echo "$3" >> "$room/ours/crates.txt"
    [ -d "$room/ours/.git" ] || git -C "$room/ours" init -q
}

# place_original CRATE DRIVER: the Rust crate, and a program over it.
place_original() {
    rsync -a "$1/" "$room/serde-content/"
    cp "$top/bench/beside/serde-content.toml" "$room/serde-content/Cargo.toml"
    place_driver "$2"
}

# place_driver DRIVER: a Rust program that finds Serde where Debian's packages put it.
place_driver() {
    local registry
    rsync -a --exclude target "$1/" "$room/driver/"
    registry=$(dpkg -L librust-serde-dev | grep -m1 '/cargo/registry$')
    mkdir -p "$room/driver/.cargo"
    cat > "$room/driver/.cargo/config.toml" <<CONFIG
[source.crates-io]
replace-with = "debian"
[source.debian]
directory = "$registry"
[net]
offline = true
CONFIG
}

# build_port: the static library content_port, with a mark between phases. tools/derive writes its types.
build_port() {
    "$room/ours/tools/derive" --crate content_port --module types "$room/ours/crates/content_port/types.rs" \
        -o "$room/ours/crates/content_port/src/types.rt"
    (cd "$room/ours/crates/content_port" && RT_ALLOW_C=content_port rt lib) \
        > "$room/ours.log" 2>&1 || { tail -n 5 "$room/ours.log"; exit 1; }
}

# build_driver: the driver, with that library in it. Rattle's code is for x86-64-v2.
build_driver() {
    local kit
    kit=$(dirname "$(rt doc)")
    touch "$room/driver/build.rs"
    (
        cd "$room/driver" || exit
        PORT_LIB_DIR=$room/ours/crates/content_port/out RATTLE_KIT_C=$kit/c \
            RUSTFLAGS='-C target-cpu=x86-64-v2' cargo build --offline --release
    ) 2> "$room/driver.log" || { tail -n 8 "$room/driver.log"; exit 1; }
}
