# The Rust crate, by cargo and the installed library. tests/install/run reads this file.

crate=bindings/rust

# cargo_at FOLDER GOAL WORDS..: cargo in the crate, with the library that is installed there
cargo_at() {
    local folder=$1 goal=$2
    shift 2
    (cd "$crate" && PKG_CONFIG_PATH=$folder/lib/pkgconfig LD_LIBRARY_PATH=$folder/lib CARGO_TARGET_DIR=$room/cargo \
        RUSTFLAGS='-D warnings' RUSTDOCFLAGS='-D warnings' cargo "$goal" --offline --locked "$@")
}

# The example with the static library and with the shared one, and all tests.
builds_by_cargo() {
    cargo_at "$prefix" run -q --example quick | diff - tests/data/examples/quick.txt &&
        IP_WIRE_SHARED=1 cargo_at "$prefix" run -q --example quick | diff - tests/data/examples/quick.txt &&
        cargo_at "$prefix" test -q || return 1
    PKG_CONFIG_LIBDIR=$room fails_with 'pkg-config does not find the C library ip_wire' cargo_at "$room" build -q
}

# packs FILE..: the crate is packed without a warning, and has these files too
packs() {
    local file
    cargo_at "$prefix" package --allow-dirty > "$room/packing" 2>&1 || { cat "$room/packing"; return 1; }
    ! grep '^warning' "$room/packing" | grep -v 'has no documentation, homepage or repository' || return 1
    tar -tzf "$room/cargo/package/ip_wire_c-$(c/version).crate" > "$room/packed" || return 1
    for file in Cargo.toml LICENSE LICENSES/byteorder.txt README.md build.rs examples/quick.rs src/lib.rs "$@"; do
        grep -q "^ip_wire_c-[0-9.]*/$file$" "$room/packed" || { echo "no $file is packed"; return 1; }
    done
}

# The crate that is packed with the library needs no other one. The pages of docs.rs need none at all.
packs_by_cargo() (
    [ "$(packaging/crate "$room/crate")" = "$room/crate" ] &&
        fails_with "$room/folder is no crate of make crate" packaging/crate "$room/folder" || exit 1
    export PKG_CONFIG=false
    DOCS_RS=1 cargo_at / doc -q --no-deps || exit 1
    crate=$room/crate
    packs bundled/libip_wire.a bundled/ip_wire.h &&
        tar -xzf "$room/cargo/package/ip_wire_c-$(c/version).crate" -C "$room/crate" || exit 1
    crate=$room/crate/ip_wire_c-$(c/version)
    cargo_at / run -q --example quick | diff - tests/data/examples/quick.txt && cargo_at / test -q
)

has_clean_rust() {
    cargo_at "$prefix" clippy -q --all-targets -- -D warnings -W clippy::pedantic &&
        (cd "$crate" && cargo fmt --check)
}
