# The checks of the bindings for Python and Go. tests/install/run has the folders `room`, `top` and `prefix`.

# The installed package is that of the source. Its tests and its example find the library by either variable.
loads_by_python() {
    local package="$prefix/share/ip_wire/python"
    diff -r -x __pycache__ bindings/python/ip_wire "$package/ip_wire" || return 1
    PYTHONPATH=$package IP_WIRE_LIBRARY=$prefix/lib/libip_wire.so python3 -m unittest discover -s bindings/python/tests &&
        runs "PYTHONPATH='$package' python3 '$top/examples/python/quick.py'" | diff - tests/data/examples/quick.txt &&
        reads_captures env PYTHONPATH="$package" LD_LIBRARY_PATH="$prefix/lib" python3 examples/python/read_pcap.py
}

# The first Python that can build a wheel and has pip without network.
packer() {
    local python
    for python in python3 /usr/bin/python3; do
        ! "$python" -c 'import ensurepip, setuptools, wheel' || { command -v "$python"; return; }
    done
    return 1
}

# in_venv WORDS..: pip installs this into an environment without other packages, where the tests and the example then run.
in_venv() {
    local venv=$room/venv
    [ -x "$venv/bin/pip" ] || "$(packer)" -m venv "$venv" || return 1
    "$venv/bin/pip" install -q --no-index --force-reinstall "$@" && (
        unset IP_WIRE_LIBRARY LD_LIBRARY_PATH PYTHONPATH
        cd "$room/folder" || exit
        "$venv/bin/python" -m unittest discover -s "$top/bindings/python/tests" &&
            "$venv/bin/python" "$top/examples/python/quick.py" | diff - "$top/tests/data/examples/quick.txt"
    )
}

# The wheel runs by itself, and its name has the glibc that the library needs. It has the license, and its page links only
# to what is packed. It is the same at another time and with another umask. The sources stay as they are.
packs_a_wheel() {
    local wheel glibc
    local -x PYTHON SOURCE_DATE_EPOCH=1795737600
    PYTHON=$(packer)
    wheel=$(bindings/python/make-wheel "$room/wheel") && (umask 077 && bindings/python/make-wheel "$room/again") &&
        diff -r "$room/wheel" "$room/again" && "$PYTHON" -m zipfile -e "$wheel" "$room/unpacked" &&
        [ "$(find "$room/unpacked" -name LICENSE -exec cat {} +)" = "$(< LICENSE)" ] &&
        diff -r LICENSES "$room/unpacked/ip_wire/LICENSES" &&
        grep -qE '^License(-Expression)?: 0BSD AND MIT$' "$room/unpacked"/*.dist-info/METADATA && mkdir "$room/described" &&
        sed '1,/^$/d' "$room/unpacked"/*.dist-info/METADATA > "$room/described/README.md" && [ -s "$room/described/README.md" ] &&
        tests/docs/markdown.py --links "$room/described" || return 1
    glibc=$(objdump -T out/lib/libip_wire.so | grep -o 'GLIBC_[0-9.]*' | sort -Vu | tail -n 1)
    [[ $wheel == "$room/wheel/ip_wire-$(c/version)-py3-none-manylinux_2_"*"_x86_64.whl" ]] &&
        printf '%s\n' "${glibc#GLIBC_}" "$(sed 's/.*manylinux_\([0-9]*\)_\([0-9]*\)_.*/\1.\2/' <<< "$wheel")" | sort -CV &&
        in_venv "$wheel" && [ ! -e bindings/python/build ] && [ -z "$(find bindings/python -name '*.egg-info')" ]
}

# Of the source tree and of a copy that is not built.
installs_by_pip() {
    local tools=$room/tools copy=$room/unbuilt
    "$(packer)" -c 'import os, setuptools; print(os.path.dirname(os.path.dirname(setuptools.__file__)))' > "$tools" || return 1
    mkdir "$copy" && cp -r bindings "$copy" || return 1
    PYTHONPATH=$(< "$tools") in_venv --no-build-isolation bindings/python &&
        fails_with "there is no $copy/out/lib/libip_wire.so: make build makes it" \
            env PYTHON="$(packer)" "$copy/bindings/python/make-wheel" "$room/none"
}

has_types() {
    (cd bindings/python && mypy --cache-dir "$room/mypy")
}

# go_in FOLDER WORDS..: go in this folder, without network, with the library that is installed
go_in() {
    local folder=$1
    shift
    (cd "$folder" && GOCACHE=$room/go GOPROXY=off GOFLAGS= PKG_CONFIG_PATH=$prefix/lib/pkgconfig \
        LD_LIBRARY_PATH=$prefix/lib go "$@")
}

# The package has its form, no remark and no failing test, and the example uses it.
builds_by_go() {
    [ -z "$(gofmt -l bindings/go examples/go bench/bindings tests/tcp)" ] && go_in bindings/go vet && go_in bindings/go test &&
        go_in examples/go vet ./... && go_in examples/go run . | diff - tests/data/examples/quick.txt &&
        reads_captures go_in examples/go run ./pcap
}
