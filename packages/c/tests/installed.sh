# What packages/c/install and packages/c/dist put where, and the program of the README, built with each library as pkg-config
# and CMake say. packages/c/test reads this.
# shellcheck shell=bash disable=SC2154,SC2086  # what common.sh and packages/c/test set; flags are several words
readme_program() {
    sed -n '/^```c$/,/^```$/p' README.md | sed '/^```/d' >"$scratch/level.c"
    [ -s "$scratch/level.c" ] || stop "the README has no program"
}

# prints_level PROGRAM KIND: the program prints what the README says; it needs the shared library where it is built with it.
prints_level() {
    [ "$(LD_LIBRARY_PATH="$prefix/$libdir" "$1")" = "<p><em>a</em> &lt;b&gt;</p>" ] || stop "the README's program prints something else"
    local needs
    needs=$(readelf -dW "$1" | grep -c "NEEDED.*\[$shared_name\]" || true)
    [ "$needs" = "$([ "$2" = shared ] && echo 1 || echo 0)" ] || stop "the README's program is not built with the $2 library"
    runs=$((runs + 1))
}

# has_files FOLDER: the files of an installed library stand there, and no others.
has_files() {
    local doc=share/doc/fillaqut name=fillaqut files=(include/fillaqut_parser.h "lib/$shared_name")
    files+=("include/$name.h" "lib/cmake/$name/$name-config"{,-version}.cmake "lib/lib$name".{a,so} "lib/pkgconfig/$name.pc")
    printf '%s\n' "${files[@]}" "$doc/CHANGELOG.md" "$doc/LICENSE" | sort >"$scratch/expected"
    (cd "$1" && find . ! -type d -printf '%P\n') | sort | diff "$scratch/expected" - || stop "other files are installed"
    [ "$(readlink "$1/lib/lib$name.so")" = "$shared_name" ] || stop "lib$name.so is another link"
    runs=$((runs + 1))
}

# by_pkg_config PREFIX [LIBDIR]: the program, with each library, by what pkg-config knows.
by_pkg_config() {
    local prefix=$1 libdir=${2:-lib} name=fillaqut kind flags links
    export PKG_CONFIG_PATH=$prefix/$libdir/pkgconfig
    [ "$(pkg-config --modversion "$name")" = "$version" ] || stop "pkg-config has another version"
    flags=$(pkg-config --cflags "$name")
    for kind in shared static; do
        links=$(pkg-config --libs "$name")
        [ $kind = shared ] || links="-Wl,-Bstatic $(pkg-config --libs --static "$name") -Wl,-Bdynamic"
        cc -Wall -Werror $flags "$scratch/level.c" $links -o "$scratch/level" 2>"$scratch/faults" || { cat "$scratch/faults" >&2; stop "$name: no program"; }
        prints_level "$scratch/level" $kind
    done
}

# In a fresh prefix, and below DESTDIR as for /usr. Another archive of the kit may stand in the same program.
check_installed() {
    local prefix=$scratch/prefix libdir=lib runs=0
    readme_program
    packages/c/install "$prefix"
    has_files "$prefix"
    by_pkg_config "$prefix"
    DESTDIR=$scratch/stage packages/c/install /usr
    has_files "$scratch/stage/usr"
    LIBDIR=lib/machine packages/c/install "$scratch/machine"
    by_pkg_config "$scratch/machine" lib/machine
    grep -qx 'prefix=/usr' "$scratch/stage/usr/lib/pkgconfig/fillaqut.pc" || stop "DESTDIR stands in what is installed"
    touch "$scratch/stage/usr/lib/libfillaqut."{"${version%%.*}.dylib",dylib,dll.a} # as for other targets
    DESTDIR=$scratch/stage packages/c/install --remove /usr
    [ -z "$(find "$scratch/stage" ! -type d)" ] && [ -d "$scratch/stage/usr/lib" ] || stop "what is installed is not removed"
    ! (LIBDIR=a/../.. packages/c/install "$prefix" 2>"$scratch/faults") && grep -q LIBDIR "$scratch/faults" || stop "a LIBDIR outside is not refused"
    ! (packages/c/install relative 2>"$scratch/faults") && grep -q absolute "$scratch/faults" || stop "a relative PREFIX is not refused"
    printf 'void %s(void);\nvoid %s(void) {}\n' rattle_{alloc,alloc,realloc,realloc,dealloc,dealloc} >"$scratch/other.c"
    cc "-I$prefix/include" "$scratch/level.c" "$scratch/other.c" -Wl,--whole-archive "$archive" -Wl,--no-whole-archive -o "$scratch/level"
    prints_level "$scratch/level" static
    passed installed "$runs"
}

check_cmake() {
    local prefix=$scratch/prefix libdir=lib runs=0 cmake=$scratch/machine/lib/machine/cmake
    command -v cmake >/dev/null || { leave cmake cmake; return; }
    cat >"$scratch/CMakeLists.txt" <<'END'
cmake_minimum_required(VERSION 3.13)
project(level C)
find_package(fillaqut ${EXPECTED} REQUIRED)
foreach(kind shared static)
  add_executable(level_${kind} level.c)
  target_link_libraries(level_${kind} fillaqut::${kind})
endforeach()
END
    by_cmake "$scratch/cmake" "-DCMAKE_PREFIX_PATH=$prefix"
    prefix=$scratch/machine libdir=lib/machine
    by_cmake "$scratch/machine/cmake" "-Dfillaqut_DIR=$cmake/fillaqut"
    ! cmake -S "$scratch" -B "$scratch/later" "-DCMAKE_PREFIX_PATH=$scratch/prefix" -DEXPECTED=$((${version%%.*} + 1)).0 >"$scratch/said" 2>&1 &&
        grep -q fillaqut-config.cmake "$scratch/said" || stop "CMake takes this version for another"
    runs=$((runs + 1))
    passed cmake "$runs"
}

# by_cmake FOLDER WORD..: the programs are built there, by CMake with these words.
by_cmake() {
    local kind
    cmake -S "$scratch" -B "$1" "${@:2}" "-DEXPECTED=$version" >"$scratch/said" 2>&1 && cmake --build "$1" >>"$scratch/said" 2>&1 ||
        { cat "$scratch/said" >&2; stop "CMake fails"; }
    for kind in shared static; do prints_level "$1/level_$kind" $kind; done
}

# What is packed is what is installed; it says by which kit it was proved, and how; and it may stand anywhere.
check_dist() {
    local name=fillaqut-$version-x86_64-linux modules=() runs=0 at
    mkdir "$scratch/once" "$scratch/again" "$scratch/anywhere"
    if ! command -v wasm-opt >/dev/null; then
        echo "packages/c/test: the 32-bit module that is packed is NOT TRIED, as there is no wasm-opt"
        modules=(--64)
    fi
    packages/c/dist "${modules[@]}" "$scratch/once" && packages/c/dist "${modules[@]}" "$scratch/again" || stop "nothing is packed"
    cmp "$scratch/once/$name.tar.gz" "$scratch/again/$name.tar.gz" || stop "the same files are packed in two ways"
    tar -C "$scratch/anywhere" -xzf "$scratch/once/$name.tar.gz"
    at=$scratch/anywhere/$name
    (cd "$at" && sha256sum --quiet --strict -c SHA256SUMS) || stop "a checksum of what is packed differs"
    [ "$(cat "$at/VERSION")" = "$version" ] && cmp LICENSE "$at/LICENSE" || stop "the version or the licence differs"
    grep -q 'rattle-kit-' "$at/PROOF" && [[ $(tail -n 1 "$at/PROOF") = logic=proved\ * ]] || stop "the proof is not recorded"
    cmp "$archive" "$at/lib/libfillaqut.a" && cmp "$shared" "$at/lib/$shared_name" || stop "other libraries are packed"
    by_pkg_config "$at"
    check_packed_programs "$at"
    check_packed_pages "$at"
    check_packed_python "$at"
    check_packed_rust "$at"
    check_packed_javascript "$at"
    check_packed_databases "$at"
    rm -r "${at:?}"/{LICENSE,VERSION,PROOF,SHA256SUMS,README.md,bin,python,rust,javascript,databases,examples}
    has_files "$at"
    passed dist "$runs"
}

# prints_outline WORD..: the command prints the outline of what is packed.
prints_outline() {
    { echo "1: # fillaqut $version, for Linux on x86-64" && grep -n '^## ' "$at/README.md" | sed 's/:/: /'; } >"$scratch/expected"
    "$@" >"$scratch/printed" && cmp "$scratch/expected" "$scratch/printed" || stop "$* prints something else"
}

# prints_stored FOLDER PROGRAM WORD..: in an empty environment it prints what the stored run of this folder has.
prints_stored() {
    local words=() given=/dev/null
    [ ! -f "$1/args" ] || mapfile -t words <"$1/args"
    [ ! -f "$1/stdin" ] || given=$1/stdin
    env -i "${@:2}" "${words[@]}" <"$given" | cmp - "$1/stdout" || stop "${*:2} prints something else"
}

# The programs, and each command; the README says which C library they need.
check_packed_programs() {
    local needs program run runs=0
    for program in "${packed_programs[@]}"; do prints_stored "crates/$program" "$1/bin/$program"; done
    for run in crates/fillaqut/runs/*; do
        prints_stored "$run" "$1/bin/fillaqut" "${run##*/}"
        runs=$((runs + 1))
    done
    needs=$(sed -n 's/^The programs .*glibc \([0-9.]*\), the libraries$/\1/p; s/^glibc \([0-9.]*\), or later\.$/\1/p; ' "$1/README.md" | wc -l)
    [ "$needs" = 2 ] || stop "the README doesn't say which glibc is needed"
    passed packed_programs $((${#packed_programs[@]} + runs))
}

# The manual pages and the completions of the programs, which it then removes.
check_packed_pages() {
    local folder
    packages/program/install "$scratch/manuals"
    for folder in man bash-completion zsh fish; do
        diff -r "$scratch/manuals/share/$folder" "$1/share/$folder" || stop "other manual pages or completions are packed"
    done
    packages/program/install --remove "$1"
}

# The package, of the wheel alone, and the example on it.
check_packed_python() {
    python3 -m pip --version >/dev/null 2>&1 || { leave packed_python pip; return; }
    python3 -m pip install -q --root-user-action ignore --no-index --no-deps --target "$scratch/site" "$1"/python/fillaqut-*.whl ||
        stop "the wheel that is packed is not installed"
    (unset FILLAQUT_LIBRARY && cd "$1" && PYTHONPATH=$scratch/site prints_outline python3 examples/outline.py README.md)
    passed packed_python 1
}

# The JavaScript package, by its 32-bit module, and else by the other. Later engines need no flag.
check_packed_javascript() {
    local flags=() module=
    command -v node >/dev/null || { leave packed_javascript node; return; }
    if node --experimental-wasm-memory64 -e 0 2>/dev/null; then flags=(--no-warnings --experimental-wasm-memory64); fi
    [ -f "$1/javascript/fillaqut.wasm" ] || module="new URL(\"file://$1/javascript/fillaqut64.wasm\")"
    cat >"$scratch/level.mjs" <<END
import { load } from "$1/javascript/fillaqut.mjs";
console.log((await load($module)).text("## A heading").scanAtxHeading());
END
    [ "$(node "${flags[@]}" "$scratch/level.mjs")" = 2 ] || stop "the JavaScript package that is packed prints something else"
    diff -r packages/javascript/page "$1/javascript/page" && cmp packages/javascript/index.html "$1/javascript/index.html" ||
        stop "another page is packed"
    cmp LICENSE "$1/javascript/LICENSE" || stop "the JavaScript package has another licence"
    if [ -n "$module" ]; then
        leave packed_javascript wasm-opt
        return
    fi
    (cd "$1" && prints_outline node "${flags[@]}" javascript/examples/headings.mjs README.md)
    passed packed_javascript 2
}

# The crate, and its example, with the archive that is packed.
check_packed_rust() {
    local missing
    missing=$(packages/rust/missing)
    [ -z "$missing" ] || { leave packed_rust "$missing"; return; }
    (
        cd "$1/rust" || exit
        unset FILLAQUT_LIB_DIR PKG_CONFIG_PATH
        export CARGO_TARGET_DIR=$scratch/packed
        prints_outline cargo run -q --offline --example headings ../README.md
    )
    passed packed_rust 1
}

# The extensions of databases, made as the README says: SQLite's answers, and PostgreSQL's would be installed.
check_packed_databases() {
    local query="SELECT markdown_html('*a* <b>')"
    if ! command -v sqlite3 >/dev/null || ! echo '#include <sqlite3ext.h>' | cc -E - >/dev/null 2>&1 || ! pg_config --pgxs >/dev/null 2>&1; then
        leave packed_databases "sqlite3, sqlite3ext.h or pg_config (Debian: apt-get install sqlite3 libsqlite3-dev postgresql-server-dev-all)"
        return
    fi
    { make -C "$1/databases/sqlite" && make -C "$1/databases/postgresql" install DESTDIR="$scratch/databases"; } >"$scratch/said" 2>&1 ||
        { cat "$scratch/said" >&2; stop "the extensions of databases that are packed are not made"; }
    [ "$(sqlite3 :memory: ".load $1/databases/sqlite/fillaqut" "$query")" = "<p><em>a</em> &lt;b&gt;</p>" ] ||
        stop "the extension of SQLite that is packed answers something else"
    [ -n "$(find "$scratch/databases" -name fillaqut.so)" ] || stop "the extension of PostgreSQL that is packed is not installed"
    passed packed_databases 2
}
