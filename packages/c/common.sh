# What the scripts of this folder share: where things are, and how they end. Each works at the top of the tree.
# shellcheck shell=bash disable=SC2034  # what is set here is read there
cd "$(dirname "${BASH_SOURCE[0]}")/../.." || exit
top=$PWD
version=$(cat VERSION)
header=packages/c/include/fillaqut.h
crate=crates/markdown_scanners_c
made=$crate/out/libmarkdown_scanners_c.a # as the kit makes it, of the crate alone
proof=$crate/out/proof.txt               # what was said when that was made, after its checksum
code=out/fillaqut.ll # the LLVM code that other machines' archives are made of
program_code=out/fillaqut_program.ll # and that of the program
own_target=x86_64-linux-gnu # the one that the kit compiles for
target=$own_target
archive=out/libfillaqut.a
shared_name=libfillaqut.so.${version%%.*}
shared=out/$shared_name
program=crates/fillaqut/out/fillaqut
packed_programs=(fillaqut cmark_scan)
script=$(basename "$0")
scratch=$(mktemp -d)
trap 'rm -rf "$scratch"' EXIT

stop() {
    echo "packages/c/$script: $*" >&2
    exit 1
}

# row_of TRIPLE: its line of packages/platforms/targets.tsv.
row_of() { awk -F '\t' -v triple="$1" '$1 == triple' packages/platforms/targets.tsv; }

# aim TRIPLE: what is made, installed or packed is for that target.
aim() {
    [ -n "$(row_of "$1")" ] || stop "packages/platforms/targets.tsv has no $1"
    [ "$1" != "$own_target" ] || return 0
    target=$1
    case $1 in
        *-windows-*) shared_name=fillaqut.dll ;;
        *-apple-*) shared_name=libfillaqut.${version%%.*}.dylib ;;
    esac
    archive=out/$1/libfillaqut.a
    shared=out/$1/$shared_name
    program=out/$1/fillaqut
    [[ $1 != *-windows-* ]] || program+=.exe
}

# need TOOL..: each of them is there.
need() {
    local tool
    for tool in "$@"; do
        command -v "$tool" >/dev/null || stop "there is no $tool (Debian: apt-get install gcc g++ binutils pkg-config python3)"
    done
}

# is_old FILE [CRATE]: something that it is made of, which is that crate or markdown_scanners_c, is newer, or it is not there.
is_old() {
    local of=() name
    for name in $(docs/crate_list.py --below "${2:-$(basename "$crate")}"); do of+=("crates/$name"); done
    [ ! -f "$1" ] || [ -n "$(find crates.txt "${of[@]:?}" -name out -prune -o \( -name '*.rt' -o -name '*.antt' -o -name '*.txt' \) -newer "$1" -print -quit)" ]
}

# prove: the crate, which makes its archive; what is said of that is recorded. As many jobs prove it as JOBS says.
prove() {
    need rt rattle python3
    echo "proving and building markdown_scanners_c: some ten minutes, and forty where what it stands on is not built"
    mkdir -p "$crate/out"
    docs/kit.py markdown_scanners_c --archive "$made" 2>&1 | tee "$scratch/said" || stop "the crate was not built"
    { sha256sum <"$made" && rt version && tail -n 30 "$scratch/said"; } >"$proof"
}

# build_program NAME: proves and builds the program where that is not done.
build_program() { ! is_old "crates/$1/out/$1" "$1" || rebuild_program "$1"; }

# rebuild_program NAME: the same, with the libraries below it; rt then runs it, with no input.
rebuild_program() {
    local words=()
    case $1 in
        fillaqut) words=(--version) ;;
        cmark_scan) words=(html) ;;
    esac
    need rt
    echo "proving and building $1"
    (cd "crates/$1" && rt run ${JOBS:+--jobs "$JOBS"} -- "${words[@]}" </dev/null >"$scratch/said" 2>&1) ||
        { cat "$scratch/said" >&2; stop "$1 was not built"; }
}

# is_recorded: what was said is of the archive that is there.
is_recorded() {
    [ -f "$proof" ] && [ "$(head -n 1 "$proof")" = "$(sha256sum <"$made")" ]
}
