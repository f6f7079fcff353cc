# What makes programs for a target, and what runs them here. packages/c/build and packages/platforms/test read this.
# shellcheck shell=bash disable=SC2034  # what is set here is read there
arm64=$PWD/out/arm64 # what packages/platforms/arm64 has put there

# tools_of TARGET: sets `compiler` and `runner`, words each, and `of_program`, what the former takes for fillaqut too; `lacks`, what is not
# here to make programs with; and `missing`, that or what runs them.
tools_of() {
    compiler=(cc) of_program=() runner=() lacks=
    case $1 in
        source | x86_64-linux-gnu) ;;
        aarch64-linux-gnu) compiler=(aarch64-linux-gnu-gcc) runner=(qemu-aarch64 -L /usr/aarch64-linux-gnu) ;;
        x86_64-linux-musl) compiler=(musl-gcc -static) ;;
        aarch64-linux-musl)
            compiler=(aarch64-linux-gnu-gcc -specs "$arm64/musl-gcc.specs" -static) runner=(qemu-aarch64)
            [ -f "$arm64/musl-gcc.specs" ] || lacks="$arm64, which packages/platforms/arm64 makes"
            ;;
        x86_64-w64-windows-gnu)
            compiler=(x86_64-w64-mingw32-gcc) of_program=(-municode)
            runner=("$(command -v wine64 || command -v wine || echo /usr/lib/wine/wine64)")
            ;;
        *-apple-*) compiler=(clang) runner=("macOS") ;;
        *) lacks="C library for $1" ;;
    esac
    command -v "${compiler[0]}" >/dev/null || lacks=${compiler[0]}
    missing=$lacks
    [ -n "$missing" ] || command -v "${runner[0]-true}" >/dev/null || missing=${runner[0]}
}
