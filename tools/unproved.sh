# A first look before the proofs: compiles the program from its sources by `rt try`, which proves nothing, and keeps what
# that runs in a folder of its own. That is slow, without optimisation and with checks of each access; so its bitcode is
# compiled once more, by the kit's clang at -O2, where a C compiler can link it. Sourced behind tools/building.sh, by what
# sources that.

unproved=$build-unproved

newer_than_unproved() { (cd "$top" && find crates crates.txt -name out -prune -o -type f -newer "$unproved/program" -print -quit); }

# Waits until a process ends, keeps the program that it makes below a folder, and says at least every 20 seconds that work
# goes on. The compiler runs what it made and then removes it, so it gets a second name as soon as it is there; until then the
# program waits for somebody who writes to the pipe that it reads.
keep_program() {
    local began=$SECONDS said=$SECONDS found
    while kill -0 "$1" 2>/dev/null; do
        [ -e "$unproved/module.bc" ] || find "$2" -name module.bc -size +100k -exec ln {} "$unproved/module.bc" \; -quit 2>/dev/null
        found=$(find "$2" -type f -perm -100 -size +1000k -print -quit 2>/dev/null)
        if [ -n "$found" ] && [ ! -e "$unproved/kept" ] && ln "$found" "$unproved/kept" 2>/dev/null; then
            timeout 60 sh -c ": >'$unproved/pipe'" &
        fi
        if [ $((SECONDS - said)) -ge 20 ]; then
            say "compiling for $((SECONDS - began)) seconds"
            said=$SECONDS
        fi
        sleep 0.1
    done
}

# Compiles the bitcode of the program with optimisation; false where that can't be done here.
optimise() {
    local kit
    [ -s "$unproved/module.bc" ] && command -v cc >/dev/null && kit=$(dirname "$(rt doc)") || return
    say "compiling it once more, with optimisation, which takes about a minute"
    "$kit/toolchain/bin/clang" --target=x86_64-unknown-linux-gnu -march=x86-64 -mllvm -trap-unreachable -O2 -c -x ir \
        "$unproved/module.bc" -o "$unproved/module.o" >>"$unproved/log" 2>&1 &&
        cc "$unproved/module.o" "$kit"/c/lib*.a -o "$unproved/optimised" >>"$unproved/log" 2>&1 &&
        mv "$unproved/optimised" "$unproved/program"
}

compile_unproved() {
    local words=("$unproved/pipe" /dev/null /dev/null /dev/null)
    [ "$crate" != spmlink ] || words=(paid "${words[@]}")
    say "compiling the program without proofs, which takes some two to four minutes"
    (build=$unproved && copy_sources) || return
    rm -rf "$unproved"/{tmp,kept,pipe,module.bc}
    mkdir -p "$unproved/tmp"
    mkfifo "$unproved/pipe"
    (cd "$unproved/crates/$crate" && TMPDIR=$unproved/tmp exec rt try -- "${words[@]}" </dev/null >"$unproved/log" 2>&1) &
    keep_program $! "$unproved/tmp"
    [ -e "$unproved/kept" ] || return
    optimise || mv "$unproved/kept" "$unproved/program"
    rm -f "$unproved"/{kept,module.bc,module.o}
}

# Compiles the program without proofs, unless it is there, and takes it for the program.
build_unproved() {
    if ! command -v rt >/dev/null; then
        say "'rt' of the Rattle kit is not on the PATH"
        exit 126
    fi
    mkdir -p "$unproved"
    exec 9>"$unproved/lock"
    flock 9
    if [ ! -x "$unproved/program" ] || [ -n "$(newer_than_unproved)" ]; then
        if ! compile_unproved; then
            cat "$unproved/log" >&2
            say "the program could not be compiled"
            exit 126
        fi
    fi
    exec 9>&-
    say "NOTHING OF THIS PROGRAM IS PROVED: it is for a first look; without the word unproved it is proved"
    program=$unproved/program
}
