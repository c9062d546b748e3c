# Proves and builds a program of this repository by the command `rt` of the Rattle kit: the program and what it stands on,
# side by side on all processors, in a folder below the user's cache. Edits that must be refused and programs that only check
# spmlink are left out. The gate tries those; it takes over what is proved here where the kit keeps proofs. Sourced by
# `spmlink` and `tools/map`, which set $top, and $crate to the program's crate, and have the function `say`.

program=$top/crates/$crate/out/$crate
build=${XDG_CACHE_HOME:-$HOME/.cache}/spmlink/$(printf %s "$top" | cksum | cut -d' ' -f1)
[ "$crate" = spmlink ] || build+=-$crate

newer_source() {
    find "$top/crates" "$top/crates.txt" -name out -prune -o \
        \( -name '*.rt' -o -name '*.antt' -o -name crates.txt \) -newer "$program" -print -quit
}

is_built() { [ -x "$program" ] && [ -z "$(newer_source)" ]; }

# The lines of crates.txt of the program and of all that it stands on.
needed_lines() {
    awk -F: -v program="$crate" '
        function visit(name,    i, n, below) {
            if (name in seen || !(name in line)) return
            seen[name] = 1
            n = split(uses[name], below, " ")
            for (i = 1; i <= n; i++) visit(below[i])
            print line[name]
        }
        /^[a-z0-9_]+:/ { line[$1] = $0; uses[$1] = $2 }
        END { visit(program) }
    ' "$top/crates.txt"
}

copy_sources() {
    local name part
    rm -rf "${build:?}/crates"
    mkdir -p "$build"
    needed_lines >"$build/crates.txt"
    cp "$top/HANDLES" "$build"
    for name in $(cut -d: -f1 "$build/crates.txt"); do
        mkdir -p "$build/crates/$name"
        for part in src specs proofs data args stdout; do
            [ ! -e "$top/crates/$name/$part" ] || cp -a "$top/crates/$name/$part" "$build/crates/$name"
        done
    done
}

# The seconds of a processor that the proofs of some crates took when they were last measured, in all.
seconds_of() {
    awk -v names="$*" '
        BEGIN { split(names, list, " "); for (i in list) asked[list[i]] }
        $1 in asked { sum += $2 }
        END { print sum + 0 }
    ' "$top/bench/gate/seconds"
}

# Tells how many crates are done, the minutes so far, and about how many are left if the others go on as these did.
tell_done() {
    local text="$done of $all crates${1:+: $1}, $(((SECONDS - began) / 60)) minutes so far"
    [ $((20 * proved)) -lt "$needed" ] || text+=", about $((((SECONDS - began) * (needed - proved) / proved + 59) / 60)) left"
    say "$text"
}

# Copies what is said to the log, tells each crate that is done, and says at least every 20 seconds that work goes on.
tell_progress() {
    local line= part status name told=' ' done=0 proved=0 all needed began=$SECONDS
    all=$(wc -l <"$build/crates.txt")
    needed=$(seconds_of $(cut -d: -f1 "$build/crates.txt"))
    say "$all crates are proved, which took $((needed / 60)) minutes of a processor where that was measured; there are $(nproc) here"
    say "you may stop it: where the kit keeps what is proved, the next call goes on from there"
    while true; do
        part=
        IFS= read -r -t 20 part
        status=$?
        line+=$part
        if [ $status -gt 128 ]; then
            tell_done
        elif [ $status -ne 0 ]; then
            break
        else
            printf '%s\n' "$line" >>"$1"
            case $line in
                'rt: '*' proved' | 'rt: '*' is kept: '*)
                    line=${line#rt: }
                    name=${line%% *}
                    if [[ $told != *" $name "* ]]; then
                        told+="$name "
                        done=$((done + 1))
                        proved=$((proved + $(seconds_of "$name")))
                        tell_done "$name"
                    fi
                    ;;
            esac
            line=
        fi
    done
}

# How many crates to prove side by side: one a processor, as long as each has 2.5 GB of memory, the most that one of this repository
# was seen to take. `rt` by itself reckons with up to 15 GB for a crate that stands on many, and leaves processors idle.
lanes() {
    local processors memory
    processors=$(nproc)
    memory=$(awk '/^MemAvailable:/ { print int($2 / 2621440) }' /proc/meminfo 2>/dev/null)
    [ "${memory:-0}" -ge 1 ] || memory=1
    echo $((memory < processors ? memory : processors))
}

# Proves all in one run, one job a crate. By what `rt` reckons a crate gets a second job only where no other one is ready, and by
# then most are proved (bench/gate/README.md).
prove() { RT_JOBS=${RT_JOBS:-$(lanes)} rt ci; }

build() {
    copy_sources || return
    (set -o pipefail; cd "$build" && prove 2>&1 </dev/null | tell_progress "$1") || return
    mkdir -p "$(dirname "$program")" && cp "$build/crates/$crate/out/$crate" "$program"
}

# Builds the program, unless it is there.
build_once() {
    ! is_built || return 0
    if ! command -v rt >/dev/null; then
        say "the program is not built, and 'rt' of the Rattle kit is not on the PATH"
        exit 126
    fi
    mkdir -p "$build"
    exec 9>"$build/lock"
    flock 9
    if ! is_built; then
        say "proving and building the program"
        log=$(mktemp)
        trap 'rm -f "$log"' EXIT
        if ! build "$log"; then
            cat "$log" >&2
            say "the program could not be built"
            exit 126
        fi
        rm -f "$log"
        trap - EXIT
        say "built"
    fi
    exec 9>&-
}
