# What the launcher answers by itself, before anything is built: help, the version, and words that are no command line.
# It reads the commands from the table of the program's own help texts. Sourced by `spmlink`, which sets $top.

usage_table=$top/crates/explanation_texts/src/usage.rt

# A line for each command, its fields parted by tabs: word, operands, purpose, places of what it writes, and what its
# numbers may be.
commands() {
    awk '
        function text(line) { match(line, /".*"/); return substr(line, RSTART + 1, RLENGTH - 2) }
        /^const COMMANDS/ { listed = 1 }
        /^];/ { listed = 0 }
        !listed { next }
        /^    Command \{/ { word = operands = purpose = places = numbers = "" }
        /^        word: "/ { word = text($0) }
        /^        operands: "/ { operands = text($0) }
        /^        purpose: "/ { purpose = text($0) }
        /^        numbers: "/ { numbers = text($0) }
        /^        writes: &\[/ {
            match($0, /\[[0-9, ]*\]/)
            places = substr($0, RSTART + 1, RLENGTH - 2)
            gsub(/,/, "", places)
        }
        /^    \}/ { printf "%s\t%s\t%s\t%s\t%s\n", word, operands, purpose, places, numbers }
    ' "$usage_table"
}

# The line of a command; the status is 1 where there is none.
line_of() { commands | awk -F'\t' -v word="$1" '$1 == word { print; found = 1 } END { exit !found }'; }

usage_of() { line_of "$1" | awk -F'\t' '{ printf "usage: spmlink %s %s: %s\n", $1, $2, $3 }'; }

usage_of_all() {
    echo "usage: spmlink and one of"
    commands | awk -F'\t' '{ printf "  %s %s: %s\n", $1, $2, $3 }'
    echo "for example: spmlink relink upper.elf examples/default.toml input upper.new.elf upper.cert"
    echo "help COMMAND tells of one; docs/COMMAND_LINE.md tells all."
}

# The command that is fewest letters away from a word, at most two.
nearest() {
    commands | awk -F'\t' -v word="$1" '
        function least(a, b, c) { return a < b ? (a < c ? a : c) : (b < c ? b : c) }
        function distance(a, b,    i, j, above, at) {
            for (j = 0; j <= length(b); j++) at[j] = j
            for (i = 1; i <= length(a); i++) {
                above = at[0]; at[0] = i
                for (j = 1; j <= length(b); j++) {
                    left = at[j]
                    at[j] = least(at[j] + 1, at[j - 1] + 1, above + (substr(a, i, 1) != substr(b, j, 1)))
                    above = left
                }
            }
            return at[length(b)]
        }
        { far = distance(word, $1) }
        far <= 2 && (best == "" || far < least_far) { best = $1; least_far = far }
        END { print best }
    '
}

version() {
    local commit kit
    commit=$(git -C "$top" describe --always --dirty 2>/dev/null) || commit='unknown commit'
    kit=$(rt version 2>/dev/null) || kit='not installed'
    printf 'spmlink %s\nRattle kit: %s\n' "$commit" "$kit"
}

# Whether a word is a number of at most so many digits between two numbers.
is_number() {
    [[ $1 =~ ^[0-9]+$ ]] && [ ${#1} -le "$2" ] && [ $((10#$1)) -ge "$3" ] && [ $((10#$1)) -le "$4" ]
}

has_numbers() {
    case $1 in
        gen) is_number "$2" 10 0 4294967295 && is_number "$3" 10 1 64 ;;
        trace) is_number "$6" 6 1 100000 ;;
    esac
}

# Why words behind that of a command are no command line; nothing where they are one.
fault_of_words() {
    local operands operand places numbers place other at=0
    IFS='|' read -r _ operands _ places numbers < <(line_of "$1" | tr '\t' '|')
    local words=("$@")
    for place in "${words[@]:1}"; do
        at=$((at + 1))
        case $place in
            '') echo "word $at is empty"; return ;;
            -*) echo "word $at, \`$place\`, begins with \`-\`, and no word may: write \`./$place\`"; return ;;
        esac
    done
    if [ $at -ne "$(wc -w <<<"$operands")" ]; then
        echo "$1 takes $(wc -w <<<"$operands") words, and was given $at"
        return
    fi
    for place in $places; do
        other=0
        for operand in $operands; do
            other=$((other + 1))
            case $operand in SEED | KERNELS | COUNT) continue ;; esac
            if [ $other -ne "$place" ] && [ "${words[other]}" = "${words[place]}" ]; then
                echo "word $place, \`${words[place]}\`, has the name of another word, and what is written needs a name of its own"
                return
            fi
        done
    done
    has_numbers "$@" || echo "$numbers"
}

# Answers where the words ask for help or for the version, and ends the launcher then.
answer_help() {
    case ${1-help} in
        --help | -h | help)
            if [ $# -lt 2 ]; then usage_of_all; exit 0; fi
            line_of "$2" >/dev/null || refuse_words "$2"
            usage_of "$2"
            exit 0
            ;;
        --version | -V | version) version; exit 0 ;;
        *)
            case $#:${2-} in
                2:--help | 2:-h | 2:help) ! line_of "$1" >/dev/null || { usage_of "$1"; exit 0; } ;;
            esac
            ;;
    esac
}

# Refuses words that are no command line, as the program does, and ends the launcher then.
refuse_words() {
    local fault near
    if line_of "$1" >/dev/null; then
        fault=$(fault_of_words "$@")
        [ -n "$fault" ] || return 0
        say "$fault"
        say "$(usage_of "$1")"
    else
        near=$(nearest "$1")
        say "\`$1\` is no command${near:+; did you mean \`$near\`?}"
        say "spmlink --help lists the commands"
    fi
    echo "error 1 usage 0 0"
    exit 1
}
