# What the scripts of the repository share; to be read in by a script that has gone to the repository's root, as in
#
#     . tests/scripts/shared.sh
#     script tests/c/run "$@"
#
# The usage of a script is the comment at its head. --help and -h print it. A word that a script does not know is refused with status 2 and one line.

# Sets the name under which the script speaks, and prints its usage and ends where a word asks for it.
script() { # PATH WORDS..
    script=$1
    shift
    for word; do
        case $word in
        --help | -h)
            sed -n '/^# shellcheck/d; 2,/^[^#]/s/^# \{0,1\}//p' "$script"
            exit 0
            ;;
        esac
    done
}

# Says something beside what the script gives: on standard error.
say() { printf '%s: %s\n' "$script" "$*" >&2; }

# Says why, and ends.
die() {
    say "$*"
    exit 2
}

# Refuses a word.
unknown() { die "unknown word '$1'; --help says what it takes"; } # WORD

# Refuses all words, for a script that takes none.
no_words() { [ $# -eq 0 ] || unknown "$1"; } # WORDS..

# Proves a crate, and those that it uses, by the Rattle kit's command rt, and says of each that it is done. All that rt says goes to a log, which is
# shown where it fails.
proving() { # LOG CRATE WORDS..
    log=$1 crate=$2
    shift 2
    command -v rt >/dev/null || { say "no rt on the path: the Rattle kit's command, which proves and builds" && return 1; }
    say "rt $* in crates/$crate, which takes minutes the first time"
    { (cd "crates/$crate" && rt "$@") 2>&1; echo "$?"; } | {
        status=1
        while IFS= read -r line; do
            printf '%s\n' "$line"
            status=$line
            case $line in 'rt: '*) printf '%s\n' "$line" >&2 ;; esac
        done >"$log"
        [ "$status" = 0 ] || { cat "$log" >&2 && false; }
    }
}
