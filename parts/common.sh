# shellcheck shell=sh
# What the scripts of parts/ share: the program, what is said, and whether a list is whole.
here=$(cd "$(dirname "$0")" && pwd -P) || exit 1
if [ -z "${CGS:-}" ]; then
    CGS=$(dirname "$here")/cgs
    [ -x "$CGS" ] || CGS=cgs
fi

say() {
    printf 'parts/%s: %s\n' "${0##*/}" "$*" >&2
}

die() {
    say "$*"
    exit 1
}

# whether a word is a number from 1 on
is_number() {
    case $1 in
    '' | 0* | *[!0-9]*) return 1 ;;
    esac
}

# whether a list is whole: its last line counts the entries, and they are there
is_whole() {
    [ -s "$1" ] && [ -z "$(tail -c 1 "$1")" ] && awk '
        /^segment / { segments++ }
        /^standard / { told++ }
        /^refused / { refused++ }
        { last = $0 }
        END { exit last != ("segments " (segments + 0) " refused " (refused + 0)) || told != segments }
    ' "$1"
}

# writes the list of the problem on standard input to a file, if it is whole; the further words are the program's
solve_to() {
    to=$1
    shift
    "$CGS" solve "$@" >"$to.new"
    status=$?
    case $status in
    0 | 3)
        if is_whole "$to.new"; then
            mv "$to.new" "$to"
            return
        fi
        say "$to: the list is cut short"
        ;;
    *) say "$to: the program ended with the status $status $(head -c 200 "$to.new" | head -n 1)" ;;
    esac
    rm -f "$to.new"
    return 1
}

# the paths of the refused entries of a list
refused_paths() {
    awk '/^refused / { print $2 }' "$1"
}
