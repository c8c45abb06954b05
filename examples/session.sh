# For the sessions beside this file, which read it in: SESSION [PROGRAM] prints each command line and what comes of it,
# in a temporary folder of its own. Without a program it takes the one that is built here, or the one that is installed.
here=$(cd "$(dirname "$0")/.." && pwd) || exit 1
program=${1:-$here/crates/x917/out/x917}
[ -x "$program" ] || program=$(command -v x917)
program=$(realpath "$program") || exit 1
work=$(mktemp -d) || exit 1
trap 'rm -rf "$work"' EXIT
cd "$work" || exit 1

x917() {
    "$program" "$@"
}

# run LINE: the line, its output, and its exit code where that isn't 0
run() {
    printf '$ %s\n' "$1"
    (eval "$1") 2>&1 || printf 'exit %s\n' "$?"
}

# show PARTY..: each party as it stands
show() {
    for party in "$@"; do
        run "x917 show --party $party"
    done
}
