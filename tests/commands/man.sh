#!/bin/sh
# Sees that each command and each option that `lockd --help` and `lockd COMMAND --help` name stands in dist/man/lockd.1 and in
# dist/lockd.bash, that these name no other long option of `lockd`, and that the man page's SYNOPSIS has the options of each command.
# Where bash is there, completes some words.
# Prints each that doesn't, and then has status 1.
# It takes the built program, or the one that LOCKD names. Where that isn't there it says so, with status 77.
set -eu
cd "$(dirname "$0")/../.."
lockd=${LOCKD:-$PWD/crates/lockd/out/lockd}
[ -x "$lockd" ] || { echo "commands/man: not checked: there is no program at $lockd" >&2; exit 77; }
# Help is on standard error with status 2.
help_of() {
    "$lockd" "$@" --help 2>&1 || :
}
commands=$(help_of | sed -n '/^Commands:/,/^$/s/^  \([a-z]*\) .*/\1/p')
[ -n "$commands" ] || { echo 'commands/man: lockd --help names no command'; exit 1; }
options=$(for command in '' $commands; do
    [ "$command" = help ] || help_of $command
done | grep -E '^ +-' | grep -oE '(^| )--?[A-Za-z][a-z-]*' | sort -u)
man=$(sed 's/\\-/-/g' dist/man/lockd.1)
# The part that is about `lockd` alone.
bash=$(sed '/^complete.*lockd$/q' dist/lockd.bash)
failed=0
lacks() {
    echo "$1 doesn't name $2, which lockd --help has"
    failed=1
}
for word in $commands $options; do
    printf '%s\n' "$man" | grep -qE -e "(^|[^a-z-])$word([^a-z-]|\$)" || lacks dist/man/lockd.1 "$word"
    case $word in
        -?) ;;
        *) printf '%s\n' "$bash" | grep -qE -e "(^|[^a-z-])$word([^a-z-]|\$)" || lacks dist/lockd.bash "$word" ;;
    esac
done
for word in $(printf '%s\n%s\n' "$man" "$bash" | grep -oE -e '--[a-z][a-z-]*' | sort -u); do
    printf '%s\n' "$options" | grep -qx -e " *$word" && continue
    echo "dist/man/lockd.1 or dist/lockd.bash names $word, which lockd --help hasn't"
    failed=1
done
# A command and its options in a line, in the order of their letters. Entries of the SYNOPSIS stand between lines of `.br`.
with_options() {
    printf '%s' "$1"
    grep -oE -e '--[a-z][a-z-]*' | grep -vxE -e '--(help|version)' | sort -u | sed 's/^/ /' | tr -d '\n'
    echo
}
synopsis=$(printf '%s\n' "$man" | sed -n '/^\.SH SYNOPSIS/,/^\.SH DESCRIPTION/p' | tr '\n' ' ' | sed 's/ \.br /\n/g' |
    while read -r entry; do
        command=$(printf '%s\n' "$entry" | sed -n 's/.*\.B lockd \([a-z][a-z]*\).*/\1/p')
        [ -z "$command" ] || printf '%s\n' "$entry" | with_options "$command"
    done)
for command in $commands; do
    [ "$command" != help ] || continue
    wanted=$(help_of "$command" | with_options "$command")
    [ "$wanted" = "$command" ] || printf '%s\n' "$synopsis" | grep -qxF -e "$wanted" || {
        echo "the SYNOPSIS of dist/man/lockd.1 lacks: lockd $wanted"
        failed=1
    }
done
# completes WANTED WORD ..: the last word is completed. Bash takes the = of --OPTION=VALUE for a word.
completes() {
    wanted=$1
    shift
    found=$(bash -c '. dist/lockd.bash; COMP_WORDS=("$@") COMP_CWORD=$(($# - 1)); "_$1"; echo "${COMPREPLY[*]}"' bash "$@")
    [ "$found" = "$wanted" ] || { echo "$* is completed by: $found" && failed=1; }
}
if command -v bash > /dev/null; then
    completes 'script state serve' lockd s
    completes "$(seq 16 | tr '\n' ' ' | sed 's/ $//')" lockd serve --workers =
    completes '2' lockd serve --workers = 2
    completes '2' lockd serve --workers 2
    completes 'wait' lockd_mount --trace-full = w
    completes '' lockd locks --file ''
    completes '' lockd locks --file = ''
    completes '' lockd_locks --file = ''
fi
exit "$failed"
