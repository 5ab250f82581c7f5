# Completion of `lockd`, `lockd_mount`, `lockd_locks` and `lockd_report` for bash: `. dist/lockd.bash`, or put it
# into /etc/bash_completion.d. tests/commands/man.sh compares its words with what `lockd --help` says.

# Sets `word` to what is to be completed, and `before` to the word before it. For bash the = of --OPTION=VALUE is a word, too.
_lockd_words() {
    word=${COMP_WORDS[COMP_CWORD]} before=${COMP_WORDS[COMP_CWORD - 1]}
    if [ "$word" = = ]; then
        word=
    elif [ "$before" = = ] && [ "$COMP_CWORD" -gt 2 ]; then
        before=${COMP_WORDS[COMP_CWORD - 2]}
    fi
}

_lockd() {
    local word before command=${COMP_WORDS[1]}
    _lockd_words
    local words= rules='--fair --whole --runs --parked --files --open --verbose'
    if [ "$COMP_CWORD" -eq 1 ]; then
        words="script check locks state bytes serve drive help $rules --help --version"
    elif [ "$before" = --workers ]; then
        words=$(seq 16)
    elif [ "$before" = --runs ]; then
        words='1 4096 65536'
    elif [ "$before" = --parked ]; then
        words='1 256 1024'
    elif [ "$before" = --files ]; then
        words='1 256 65536'
    elif [ "$before" = --open ]; then
        words='1 1024 65536'
    elif [ "$before" = --trace-full ]; then
        words='go-on refuse wait end'
    elif [ "$before" = --rotate ]; then
        # 16, 64 and 256 MB.
        words='16777216 67108864 268435456'
    elif [ "$before" = --keep ]; then
        words='2'
    elif [ "$before" = --trace ]; then
        words='none'
    elif [ "$before" = --resume ]; then
        words=
    elif [ "$before" = --file ] || [ "$before" = --at ]; then
        # A name in the trace, or a number of its lines, and no file here.
        COMPREPLY=()
        compopt +o default 2> /dev/null
        return
    else
        case $command in
            help) words='script check locks state bytes serve drive' ;;
            serve) words="--workers --trace --resume --allow-gap --rotate --keep --trace-full $rules --help" ;;
            check) words="--quiet --cut $rules --help" ;;
            locks) words="--at --file --json $rules --help" ;;
            script | bytes | state) words="$rules --help" ;;
            drive) words='--verbose --help' ;;
            # Without a command it is script.
            -*) words=$rules ;;
        esac
    fi
    mapfile -t COMPREPLY < <(compgen -W "$words" -- "$word")
    # Where no word fits, bash goes on with names of files, such as the socket's.
}
complete -o default -F _lockd lockd

_lockd_mount() {
    local word before
    _lockd_words
    local words='--workers --trace --resume --rotate --keep --trace-full --times --fair --runs --parked --files --open --no-check --allow-other --mode --uid --gid --discard-writes --source --nonempty --grace --count --help --version'
    case $before in
        --workers) mapfile -t COMPREPLY < <(compgen -W "$(seq 16)" -- "$word") ;;
        --runs) mapfile -t COMPREPLY < <(compgen -W '1 4096 65536' -- "$word") ;;
        --parked) mapfile -t COMPREPLY < <(compgen -W '1 256 1024' -- "$word") ;;
        --files) mapfile -t COMPREPLY < <(compgen -W '1 256 65536' -- "$word") ;;
        --open) mapfile -t COMPREPLY < <(compgen -W '1 1024 65536' -- "$word") ;;
        --trace) mapfile -t COMPREPLY < <(compgen -W 'none' -f -- "$word") ;;
        --trace-full) mapfile -t COMPREPLY < <(compgen -W 'go-on wait end' -- "$word") ;;
        --resume | --times) mapfile -t COMPREPLY < <(compgen -f -- "$word") ;;
        --rotate) mapfile -t COMPREPLY < <(compgen -W '16M 64M 256M' -- "$word") ;;
        --keep) mapfile -t COMPREPLY < <(compgen -W '2' -- "$word") ;;
        --mode) mapfile -t COMPREPLY < <(compgen -W '0755 1777' -- "$word") ;;
        --uid | --gid | --grace | --source) COMPREPLY=() ;;
        *)
            case $word in
                -*) mapfile -t COMPREPLY < <(compgen -W "$words" -- "$word") ;;
                *) mapfile -t COMPREPLY < <(compgen -d -- "$word") ;;
            esac
            ;;
    esac
}
complete -F _lockd_mount lockd_mount

_lockd_locks() {
    local word before
    _lockd_words
    case $before:$word in
        # It is the name of a file in a folder that may not be there yet.
        --file:*) COMPREPLY=() ;;
        *:-*) mapfile -t COMPREPLY < <(compgen -W '--file --json --help' -- "$word") ;;
        *) mapfile -t COMPREPLY < <(compgen -d -- "$word") ;;
    esac
}
complete -o filenames -F _lockd_locks lockd_locks

_lockd_report() {
    local word before
    _lockd_words
    case $before:$word in
        -o:* | --times:*) mapfile -t COMPREPLY < <(compgen -f -- "$word") ;;
        *:-*) mapfile -t COMPREPLY < <(compgen -W '-o --times --help' -- "$word") ;;
        *) mapfile -t COMPREPLY < <(compgen -f -- "$word") ;;
    esac
}
complete -o filenames -F _lockd_report lockd_report
