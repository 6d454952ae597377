# shellcheck shell=sh disable=SC2154
# How the program is run, by ./vtl and by the script that is installed: both set $program, and read this file.

# Serves until TERM, INT or HUP comes, or the program ends by itself, and ends as it does. The program ends with its standard
# input, so it gets a pipe that stays open until a signal comes, whatever this script's own input is.
serve() {
    stopped=
    trap 'stopped=yes; exec 8>&-' HUP INT TERM
    pipe=$(mktemp -d) && mkfifo "$pipe/input" || exit 1
    # The signals are this script's alone, also where they are sent to all processes of a terminal or a service.
    (
        trap '' HUP INT TERM XFSZ
        exec "$program" "$@"
    ) <"$pipe/input" &
    served=$!
    exec 8>"$pipe/input"
    rm -r "$pipe"
    [ -z "$stopped" ] || exec 8>&-
    # A signal cuts a wait short.
    while
        wait "$served"
        status=$?
        kill -0 "$served" 2>/dev/null
    do :; done
    exit "$status"
}

# Becomes the program, or serves with it. With a number of sessions the end of input is no end: a signal then ends the program
# itself, at once. Signals that ask for nothing here, and would end it without a save, are ignored.
run() {
    trap '' USR1 USR2 ALRM
    # Each volume and each connection takes descriptors.
    ulimit -S -n "$(ulimit -H -n)" 2>/dev/null || :
    case "${1-} $*" in
        *" --sessions"*) ;;
        "serve "*) serve "$@" ;;
    esac
    exec "$program" "$@"
}
