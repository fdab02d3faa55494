# Read by the scripts beside it that call a program, whose path is their argument.
program=$(realpath "$1")
cd "$(dirname "$0")/data" || exit 1
passed=0
failed=0

# expect STATUS STDOUT STDERR WORDS..: calls the program with the words, and with $input as its standard input.
input=''
expect() {
    local status=$1 out=$2 err=$3
    shift 3
    local got_out got_err got_status
    got_err=$(mktemp)
    got_out=$(printf '%s' "$input" | "$program" "$@" 2> "$got_err")
    got_status=$?
    if [ "$got_status" = "$status" ] && [ "$got_out" = "$out" ] && [ "$(cat "$got_err")" = "$err" ]; then
        passed=$((passed + 1))
    else
        failed=$((failed + 1))
        printf 'call: '"$(basename "$program")"' %s\nstatus %s, wanted %s\nout: %s\nwanted: %s\nerr: %s\nwanted: %s\n' \
            "$*" "$got_status" "$status" "$got_out" "$out" "$(cat "$got_err")" "$err"
    fi
    rm -f "$got_err"
}
