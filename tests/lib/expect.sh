# Read by the scripts of tests/: counts what holds, and says what doesn't. `expect` runs the program `tried` in `folder`.
passed=0
failed=0

# verdict NAME WHETHER-IT-HOLDS
verdict() {
    if [ "$2" -eq 0 ]; then
        passed=$((passed + 1))
    else
        failed=$((failed + 1))
        echo "failed: $1"
    fi
}

# expect NAME STATUS TEXT WORDS..: runs the program with these words and without input; TEXT is all that it says.
expect() {
    name=$1 wanted=$2 text=$3
    shift 3
    said=$(cd "$folder" && "$tried" "$@" 2>&1 < /dev/null)
    status=$?
    [ "$status" -eq "$wanted" ] && [ "$said" = "$text" ]
    verdict "$name: status $status: $said" $?
}

# summary NAME: says the counts; the status is 1 where something failed.
summary() {
    echo "$1: $passed passed, $failed failed"
    [ "$failed" -eq 0 ]
}
