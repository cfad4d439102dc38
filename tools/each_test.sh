# For scripts that run several tests, to be sourced: `test_of NAME COMMAND..` runs a command, and prints
# a line `ok NAME` or `FAILED NAME`. At the end, `exit $status` gives 1 if one failed.
# `test_beside NAME COMMAND..` does the same beside those that still run, as many at once as there are processors. Each has
# a folder of its own below $out, as its $out, and what it prints comes at its end. `wait_for_tests` waits for all of them.
status=0
beside=()

test_of() {
    local name=$1
    shift
    if "$@"; then
        echo "ok $name"
    else
        echo "FAILED $name"
        status=1
    fi
}

run_beside() { # NAME COMMAND..
    local name=$1 result=0
    shift
    out=$(mktemp -d "$out/test-XXXXXX")
    "$@" > "$out/printed" 2>&1 < /dev/null || result=1
    {
        flock 9
        cat "$out/printed"
        if [ $result = 0 ]; then echo "ok $name"; else echo "FAILED $name"; fi
    } 9< "$0"
    rm -rf "$out"
    return $result
}

test_beside() {
    while [ "$(jobs -rp | wc -l)" -ge "$(nproc)" ]; do wait -n; done
    run_beside "$@" &
    beside+=($!)
}

wait_for_tests() {
    local test
    for test in "${beside[@]}"; do wait "$test" || status=1; done
    beside=()
}
