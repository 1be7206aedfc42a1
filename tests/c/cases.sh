# What tests/c/expiry/run and tests/c/response/run share: target/c/$program is tried, by the command
# $under, on the cases of its folder. A case has what is printed, and the status, behind >.

# What the program prints for the argument $1, and its status, as a last line.
answer() {
    status=0
    $under "target/c/$program" "$1" 2> target/c/errors || status=$?
    echo "status $status"
}

# Says so, and ends, where the first is not the second.
same() {
    test "$1" = "$2" || { cat target/c/errors; echo "$program: '$1' instead of '$2'"; exit 1; }
}

# Gives target/c/bytes to the program for the argument $1, from the file and through a pipe in pieces
# of three bytes; $2 is the case.
try_bytes() {
    sed -n 's/^> //p' "$2" > target/c/expected
    answer "$1" < target/c/bytes | diff target/c/expected - &&
        dd if=target/c/bytes bs=3 2> /dev/null | answer "$1" | diff target/c/expected -
}

# The cases, by the script's own try_case.
try_cases() {
    tried=0
    for case in tests/c/"$program"/*.case; do
        try_case "$case" || { cat target/c/errors; echo "$case: not as expected"; exit 1; }
        tried=$((tried + 1))
    done
}

# What is printed cannot be written: $1 are bytes for the argument $2.
try_full() {
    status=0
    printf "$1" | $under "target/c/$program" "$2" 2> target/c/errors > /dev/full || status=$?
    same "$status: $(cut -d : -f 1 target/c/errors)" "2: standard output"
}
