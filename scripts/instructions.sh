# Counts the instructions of a program, for the scripts that measure. Sourced.

# The instructions that a call takes in the program's own code: by perf if the machine counts them, or else by valgrind's callgrind.
# It prints nothing if there is neither. What the call prints is dropped.
instructions_of() {
    local said
    said=$(mktemp)
    if ! perf stat -x, -e instructions:u -o "$said" -- "$@" >/dev/null 2>&1 || ! grep -q '^[0-9]' "$said"; then
        valgrind --tool=callgrind --callgrind-out-file=/dev/null --log-file="$said" -- "$@" >/dev/null 2>&1 || true
    fi
    awk -F, '/^[0-9]+,/ { print $1; exit } /refs: / { sub(/.*refs: */, ""); gsub(/,/, ""); print; exit }' "$said"
    rm -f "$said"
}

# How many instructions $1 calls of something take each: $2 are those of all of them, $3 those of the same run without any.
instructions_each() {
    if [[ -z $2 || -z $3 ]]; then return; fi
    awk -v times="$1" -v whole="$2" -v empty="$3" 'BEGIN { printf "%.1f", (whole - empty) / times }'
}
