# What scripts of tests/ and bench/ share. Each begins by it: `. PATH/common.sh || exit`.
#
# It sets `top`, `tests` and `examples` to these folders, and `passed` and `failed` to none.
set -u
top=$(readlink -f -- "$(dirname -- "${BASH_SOURCE[0]}")/..")
tests=$top/tests examples=$top/examples
passed=0 failed=0

# Sets `program` to the one that is named, or else to the built one.
find_program() {
    program=$(readlink -m -- "${1:-$top/out/matedesk}")
    (($#)) || "$top/scripts/build" || exit
}

# Sets `room` to a new folder, which goes when the script ends. A job of the script that is killed before it has begun still has this trap.
make_room() {
    room=$(mktemp -d) || exit
    trap '((BASHPID != $$)) || rm -rf -- "$room"' EXIT
}

# Prints lines of each kind: blank ones at both ends and within, records that end in each way, and bytes that no record has.
odd_lines() {
    local record='7k/8/5K2/8/8/8/8/R7 w - - dm 2;'
    printf '\n  \n\r\n%s\n%s\0x\n\0\n\t\n\r\r\n%s\r\n' "$record" "$record" "$record"
    printf '%02000d\n\n\n \r\n  %s\n%s\f\n\303\251\n\v\n\n%s\r' 0 "$record" "$record" "$record"
}

# Drops what a file has of standard error of lines that are refused: where there are several files, it names the file of each.
drop_refusals() {
    sed -i -E '/^matedesk: .+: line [0-9]+: [A-Z]/d' -- "$1"
}

pass() {
    passed=$((passed + 1))
}

# Counts a failure, and says what failed.
fail() {
    failed=$((failed + 1))
    printf 'FAILED %s\n' "$1"
}

# Counts whether the command behind the first word, which says what is wrong otherwise, ends well.
judge() {
    if "${@:2}"; then pass; else fail "$1"; fi
}

# Counts whether what came, behind its name, is what was wanted.
is() {
    if [[ $2 == "$3" ]]; then pass; else fail "$1"$'\nwanted '"$3"$'\ngot    '"$2"; fi
}

# Says what is wrong in the test that runs.
complain() {
    printf 'FAILED %s: %s\n' "${test#test_}" "$1"
    is_well=false
}

# Runs each function test_.., before it the one that is named, and counts those that complained of nothing.
run_tests() {
    for test in $(compgen -A function test_); do
        is_well=true
        "$1"
        "$test"
        if $is_well; then pass; else failed=$((failed + 1)); fi
    done
}

# Prints the last line; its status is to be that of the script.
end_counts() {
    echo "$passed passed, $failed failed"
    ((failed == 0 && passed > 0))
}
