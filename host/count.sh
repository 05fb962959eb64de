# shellcheck shell=sh
# Read by .ci/run and host/test.sh, with `who` set to the name that lines begin with: what passed and what failed.
passed=0 failed=0

count() { # STATUS NAME
    if [ "$1" -eq 0 ]; then passed=$((passed + 1)); else failed=$((failed + 1)) && echo "$who: $2 FAILED"; fi
}

# Adds counts of others; STATUS is that of the command that gave them, and counts where it failed and they do not say so.
add_counts() { # PASSED FAILED STATUS NAME
    passed=$((passed + $1)) failed=$((failed + $2))
    if [ "$3" -ne 0 ] && [ "$2" -eq 0 ]; then count 1 "$4"; fi
}
