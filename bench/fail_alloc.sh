#!/bin/sh
# Shows what a store does where memory is wanting. The trial `want_of_memory_changes_nothing` makes nodes, reserves, notes,
# flushes and writes a checkpoint, while one allocation of it fails: after an answer `Memory` the nodes, the counts and the
# disk are as they were, and a second try succeeds; what was reserved is never refused. This runs it with the allocations of
# the numbers FROM to TO failing, one a run, by `rt try`, which proves nothing, and prints what was answered in each. It ends
# with 1 where a run failed. Past the last allocation of the trial nothing is refused. A run takes half a minute and more.
#
#     bench/fail_alloc.sh [FROM [TO]]
cd "$(dirname "$0")/../crates/hl_trial_site" || exit 2
number=${1:-1}
last=${2:-60}
status=0
while [ "$number" -le "$last" ]; do
    said=$(rt try --test --fail-alloc "$number" -- want_of_memory_changes_nothing 2>&1)
    if printf '%s\n' "$said" | grep -q '^test result: ok. 1 passed'; then
        answer=$(printf '%s\n' "$said" | sed -n 's/^    //p' | paste -s -d ';' -)
        echo "allocation $number: ${answer:-nothing was refused}"
    else
        printf 'allocation %s: FAILED\n%s\n' "$number" "$said"
        status=1
    fi
    number=$((number + 1))
done
exit "$status"
