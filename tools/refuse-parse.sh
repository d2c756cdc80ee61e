#!/bin/sh
# Refuses allocations while the program reads a small plan, one in each run: refuse-parse.sh FIRST LAST
#
# The program reads the plan of crates/gate_session while allocation FIRST is refused, then the next one, up to LAST, those of the TOML
# reader too (`rt try --fail-alloc`). A run must end because memory ran out, or accept the plan if it needs fewer allocations. The script
# prints any other run, and then ends with status 1. A run takes half a minute.
cd "$(dirname "$0")/../crates/tsnbridge" || exit 1
other=0
for growth in $(seq "$1" "$2"); do
    said=$(rt try --fail-alloc "$growth" --data plan.toml=../gate_session/data/plan.toml -- check plan.toml 2>&1)
    case $said in
        *"no memory"* | *"out of memory"*) echo "growth $growth: refused" ;;
        *"accepted:"*) echo "growth $growth: there is none, the plan is accepted"; break ;;
        *) echo "growth $growth: $said"; other=1 ;;
    esac
done
exit $other
