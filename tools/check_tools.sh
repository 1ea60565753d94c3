#!/usr/bin/env bash
# Runs the tests of the tools, the examples by the slow model, retrievals made to hurt a guarded judge, the checks of the pages, that
# of the definitions which docs/BELIEVE.md lists, and that of the texts which the gate refuses before it proves anything; this needs
# Python alone, but the last looks at layouts only where the kit's `rt` is on the path. Where PROGRAM is given, the examples, the worked runs,
# random scripts of fixed seeds, the command lines and the table of hostile use are run by it too, and AUDITOR, or the one beside it
# in crates/, reads transcripts. Behind these it tells which crates' wrong bodies are to be tried again, which fails nothing.
#
# As many parts run side by side as there are processors (CHECK_JOBS=N: so many). A line tells each part as it ends and what was
# tried in it, and where it failed its output follows. The last line counts all, and the status is 1 where something failed.
#
# usage: tools/check_tools.sh [PROGRAM [AUDITOR]]
case ${1:-} in --help | -h) sed -n '2,/^case/{/^case/d;s/^# \{0,1\}//;p}' "$0"; exit 0 ;; esac
program=${1:+$(realpath -m "$1")}
auditor=${2:+$(realpath -m "$2")}
[ -z "$program" ] || auditor=${auditor:-${program%/rv_cli/out/rv_cli}/rv_auditcli/out/rv_auditcli}
for it in ${program:+"$program" "$auditor"}; do
    [ -x "$it" ] || { echo "check_tools.sh: there is no program $it" >&2; exit 2; }
done
cd "$(dirname "$0")" || exit 1
room=$(mktemp -d) || exit 1
names=() running=() began=() passed=0 failed=0
jobs=${CHECK_JOBS:-$(nproc)} ending=${CHECK_ENDING:+; $CHECK_ENDING}
unset CHECK_JOBS CHECK_ENDING # (a test of this script among the parts has its own)

end_parts() {
    [ ${#running[@]} = 0 ] || kill "${running[@]}" 2> /dev/null
    rm -rf "$room"
}
trap end_parts EXIT
trap 'exit 130' INT
trap 'exit 143' TERM HUP

# tried FILE: how many cases a part tried by what it wrote, and how many of these failed. One without a count is a case itself.
tried() {
    awk '
        /^Ran [0-9]+ tests? in / { all = $2 }
        /^FAILED \(/ { while (match($0, /(failures|errors)=[0-9]+/)) { split(substr($0, RSTART, RLENGTH), part, "="); bad += part[2]; $0 = substr($0, RSTART + RLENGTH) } }
        /^[0-9]+ [a-z ]+, [0-9]+ [a-z ]+$/ { all = $1; match($0, /, [0-9]+/); bad = substr($0, RSTART + 2, RLENGTH - 2) }
        END { print all == "" ? 1 : all, bad + 0 }' "$1"
}

# tell PART STATUS: a line on a part that ended, and its output where it failed.
tell() {
    local all bad
    read -r all bad < <(tried "$room/$1")
    # (a part that broke off before it counted what failed)
    [ "$2" = 0 ] || [ "$bad" != 0 ] || { all=$((all > 1 ? all + 1 : 1)); bad=1; }
    passed=$((passed + all - bad)) failed=$((failed + bad))
    if [ "$2" = 0 ]; then
        printf '%5d passed  %s (%d s)\n' "$all" "${names[$1]}" $((SECONDS - began[$1]))
        return
    fi
    printf 'FAILED: %d of %d in %s (%d s, status %d), which wrote:\n' "$bad" "$all" "${names[$1]}" $((SECONDS - began[$1])) "$2"
    cat "$room/$1"
}

# wait_below COUNT: tells the parts that end, until fewer than so many run.
wait_below() {
    local at
    while true; do
        for at in "${!running[@]}"; do
            kill -0 "${running[$at]}" 2> /dev/null && continue
            wait "${running[$at]}"
            tell "$at" $?
            unset "running[$at]"
        done
        [ ${#running[@]} -ge "$1" ] || return 0
        sleep 0.1
    done
}

# part NAME WORDS..: starts a part, once a processor is free for it.
part() {
    wait_below "$jobs"
    local at=${#names[@]}
    names+=("$1") began+=($SECONDS)
    shift
    "$@" > "$room/$at" 2>&1 < /dev/null &
    running[at]=$!
}

if [ -n "$program" ]; then
    part "hostile_table.py, the program" ./fuzz/hostile_table.py "$program"
    part "worked_runs.py, the program" ./worked/worked_runs.py "$program"
    part "random_scripts.py, the program" ./fuzz/random_scripts.py "$program" 8 201 --exact
    part "random_scripts.py --unique, the program" ./fuzz/random_scripts.py "$program" 12 102 --exact --unique
    part "random_scripts.py --changes, the program" ./fuzz/random_scripts.py "$program" 4 103 --exact --changes
    part "doc_examples.py, the program" ./worked/doc_examples.py "$program"
    part "program_words.py, the program" ./worked/program_words.py "$program"
    part "audit_texts.py, the auditor" ./worked/audit_texts.py "$auditor"
fi
part "doc_examples.py, the slow model" ./worked/doc_examples.py
for it in tests/test_*.py; do
    it=tests.$(basename "$it" .py)
    part "$it" python3 -m unittest -q "$it"
done
for it in "fuzz/bounded_worst.py --tries 300" "gate_times check" "prover_times check" "check_pages.py --test" "check_pages.py" \
    "believed.py --test" "believed.py --check" crate_texts.py; do
    part "${it##*/}" ./$it
done
wait_below 1
./mutants check
echo "$passed passed, $failed failed in $SECONDS s$ending"
[ "$failed" = 0 ]
