# Runs groups of tests side by side and reports each as it ends, for tests/run and bench/run.
# shellcheck shell=bash

# shellcheck source=tests/skips.bash
. "$(dirname "${BASH_SOURCE[0]}")/skips.bash"

# The most seconds that a group may take: it has failed if it takes longer.
group_limit=${GROUP_LIMIT:-1800}
# How many groups have passed and have failed, and how many things were skipped.
passed=0 failed=0 skipped=0
# What each group has printed, and of each that runs the process and when it began.
printed=$(mktemp -d)
declare -A process_of=() began_at=()

# end_groups: ends all groups that run. Each process of `process_of` is a `timeout`, which hands a signal on to all processes of its group, and
# kills them after 10 seconds.
end_groups() {
    local process
    {
        for process in "${process_of[@]}"; do
            kill "$process" || true
        done
        wait
        for process in "${process_of[@]}"; do
            kill -s KILL -- "-$process" || true
        done
    } 2> /dev/null
    rm -rf "$printed"
}
trap end_groups EXIT
trap 'exit 129' HUP
trap 'exit 130' INT
trap 'exit 143' TERM

# start FOLDER NAME COMMAND..: starts a group in this folder, in a group of processes of its own. A shell has what runs in the background ignore
# INT and QUIT; a group is to have them as a terminal gives them.
start() {
    local folder=$1 name=$2
    shift 2
    began_at[$name]=$SECONDS
    (cd "$folder" && exec env --default-signal=INT,QUIT timeout -k 10 "$group_limit" "$@") < /dev/null > "$printed/$name" 2>&1 &
    process_of[$name]=$!
}

# await: waits until one of the groups that run has ended, and reports it.
await() {
    local name='' process status=0
    # A shell tells by itself which of its processes a signal ended.
    {
        until [ -n "$name" ]; do
            sleep 0.1
            for name in "${!process_of[@]}" ''; do
                [ -z "$name" ] || kill -0 "${process_of[$name]}" || break
            done
        done
        process=${process_of[$name]}
        wait "$process" || status=$?
        # No process that a group has left disturbs another group.
        kill -s KILL -- "-$process" || true
    } 2> /dev/null
    unset "process_of[$name]"
    report "$name" "$status" $((SECONDS - began_at[$name]))
}

# report NAME STATUS SECONDS: prints the line of a group that has ended, and then what it printed if it failed, or what it skipped.
report() {
    local name=$1 status=$2 seconds=$3
    skipped=$((skipped + $(grep -c '^skipped: ' "$printed/$name" || true)))
    if [ "$status" != 0 ]; then
        failed=$((failed + 1))
        echo "$name  FAILED  $seconds s"
        cat "$printed/$name"
        [ -z "$(tail -c 1 "$printed/$name")" ] || echo
        [ "$seconds" -lt "$group_limit" ] || echo "$name was ended after $group_limit s"
    elif grep -q '^skipped: all of ' "$printed/$name"; then
        echo "$name  skipped  $seconds s"
        grep '^skipped: ' "$printed/$name"
    else
        passed=$((passed + 1))
        echo "$name  ok  $seconds s"
        grep '^skipped: ' "$printed/$name" || true
    fi
}

# run_groups FOLDER: runs the groups of standard input in this folder, in their order, as many at once as there are processors. A line is the name
# of a group, and the words of its command. A group whose first command is not there is skipped; `package_of` has its package.
run_groups() {
    local folder=$1 name words
    while read -r name words; do
        while [ ${#process_of[@]} -ge "$(nproc)" ]; do
            await
        done
        if [ -z "$(command -v "${words%% *}")" ]; then
            echo "skipped: all of $name: needs the package ${package_of[${words%% *}]}" > "$printed/$name"
            report "$name" 0 0
        else
            # shellcheck disable=SC2086
            start "$folder" "$name" $words
        fi
    done
    while [ ${#process_of[@]} != 0 ]; do
        await
    done
}

# total: prints how many groups passed and failed, and how many things were skipped; fails if a group did.
total() {
    echo "$passed passed, $failed failed, $skipped skipped"
    [ "$failed" = 0 ]
}
