#!/usr/bin/env bash
# Prints a script for figures: LINES lines a task, 16 tasks on each node, and TICKS ticks. Seven of eight lines send a byte
# to the other node, the others signal a semaphore that isn't declared; the last task of each node waits for good.
# Usage: tests/long_script.sh LINES TICKS
lines=$1
sends=$((lines * 7 / 8))

# body NODE TASK: the lines of a task.
body() {
    local count=0
    if [ "$2" -eq 1 ]; then
        echo 'udp_cre_cep 1 7 0'
        count=1
    fi
    yes "udp_snd_dat 1 10.0.0.$((2 - $1)):7 x61 pol" | head -n "$sends"
    count=$((count + sends))
    yes 'sig_sem 9' | head -n "$((lines - count - ($2 == 16)))"
    [ "$2" -ne 16 ] || echo 'twai_sem 1 fevr'
}

printf 'itron 1\nlink 1 0 0 0\nticks %s\n' "$2"
for node in 0 1; do
    printf 'node %s 10.0.0.%s 0 0\nsem 1 fifo 0 1\n' "$node" "$((node + 1))"
    for task in $(seq 16); do
        echo "task $task $task act"
        body "$node" "$task"
        echo end
    done
done
