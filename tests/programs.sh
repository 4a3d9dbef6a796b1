#!/usr/bin/env bash
# Runs the built program on every example and on every kind of bad input, and compares what it writes to standard output
# and to standard error, and its exit status, with what it must write.
cd "$(dirname "$0")/.." || exit 1
. tests/expecting.sh

# run WORDS..: runs the program on $work/in.
run() {
    ./itron "$@" <"$work/in" >"$work/out" 2>"$work/err"
    echo $? >"$work/status"
}

# Each example has its text beside it.
for script in examples/*.itron; do
    cp "$script" "$work/in"
    run sim
    expect "$script" 0 "${script%.itron}.txt" ''
    grep -v '^#' "$script" | grep . >"$work/printed"
    head -n "$(wc -l <"$work/printed")" "${script%.itron}.txt" | cmp -s - "$work/printed" || {
        echo "FAILED $script: its text does not begin with its printed form"
        failed=$((failed + 1))
    }
done

# Faulty command lines.
: >"$work/empty"
usage='usage: itron sim, audit, shape, run or gen N
'
cp examples/handoff.itron "$work/in"
faulty() {
    run "$@"
    expect "the words: $*" 2 "$work/empty" "$usage"
}
faulty
faulty simulate
faulty SIM
faulty ''
faulty 'sim '
faulty sim sim
faulty sim 1
faulty gen 0
faulty -- sim
faulty -h
faulty $'\xff'
faulty sim $'\xff'

# Inputs that are no script. Each is a good script with one change, by sed, to one line.
# The last word is the first wrong line and its first cause.
no_script() {
    local name=$1 line=$2
    run sim
    expect "no script: $name" 3 "$work/empty" "line $line
"
}
changed_in() {
    sed "$3" "$1" >"$work/in"
    if cmp -s "$work/in" "$1"; then
        echo "FAILED $2: the change changes nothing"
        failed=$((failed + 1))
    fi
    no_script "$2" "$4"
}
changed() {
    changed_in examples/handoff.itron "$@"
}
cp "$work/empty" "$work/in" && no_script 'nothing at all' '1: missing'
printf 'itron 1' >"$work/in" && no_script 'one line without LF' '1: missing'
printf '\000\377\n' >"$work/in" && no_script 'bytes' '1: form'
head -c -1 examples/handoff.itron >"$work/in" && no_script 'no last LF' '12: missing'
{ cat examples/handoff.itron && printf '# no LF'; } >"$work/in" && no_script 'a comment without LF at the end' '13: missing'
{ cat examples/handoff.itron && echo 'node 1 10.0.0.2 0 0'; } >"$work/in" && no_script 'a line after the end' '13: form'
printf 'itron 01\n' >"$work/in" && no_script 'another spelling of the version' '1: form'
head -n 4 examples/handoff.itron >"$work/in" && no_script 'the first four lines alone' '5: missing'
{ head -n 4 examples/handoff.itron && printf 'task 1 1 act\npool\n'; } >"$work/in" && no_script 'the end of a loop in a body without one' '6: nest'
changed 'another version' '1s/1/2/' '1: form'
changed 'a missing line' '2d' '2: form'
changed 'lines exchanged' '2{h;d};3G' '2: form'
changed 'a capital' '1s/i/I/' '1: form'
changed 'two spaces' '2s/ /  /' '2: form'
changed 'a space at the end' '3s/$/ /' '3: form'
changed 'a carriage return' '3s/$/\r/' '3: form'
changed 'a key of 2^64' '2s/1/18446744073709551616/' '2: range'
changed 'a key with a leading zero' '2s/1/01/' '2: form'
changed 'a key with a sign' '2s/1/+1/' '2: form'
changed 'a link of 17 parts in 16' '2s/1 0 0/1 9 8/' '2: range'
changed 'a link without its delay' '2s/ 0$//' '2: form'
changed 'a delay of the link of 1,001' '2s/0$/1001/' '2: range'
changed 'too many ticks' '3s/10/400001/' '3: range'
changed 'an address of three parts' '4s/10.0.0.1/10.0.1/' '4: form'
changed 'an address of five parts' '4s/10.0.0.1/10.0.0.0.1/' '4: form'
changed 'a part of an address above 255' '4s/10.0.0.1/10.0.0.256/' '4: range'
changed 'the address 0.0.0.0' '4s/10.0.0.1/0.0.0.0/' '4: range'
changed 'both nodes at one address' '12s/10.0.0.2/10.0.0.1/' '12: range'
changed 'a first number of 2^32' '4s/ 0 0$/ 4294967296 0/' '4: range'
changed 'a line of positions past its end' '4s/ 0 0$/ 0 2000000001/' '4: range'
changed 'the semaphore 0' '5s/1/0/' '5: range'
changed 'the semaphore 17' '5s/1/17/' '5: range'
changed 'a count above its maximum' '5s/0 1$/2 1/' '5: range'
changed 'a maximum of 0' '5s/0 1$/0 0/' '5: range'
changed 'a maximum of 65536' '5s/0 1$/0 65536/' '5: range'
changed 'a semaphore by another order' '5s/fifo/prio/' '5: form'
changed 'a semaphore declared twice' '5p' '6: twice'
changed 'the event flag 17' '5s/.*/flg 17 fifo one clr 0/' '5: range'
changed 'bits of 2^32 at the start' '5s/.*/flg 1 fifo one clr 4294967296/' '5: range'
changed 'words of an event flag in another order' '5s/.*/flg 1 one fifo clr 0/' '5: form'
changed 'an event flag without a word' '5s/.*/flg 1 fifo one 0/' '5: form'
changed 'an event flag declared twice' '5s/.*/flg 1 fifo one clr 0\nflg 1 pri many keep 0/' '6: twice'
changed 'the data queue 0' '5s/.*/dtq 0 fifo 1/' '5: range'
changed 'room for 1,025 items' '5s/.*/dtq 1 fifo 1025/' '5: range'
changed 'a data queue without its room' '5s/.*/dtq 1 pri/' '5: form'
changed 'a data queue declared twice' '5s/.*/dtq 1 fifo 0\ndtq 1 fifo 0/' '6: twice'
changed 'the cyclic handler 9' '5s/.*/cyc 9 1 0 on\nend/' '5: range'
changed 'a period of 0' '5s/.*/cyc 1 0 0 on\nend/' '5: range'
changed 'a period of 1,000,001' '5s/.*/cyc 1 1000001 0 on\nend/' '5: range'
changed 'a phase of 1,000,001' '5s/.*/cyc 1 1 1000001 on\nend/' '5: range'
changed 'a cyclic handler that begins in another way' '5s/.*/cyc 1 1 0 act\nend/' '5: form'
changed 'a cyclic handler without its end' '5s/.*/cyc 1 1 0 on/' '6: form'
changed 'a cyclic handler declared twice' '5s/.*/cyc 1 1 0 on\nend\ncyc 1 2 0 off\nend/' '7: twice'
changed 'a cyclic handler in a body' '7s/.*/cyc 1 1 0 on/' '7: form'
changed 'the callback routine 0' '5s/.*/cbr 0\nend/' '5: range'
changed 'the callback routine 17' '5s/.*/cbr 17\nend/' '5: range'
changed 'a callback routine with a number more' '5s/.*/cbr 1 1\nend/' '5: form'
changed 'a callback routine declared twice' '5s/.*/cbr 1\nend\ncbr 1\nend/' '7: twice'
changed 'the end of a task in a handler' '5s/.*/cyc 1 1 0 on\next_tsk\nend/' '6: form'
changed 'the end of a task in a callback routine' '5s/.*/cbr 1\next_tsk\nend/' '6: form'
changed 'the task 0' '6s/task 1/task 0/' '6: range'
changed 'the task 17' '6s/task 1/task 17/' '6: range'
changed 'the priority 0' '6s/1 act/0 act/' '6: range'
changed 'the priority 17' '6s/1 act/17 act/' '6: range'
changed 'a task that begins in another way' '6s/act/run/' '6: form'
changed 'a task declared twice' '9s/task 2/task 1/' '9: twice'
changed 'a time-out of 0' '7s/fevr/0/' '7: range'
changed 'a time-out of 1,000,001' '7s/fevr/1000001/' '7: range'
changed 'a time-out of 2^64' '7s/fevr/18446744073709551616/' '7: range'
changed 'a time-out with a leading zero' '7s/fevr/05/' '7: form'
changed 'a time-out of another name' '7s/fevr/forever/' '7: form'
changed 'a semaphore id of 2^32 in a call' '7s/1/4294967296/' '7: range'
changed 'a call of another name' '7s/twai_sem 1 fevr/wai_sem 1/' '7: form'
changed 'a delay of 1,000,001' '7s/.*/dly_tsk 1000001/' '7: range'
changed 'a delay of 2^64' '7s/.*/dly_tsk 18446744073709551616/' '7: range'
changed 'a delay without a number' '7s/.*/dly_tsk/' '7: form'
changed 'a delay with a sign' '7s/.*/dly_tsk -1/' '7: form'
changed 'a delay with a space at the end' '7s/.*/dly_tsk 1 /' '7: form'
changed 'an end with a number' '7s/.*/ext_tsk 1/' '7: form'
changed 'a start of a cyclic handler without its number' '7s/.*/sta_cyc/' '7: form'
changed 'a reception point at port 65,536' '7s/.*/tcp_cre_rep 1 65536/' '7: range'
changed 'a connection to a peer' '7s/.*/tcp_con_cep 1 0 peer fevr/' '7: form'
changed 'a buffer of 65,281 bytes' '7s/.*/fill 65281/' '7: range'
changed 'a loop of no rounds' '7s/.*/loop 0\npool/' '7: range'
changed 'a loop of 65,536 rounds' '7s/.*/loop 65536\npool/' '7: range'
changed 'a loop without its end' '7s/.*/loop 1/' '8: nest'
changed 'an end of a loop too many' '7s/.*/loop 1\npool\npool/' '9: nest'
changed 'a fifth loop inside four' '7s/.*/loop 1\nloop 1\nloop 1\nloop 1\nloop 1/' '11: nest'
changed 'a way out of no loop' '7s/.*/until end/' '7: nest'
changed 'a way out by no reason' '7s/.*/loop 1\nuntil full\npool/' '8: form'
changed 'a skipped line before a wrong one' '7s/.*/# pool\n\npool/' '9: nest'
changed 'a wait for bits without its mode' '7s/.*/twai_flg 1 1 fevr/' '7: form'
changed 'a system time of 2^63' '7s/.*/set_tim 9223372036854775808/' '7: range'
changed 'a body that does not end' '8d' '8: form'
changed 'a body that ends twice' '8p' '9: form'
changed 'a call outside a body' '5s/.*/sig_sem 1/' '5: form'
changed 'a body of node 1 that does not end' '12s/$/\ntask 1 1 act/' '14: missing'
changed 'a call after node 1' '12s/$/\nsig_sem 1/' '13: form'
changed 'a node 2' '12s/node 1/node 2/' '12: form'
changed 'a node 2 after node 1' '12s/$/\nnode 2 10.0.0.3 0 0/' '13: form'

# The UDP calls, and declarations of node 1: lines 8, 10, 15 and 17 of the example are `udp_cre_cep 1 1000 0`,
# `udp_snd_dat 1 10.0.0.2:2000 x6869 fevr`, `udp_rcv_dat 1 1 fevr` of node 1, and the end of its body.
sent() {
    changed_in examples/exchange.itron "$@"
}
sent 'an end point of 2^32' '8s/cep 1/cep 4294967296/' '8: range'
sent 'a port of 65,536' '8s/1000/65536/' '8: range'
sent 'a port with a leading zero' '8s/1000/01000/' '8: form'
sent 'a callback routine of 2^32' '8s/0$/4294967296/' '8: range'
sent 'an end point without a callback routine' '8s/ 0$//' '8: form'
sent 'a destination without a port' '10s/:2000//' '10: form'
sent 'a destination port of 65,536' '10s/2000/65536/' '10: range'
sent 'a destination of three parts' '10s/10.0.0.2/10.0.2/' '10: form'
sent 'a part of a destination above 255' '10s/10.0.0.2/10.0.0.256/' '10: range'
sent 'data without x' '10s/x6869/6869/' '10: form'
sent 'data of an odd number of digits' '10s/x6869/x686/' '10: form'
sent 'data in capitals' '10s/x6869/x6A69/' '10: form'
sent 'data that is no hexadecimal' '10s/x6869/x686g/' '10: form'
sent 'a send without a time-out' '10s/ fevr$//' '10: form'
sent 'a send with a time-out of 0' '10s/fevr$/0/' '10: range'
sent 'a receive without a length' '15s/1 1 fevr/1 fevr/' '15: form'
sent 'a length of 2^32' '15s/1 1 fevr/1 4294967296 fevr/' '15: range'
sent 'a receive with a time-out of 1,000,001' '15s/fevr/1000001/' '15: range'
sent 'a cancel of no function' '15s/.*/udp_can_cep 1/' '15: form'
sent 'a cancel of a function of TCP' '15s/.*/udp_can_cep 1 acp_cep/' '15: form'
sent 'a deleted end point of 2^32' '15s/.*/udp_del_cep 4294967296/' '15: range'
sent 'a task of node 1 declared twice' '17s/$/\ntask 1 1 act\nend/' '18: twice'
sent 'a body of node 1 without its end' '17d' '17: missing'
long=$(printf '%02050d' 0)
sed "10s/x6869/x$long/" examples/exchange.itron >"$work/in" && no_script 'data of 1,025 bytes' '10: form'

# A body has at most 1,000 lines.
body() {
    sed -n 1,6p examples/handoff.itron
    yes 'sig_sem 0' | head -n "$1"
    sed -n '8p;12p' examples/handoff.itron
}
body 1001 >"$work/in" && no_script 'a body of 1,001 lines' '1007: range'
body 1000 >"$work/in"
run sim
{ cat "$work/in" && echo trace && yes '0 task 1 sig_sem 0 = -18' | head -n 1000 && printf '0 task 1 ext_tsk\n gone 1\n run 0\nstop\n'; } >"$work/want"
expect 'a body of 1,000 lines' 0 "$work/want" ''

# A task that activates itself begins again for good, so its history is full at a million entries, without the stop.
sed -n 1,4p examples/handoff.itron >"$work/in"
printf 'task 1 1 act\nact_tsk 0\nend\n' >>"$work/in"
sed -n 12p examples/handoff.itron >>"$work/in"
run sim
{ cat "$work/in" && echo trace && yes "$(printf '0 task 1 act_tsk 0 = 0\n0 task 1 ext_tsk\n gone 1\n begun 1')" | head -n 2000000; } >"$work/want"
expect 'a history of 1,000,000 entries' 6 "$work/want" 'history too long
'

# Skipped lines hold any bytes, and an input may have 1,048,576 bytes.
padded() {
    printf '#' && head -c "$(($1 - 2 - $(wc -c <examples/handoff.itron)))" /dev/zero | tr '\000' '\377' && echo && cat examples/handoff.itron
}
padded 1048576 >"$work/in"
run sim
expect 'an input of 1,048,576 bytes' 0 examples/handoff.txt ''
padded 1048577 >"$work/in"
run sim
expect 'an input of 1,048,577 bytes' 10 "$work/empty" 'input too big
'

# A pipe as input and as output.
cat examples/handoff.itron | ./itron sim 2>"$work/err" | cat >"$work/out"
echo "${PIPESTATUS[1]}" >"$work/status"
expect 'pipes' 0 examples/handoff.txt ''

# Faults of the streams.
./itron sim <&- >"$work/out" 2>"$work/err"
echo $? >"$work/status"
expect 'a closed input' 4 "$work/empty" 'read fault
'
./itron sim <crates >"$work/out" 2>"$work/err"
echo $? >"$work/status"
expect 'a folder as input' 4 "$work/empty" 'read fault
'
: >"$work/out"
./itron sim <examples/handoff.itron >&- 2>"$work/err"
echo $? >"$work/status"
expect 'a closed output' 5 "$work/empty" 'write fault
'
./itron sim <examples/handoff.itron >/dev/full 2>"$work/err"
echo $? >"$work/status"
expect 'a full output' 5 "$work/empty" 'write fault
'
# A file that may have 1,024 bytes takes these, and then the write fails.
(
    ulimit -f 1
    trap '' XFSZ
    ./itron sim <examples/full_queue.itron >"$work/out" 2>"$work/err"
    echo $? >"$work/status"
)
head -c 1024 examples/full_queue.txt >"$work/want"
expect 'an output that fails in its middle' 5 "$work/want" 'write fault
'
./itron simulate <&- >"$work/out" 2>"$work/err"
echo $? >"$work/status"
expect 'faulty words before a closed input' 2 "$work/empty" "$usage"
./itron sim <"$work/empty" 2>"$work/err" >&-
echo $? >"$work/status"
expect 'no script before a closed output' 3 "$work/empty" 'line 1: missing
'
./itron simulate <"$work/empty" >"$work/out" 2>&-
echo $? >"$work/status"
: >"$work/err"
expect 'faulty words with closed standard error' 2 "$work/empty" ''
./itron sim <"$work/empty" >"$work/out" 2>&-
echo $? >"$work/status"
expect 'no script with closed standard error' 3 "$work/empty" ''
./itron sim <examples/handoff.itron >"$work/out" 2>&-
echo $? >"$work/status"
expect 'an example with closed standard error' 0 examples/handoff.txt ''

# A task that waits for good while both nodes have all the ticks that a script can give: 800,002 entries.
sed 's/^ticks .*/ticks 400000/; s/^link .*/link 0 0 0 0/' examples/waits_for_good.itron >"$work/in"
run sim
{
    grep -v '^#' "$work/in"
    printf 'trace\n0 task 1 twai_sem 1 fevr = pend 1\n run 0\n'
    yes '0 tick
1 tick' | head -n 800000
    echo stop
} >"$work/want"
expect 'all ticks' 0 "$work/want" ''

# The longest data that a line can have.
long=$(printf '%02048d' 0)
sed "10s/x6869/x$long/" examples/exchange.itron >"$work/in"
run sim
{
    grep -v '^#' "$work/in"
    sed '1,/^node 1/d; /^trace$/,$!d' examples/exchange.txt |
        sed "s/x6869 fevr = 2/x$long fevr = 1024/; s/x0a00000103e868/x0a00000103e800/; s/^ pack x.*/$(grep '^ pack' "$work/out")/"
} >"$work/want"
expect 'data of 1,024 bytes' 0 "$work/want" ''

tests/unproved.sh || failed=$((failed + 1))
tests/wire.sh || failed=$((failed + 1))
tests/wrong_scripts.sh || failed=$((failed + 1))

echo "programs: $passed passed, $failed failed"
[ "$failed" -eq 0 ]
