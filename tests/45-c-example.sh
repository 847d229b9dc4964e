#!/usr/bin/env bash
# The C side: c/weighing.c and c/hub.c are compiled with every C compiler that is there, as C++ too, with warnings as errors, linked with
# the proved library and run; each prints what its file of expected lines says, in which each line has its reason. So is a host of two
# translation units that meets every refusal (tests/c/exchanges.c, second.c), and one that makes random calls until every wait was met
# (tests/c/line.c). c/widosha_host.h is compiled over functions that record their numbers (tests/c/wrappers.c). Each of a list of wrong
# changes of c/widosha_host.h and c/widosha_loop.h is found. A code of another family and a dropped refusal do not compile. Every name of
# docs/LAYOUTS.md has its number as the compiler has it. The lines of README.md are compiled and run too.
cd "$(dirname "${BASH_SOURCE[0]}")/.." || exit 2
library=${WIDOSHA_LIB_DIR:-target/staticlib}/libdriver_c.a
frames=${WIDOSHA_LIB_DIR:-target/staticlib}/libframe_c.a
out=target/c
flags=(-Wall -Wextra -Wpedantic -Wconversion -Wshadow -Werror -Iinclude)
compilers=()
for each in gcc clang; do
    if command -v "$each" >/dev/null; then
        compilers+=("$each -std=c99")
    else
        echo "not compiled: there is no $each"
    fi
done
if [ ${#compilers[@]} -eq 0 ]; then
    echo "there is no C compiler: gcc or clang"
    exit 77
fi
if command -v g++ >/dev/null; then
    compilers+=("g++ -std=c++11 -x c++")
else
    echo "not compiled: there is no g++"
fi
if [ ! -f "$library" ] || [ ! -f "$frames" ]; then
    echo "there is no $library or no $frames: tools/staticlib.sh driver_c frame_c builds them"
    exit 1
fi
rm -rf "$out/changed"
mkdir -p "$out/changed"
rm -f "$out"/*.h
failed() {
    echo "$@"
    exit 1
}

# What an example prints: the lines of its file but for the reasons, which stand above each line.
for example in weighing hub; do
    awk '/^#/ { reason = 1; next }
         /./ { if (!reason) { print "no reason stands above: " $0 > "/dev/stderr"; bare = 1 } reason = 0; print }
         END { exit bare }' "c/$example.expected" >"$out/$example.lines" || exit 1
    for compiler in "${compilers[@]}"; do
        $compiler "${flags[@]}" "c/$example.c" -x none "$library" -o "$out/$example" || failed "c/$example.c does not compile: $compiler"
        "$out/$example" >"$out/printed" || failed "c/$example.c ended with $?: $compiler"
        diff "$out/$example.lines" "$out/printed" || failed "c/$example.c prints something else than c/$example.expected says"
        echo "c/$example.c, by $compiler: $(wc -l <"$out/printed") lines, as expected"
    done
done

# A host that meets every refusal, with both libraries. As C++ it links only if the header says that the functions are C's.
for compiler in "${compilers[@]}"; do
    $compiler "${flags[@]}" -Ic tests/c/exchanges.c tests/c/second.c -x none "$library" "$frames" -o "$out/exchanges" ||
        failed "tests/c/exchanges.c does not compile: $compiler"
    "$out/exchanges" || failed "a reply is not what docs/LAYOUTS.md says, or c/widosha_host.h tells it wrongly: $compiler"
    echo "tests/c/exchanges.c meets every refusal, and each reply is as it should be: $compiler"
done

# What waits and which buffers are held, in every wait, after each of many random calls.
for compiler in "${compilers[@]}"; do
    $compiler "${flags[@]}" -O1 -Ic tests/c/line.c -x none "$library" -o "$out/line" || failed "tests/c/line.c does not compile: $compiler"
    "$out/line" || failed "c/widosha_host.h tells the line or the held buffers wrongly: $compiler"
    echo "tests/c/line.c meets every wait, and what waits and what is held is as in its books: $compiler"
done

# The loop, where the hub does not lead it.
for compiler in "${compilers[@]}"; do
    $compiler "${flags[@]}" -Ic tests/c/loop.c -x none "$library" -o "$out/loop" || failed "tests/c/loop.c does not compile: $compiler"
    "$out/loop" || failed "c/widosha_loop.h is wrong: $compiler"
    echo "tests/c/loop.c: c/widosha_loop.h calls its four functions in time: $compiler"
done

# The names of docs/LAYOUTS.md with their numbers, as the compiler has them, by themselves and in an expression; tests/40-header.sh reads
# the digits behind a name alone.
{
    echo '#include "widosha.h"'
    sed -nE 's/^\| ([a-z_, ]*\| )?([0-9]+) \|.* `(WIDOSHA_[A-Z_]+)` \|$/typedef char is_\3[(\3) * 3 == \2 * 3 \&\& 3 * \3 == 3 * \2 ? 1 : -1];/p' docs/LAYOUTS.md
} >"$out/numbers.c"
numbers=$(grep -c typedef "$out/numbers.c")
[ "$numbers" -ge 78 ] || failed "docs/LAYOUTS.md names $numbers numbers"
${compilers[0]} "${flags[@]}" -fsyntax-only "$out/numbers.c" || failed "a name has another number than docs/LAYOUTS.md says"
echo "$numbers names have the numbers of docs/LAYOUTS.md"

# What does not compile under these flags: a refusal that is dropped, and a code of another family. Each line compiles as it stands; with
# the call alone, or with the words behind the bar for those before it, it does not, and the compiler says why.
program() {
    printf '#include "widosha_loop.h"\nstatic struct widosha_host host;\nstatic struct widosha_host_settings settings;\n'
    printf 'static struct widosha_loop loop;\nstatic struct widosha_loop_event event;\n'
    printf 'static uint8_t pool[3][WIDOSHA_BUFFER_LENGTH];\nint main(void)\n{\n'
    printf '    struct widosha_host_arrival arrival = {0, WIDOSHA_DIRECTION_RX, WIDOSHA_START_AT, 0, 0, 0, 0};\n'
    printf '    (void)host, (void)settings, (void)loop, (void)event, (void)pool, (void)arrival;\n    %s\n    return 0;\n}\n' "$1"
}
# Code is made, as gcc looks for dropped results only then.
compiles() {
    program "$1" >"$out/misuse.c"
    $compiler "${flags[@]}" -Ic -S "$out/misuse.c" -o "$out/misuse.s" 2>"$out/said"
}
is_seen() {
    ! compiles "$1" || failed "compiles, and should not: $1: $compiler"
    grep -qE "$2" "$out/said" || failed "does not compile, but for another reason: $1: $compiler"
    seen=$((seen + 1))
}
for compiler in "${compilers[@]}"; do
    seen=0
    while IFS='|' read -r call right wrong; do
        compiles "if ($call != 0) return 1;" || failed "does not compile: $call: $compiler: $(cat "$out/said")"
        is_seen "$call;" 'ignoring return value'
        [ -z "$right" ] || is_seen "if (${call/$right/$wrong} != 0) return 1;" "enum-conversion|cannot convert"
    done <<'CALLS'
widosha_host_start(&host, &settings, pool, 3)
widosha_host_arrive(&host, &arrival)
widosha_host_withdraw(&host, 1)
widosha_host_request(&host)
widosha_host_none(&host)
widosha_host_frame_start(&host)
widosha_host_outbound_seen(&host, WIDOSHA_START_AT, 9, 0)|START_AT|DIRECTION_RX
widosha_host_stopped(&host, WIDOSHA_OUTCOME_FRAME, 1, 2, 3)|OUTCOME|RESULT
widosha_host_header(&host, 9, 14)
widosha_host_entered(&host, WIDOSHA_RESULT_FRAME, 1, 2, 3, 4)|RESULT|OUTCOME
widosha_host_fallback(&host, WIDOSHA_RESULT_FRAME, 1, 2, WIDOSHA_CAUSE_TASK, 3, 4)|RESULT|OUTCOME
widosha_host_fallback(&host, WIDOSHA_RESULT_OFF, 1, 2, WIDOSHA_CAUSE_SCHEDULING_AT, 3, 4)|CAUSE_SCHEDULING_AT|START_AT
widosha_host_rollback(&host)
widosha_host_outbound_seen_earliest(&host)
widosha_loop_host_has_more(&loop)
widosha_loop_told(&loop, &event)
CALLS
    for each in direction:DIRECTION_TX:START_AT start:START_AT:DIRECTION_RX; do
        IFS=: read -r field right wrong <<<"$each"
        compiles "arrival.$field = WIDOSHA_$right;" || failed "a code of its family is no $field: $compiler"
        is_seen "arrival.$field = WIDOSHA_$wrong;" "enum-conversion|cannot convert"
    done
    [ "$seen" -eq 23 ] || failed "$seen wrong uses tried"
    echo "each of $seen wrong uses of the two headers of c does not compile: $compiler"
done

# README.md's lines, in a program that has what they take for granted.
{
    cat <<'BEFORE'
#include <string.h>
#include "widosha_host.h"
int main(void)
{
    static const uint8_t frame[12] = {0x61, 0x88, 7, 0x34, 0x12, 0x00, 0x00, 0x01, 0x00, 0x70, 0x5d, 0x00};
    static const struct widosha_host_settings settings = {2, 1, 2, 1, 0x1234, 0, 0, 1};
    static const struct widosha_host_arrival weighing = {1, WIDOSHA_DIRECTION_TX, WIDOSHA_START_BEST_EFFORT, 0, 2, 12, 1};
    uint64_t stop_at;
    uint8_t refusal;
BEFORE
    sed -n '/^    static struct widosha_host cell;/,/^    stop_at = /p' README.md
    echo '    return refusal == 0 && widosha_host_action(&cell) == WIDOSHA_ACTION_STOP_AT && stop_at == 1842000 ? 0 : 2;'
    echo '}'
} >"$out/readme.c"
${compilers[0]} "${flags[@]}" -Ic "$out/readme.c" "$library" -o "$out/readme" || failed "README.md's lines do not compile"
"$out/readme" || failed "README.md's lines do not come to what they say"
echo "README.md's lines come to what they say"

# The helper alone, over functions that record.
for compiler in "${compilers[@]}"; do
    $compiler "${flags[@]}" -Ic tests/c/wrappers.c -o "$out/wrappers" || failed "tests/c/wrappers.c does not compile: $compiler"
    "$out/wrappers" || failed "c/widosha_host.h is wrong: $compiler"
    echo "c/widosha_host.h passes and reads all that it should: $compiler"
done

# Each change makes the helper wrong in one place; it has to compile, and tests/c/wrappers.c or tests/c/line.c has to find it. What is
# changed has a folder of its own, as a program takes the header that lies beside it.
finds() {
    ${compilers[0]} -Iinclude -I"$out/changed" "tests/c/$1.c" ${2:+"$2"} -o "$out/changed/$1" || failed "does not compile: $change"
    ! timeout 60 "$out/changed/$1" >"$out/said"
}
found=0
while IFS= read -r change; do
    sed "$change" c/widosha_host.h >"$out/changed/widosha_host.h"
    ! cmp -s c/widosha_host.h "$out/changed/widosha_host.h" || failed "changes nothing: $change"
    finds wrappers || finds line "$library" || failed "not found: $change"
    found=$((found + 1))
done <<'CHANGES'
s/widosha_abi_version() ==/widosha_abi_version() >=/
s/(uint8_t)result, length, time, entry, quality, W/(uint8_t)result, length, entry, time, quality, W/
s/length, time, (uint8_t)cause, cause_time, quality, W/length, cause_time, (uint8_t)cause, time, quality, W/
s/(uint8_t)arrival->start, arrival->time/(uint8_t)arrival->direction, arrival->time/
s/(uint8_t)outcome, length/(uint8_t)(outcome \& 3), length/
s/(uint8_t)cause, /(uint8_t)(cause \& 1), /
s/settings->ack_buffer, settings->spare_buffer/settings->spare_buffer, settings->ack_buffer/
s/widosha_none(WIDOSHA/widosha_request(WIDOSHA/
s/(host)->count \* WIDOSHA_BUFFER_LENGTH/(host)->count * 128/
s/    WIDOSHA_FENCE();//
/static inline uint8_t widosha_host_fallback/,/^}/s/WIDOSHA_FENCE();//
/static inline uint8_t widosha_host_header/,/^}/s/WIDOSHA_FENCE();//
/static inline uint8_t widosha_host_entered/,/^}/s/WIDOSHA_FENCE();//
s/if (refusal != 0) {/if (refusal > 5) {/
s/reply\[0\] != WIDOSHA_ACTION_NOTHING/reply[0] <= WIDOSHA_ACTION_OFF/
s/if (refusal == 0) {/if (refusal <= 9) {/
s/number << 8 | bytes/number << 4 | bytes/
s/host->action\[1\]/host->action[2]/
s/action + 4, 8/action + 4, 7/
s/SPACING_SHIFT & 3/SPACING_SHIFT \& 1/
s/WIDOSHA_FLAG_CCA | WIDOSHA_FLAG_ROLLBACK/WIDOSHA_FLAG_CCA/
s/which == 0 ? 12 : 30/which == 0 ? 30 : 12/
s/reply\[12\] != WIDOSHA_ANSWER_NONE/reply[12] == WIDOSHA_ANSWER_FRAME/
s/(enum widosha_answer_code)bytes\[0\]/(enum widosha_answer_code)(bytes[0] \& 7)/
s/bytes + 1, 4/bytes + 1, 3/
s/"Accepted."/"No refusal has this number."/
s/return "No refusal has this number."/return "Accepted."/
s/(unsigned)(host->reply\[30\] != WIDOSHA_ANSWER_NONE)/0u/
s/bytes\[5\]/bytes[6]/
s/bytes\[15\]/bytes[16]/
s/bytes + 7, 8/bytes + 8, 8/
s/buffer < host->count/buffer <= host->count/
s/host->state\[1\]/host->state[2]/
s/FRAME_LENGTH - host->state\[3\]/FRAME_LENGTH - host->state[2]/
s/host->line\[waiting \* WIDOSHA_HOST_RECORD_LENGTH\] != 0/host->line[waiting * WIDOSHA_HOST_RECORD_LENGTH] == 1/
s/waiting < WIDOSHA_LINE_CAPACITY/waiting < 3/
s/(record + 4, 4)/(record + 4, 3)/
s/record\[0\] == 1/record[0] != 1/
s/(enum widosha_start_code)record\[1\]/(enum widosha_start_code)record[2]/
s/(record + 8, 8)/(record + 8, 7)/
s/= record\[3\]/= record[5]/
s/(record + 16, 2)/(record + 15, 2)/
s/arrival.cca = record\[2\]/arrival.cca = record[1]/
s/for (place = 0; place < waiting; place++) {/for (place = waiting; place-- > 0;) {/
s/(host, tx.start, tx.time, tx.cca)/(host, tx.start, tx.time, 1)/
s/(host, tx.start, tx.time, tx.cca)/(host, tx.start, 0, tx.cca)/
s/host->state\[18\] != 0 && host->state\[18\] != 5/host->state[18] != 0/
s/host->state\[18\] != 0 && host->state\[18\] != 5/host->state[18] != 5/
s/host->state\[18\] != 0 && host->state\[18\] != 3/host->state[18] != 0/
s/host->state\[18\] != 0 && host->state\[18\] != 3/host->state[18] != 3/
s/buffer == host->state\[15\] || //
s/buffer == host->state\[16\] || //
s/buffer == host->state\[24\]/buffer == host->state[23]/
s/host->state\[19\] != 0 && buffer/buffer/
s/host->state\[19\] != 0/host->state[19] == 3/
s/(host, place).buffer == buffer/(host, place).buffer == buffer + 1/
CHANGES
[ "$found" -ge 56 ] || failed "$found changes tried"
echo "each of $found changes of c/widosha_host.h is found"

# So with the loop, by the hub or tests/c/loop.c. One that does not end is ended.
cp c/hub.c tests/c/loop.c c/widosha_host.h "$out/changed/"
found=0
while IFS= read -r change; do
    sed "$change" c/widosha_loop.h >"$out/changed/widosha_loop.h"
    ! cmp -s c/widosha_loop.h "$out/changed/widosha_loop.h" || failed "changes nothing: $change"
    for each in hub loop; do
        ${compilers[0]} -Iinclude "$out/changed/$each.c" "$library" -o "$out/changed/$each" || failed "does not compile: $change"
    done
    timeout 10 "$out/changed/hub" 2>&1 | head -c 100000 >"$out/said"
    ! { cmp -s "$out/hub.lines" "$out/said" && timeout 10 "$out/changed/loop" >"$out/said"; } || failed "not found: $change"
    found=$((found + 1))
done <<'CHANGES'
s/    loop->begun = 0;//
s/        loop->begun = 1;//
s/if (!loop->begun)/if (1)/
s/refusal != 0 || action == WIDOSHA_ACTION_RECEIVE_REQUEST/refusal != 0/
/^static inline uint8_t widosha_loop_made/,/^}/s/which = 0/which = 1/
s/refusal == WIDOSHA_REFUSAL_NOT_ALLOWED ?/refusal == WIDOSHA_REFUSAL_UNFIT ?/
s/if (widosha_host_earliest_tx(host, &tx))/if (0)/
s/if (widosha_host_waiting(host) > 0)/if (widosha_host_waiting(host) > 1)/
s/while (refusal == 0 && made)/while (0)/
s/action == WIDOSHA_ACTION_STOP_NOW || action == WIDOSHA_ACTION_STOP_BEFORE/action == WIDOSHA_ACTION_STOP_NOW/
s/event->kind == WIDOSHA_LOOP_FRAME_START \&\& (action/(action/
s/: widosha_loop_host_has_more(loop)/: 0/
s/event->arrived, event->length/event->length, event->arrived/
s/event->result, event->length, event->time, event->entry/event->result, event->length, event->entry + 1000, event->time/
s/widosha_host_stopped(host, event->outcome/widosha_host_stopped(host, WIDOSHA_OUTCOME_FRAME_STARTED/
s/event->time, event->cause, event/event->time, WIDOSHA_CAUSE_SCHEDULING, event/
s/(action == WIDOSHA_ACTION_STOP_NOW/(action == WIDOSHA_ACTION_STOP_AT || action == WIDOSHA_ACTION_STOP_NOW/
s/        if (refusal != 0)/        if (refusal == 0)/
s/    if (refusal != 0)/    if (0)/
s/loop->answered(loop->context/loop->answered(NULL/
s/loop->begin(loop->context/loop->begin(loop/
s/next_request(loop->context/next_request(loop/
s/loop->refused(loop->context/loop->refused(NULL/
s/which < widosha_host_answers(loop->host)/which < 1 \&\& widosha_host_answers(loop->host)/
s/REFUSED_IN_A_TURN WIDOSHA_COUNT_MOST/REFUSED_IN_A_TURN 33/
s/ && widosha_host_waiting(loop->host) < WIDOSHA_LINE_CAPACITY//
s/if (action != WIDOSHA_ACTION_LISTEN)/if (0)/
s/if (action != WIDOSHA_ACTION_LISTEN)/if (1)/
s/refusal != 0 || action == WIDOSHA_ACTION_RECEIVE_REQUEST/refusal != 0 || action <= WIDOSHA_ACTION_LISTEN/
/ACTION_RECEIVE_REQUEST:/,/break/s/widosha_loop_fill(loop);//
/ACTION_TRY_RECEIVE_REQUEST:/,/return/s/widosha_loop_fill(loop);//
/ACTION_LISTEN:/,/break/s/widosha_loop_fill(loop);//
s/action == WIDOSHA_ACTION_STOP_NOW || //
s/event->outcome, event->length, /event->outcome, event->arrived, /
s/event->cause, event->cause_time/event->cause, event->time/
s/event->length, event->time, event->cause/event->length, event->cause_time, event->cause/
s/event->cause_time, event->quality/event->cause_time, 0/
CHANGES
[ "$found" -ge 37 ] || failed "$found changes tried"
echo "each of $found changes of c/widosha_loop.h is found"
