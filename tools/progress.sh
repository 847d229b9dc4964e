#!/usr/bin/env bash
# progress.sh NAME..       reads what `staticlib.sh NAME..` says, and tells on standard error which crate of how many is being proved: in
# one line that changes and counts the seconds, if that is a terminal, else in a line for each crate. The crates that rt does not name,
# because earlier runs kept them, are counted as soon as one is begun that uses them.
set -uo pipefail
declare -A uses=() needed=() proved=()
while IFS= read -r line; do
    [[ $line =~ ^([a-z0-9_]+)(\ staticlib)?:(.*)$ ]] && uses[${BASH_REMATCH[1]}]=${BASH_REMATCH[3]}
done <"$(dirname "${BASH_SOURCE[0]}")/../crates.txt"

# with_those_it_uses SET NAME: puts the crate and all that it uses into the set.
with_those_it_uses() {
    local -n set=$1
    local each
    [ -z "${set[$2]:-}" ] || return 0
    set[$2]=1
    for each in ${uses[$2]:-}; do
        with_those_it_uses "$1" "$each"
    done
}

# begins NAME: what was begun before is proved, and what NAME uses.
begins() {
    local each
    [ -n "${needed[$1]:-}" ] || return 1
    [ -z "$current" ] || with_those_it_uses proved "$current"
    current=$1
    for each in ${uses[$1]}; do
        with_those_it_uses proved "$each"
    done
    unset "proved[$1]"
}

tell() {
    local text="proving crate $((${#proved[@]} + 1)) of ${#needed[@]}: $current$waits"
    [ -n "$current" ] || text="looking for what earlier runs have proved"
    if [ -t 2 ]; then
        text+=", $SECONDS s"
        [ "$text" = "$told" ] || printf '\r\033[K%s' "$text" >&2
    elif [ -n "$current" ]; then
        [ "$text" = "$told" ] || printf '%s\n' "$text" >&2
    fi
    told=$text
}

for name; do
    with_those_it_uses needed "$name"
done
echo "The library is built from ${#needed[@]} crates. Those that earlier runs have not proved are proved first." >&2
current=
waits=
told=
begun='^rt: (chose --jobs [0-9]+ for )?([a-z0-9_]+)(: .*)?$'
every=()
[ ! -t 2 ] || every=(-t 1)
line=
while tell; do
    part=
    IFS= read -r ${every[@]+"${every[@]}"} part
    status=$?
    line+=$part
    # A second without a whole line.
    [ "$status" -le 128 ] || continue
    [ "$status" -eq 0 ] || break
    if [[ $line =~ $begun ]] && begins "${BASH_REMATCH[2]}"; then
        waits=
        [[ $line != *": another copy "* ]] || waits=" (waits for another copy)"
    fi
    line=
done
[ ! -t 2 ] || printf '\r\033[K' >&2
