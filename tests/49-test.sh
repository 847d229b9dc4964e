#!/usr/bin/env bash
# ./test itself, in a folder of its own, with tests that do nothing and an rt that proves nothing: what it counts, which tests it says
# were left out and why, and that it runs nothing with another toolchain or with none. README names the toolchain of toolchain.txt.
cd "$(dirname "${BASH_SOURCE[0]}")/.." || exit 2
status=0
if ! grep -qF -- "Proved with $(<toolchain.txt):" README.md; then
    echo "README.md does not say 'Proved with $(<toolchain.txt):', the line of toolchain.txt"
    status=1
fi

there=$(mktemp -d) || exit 2
trap 'rm -rf "$there"' EXIT
mkdir "$there/tests" "$there/bin" && cp test toolchain.txt "$there/" || exit 2
write() { cat >"$there/$1" && chmod +x "$there/$1" || exit 2; }
write bin/rt <<'END'
#!/bin/sh
case $1 in
version) cat version ;;
ci) echo "rt ci was run"; echo "rt: ok, 3 edits refused, 0 bad"; echo "5 passed, 0 failed" ;;
esac
END
write tests/20-passes.sh <<<'echo "all is well"'
write tests/30-lacks.sh <<<'echo "a line"; echo "there is no hammer"; exit 77'
write tests/31-lacks-it-too.sh <<<'echo "there is no hammer"; exit 77'
write tests/32-lacks-else.sh <<<'echo "the sources are not at hand"; exit 77'
write tests/33-says-nothing.sh <<<'exit 77'

# what ./test says and how it ends: the exit status that is wanted, what is wrong otherwise, and the last lines that are wanted
ends() {
    local said wanted got
    said=$(PATH="$there/bin:$PATH" bash "$there/test" 2>&1)
    got=$?
    wanted=$(cat)
    if [ "$got" -ne "$1" ] || [ "$(tail -n "$(wc -l <<<"$wanted")" <<<"$said")" != "$wanted" ]; then
        echo "$2: ./test ended with $got, and said"
        sed 's/^/    /' <<<"$said"
        status=1
    fi
    if [ "$3" = runs ] && ! grep -q '^rt ci was run' <<<"$said" || [ "$3" = refuses ] && grep -qE '^(rt ci was run|==)' <<<"$said"; then
        echo "$2: what is to run did not, or what is not to did"
        status=1
    fi
}

cp toolchain.txt "$there/version"
ends 0 "nothing failed" runs <<'END'
left out: 4: tests/30-lacks.sh, tests/31-lacks-it-too.sh (there is no hammer); tests/32-lacks-else.sh (the sources are not at hand); tests/33-says-nothing.sh (it says no reason)
6 passed, 0 failed
END
write tests/21-fails.sh <<<'echo "left out: no"; exit 1'
rm "$there"/tests/3?-*.sh
ends 1 "a test failed" runs <<'END'
FAILED: tests/21-fails.sh
left out: 0
6 passed, 1 failed
END

rm "$there/tests/21-fails.sh"
echo "rattle-kit-0 logic 0" >"$there/version"
ends 1 "another toolchain" refuses <<END
FAILED: the toolchain of $there/bin/rt is 'rattle-kit-0 logic 0', and toolchain.txt has '$(<toolchain.txt)', of which alone proofs are claimed
left out: 0
0 passed, 1 failed
END

# A path with what ./test needs, and no rt.
rm "$there/bin/rt"
for each in bash dirname cat; do
    ln -s "$(command -v "$each")" "$there/bin/$each" || exit 2
done
said=$(PATH="$there/bin" bash "$there/test" 2>&1)
if [ $? -ne 1 ] || [ "$(head -n 1 <<<"$said" | cut -c 1-35)" != "FAILED: there is no rt on the path:" ] || [ "$(tail -n 1 <<<"$said")" != "0 passed, 1 failed" ]; then
    echo "without rt: ./test said $said"
    status=1
fi

[ "$status" -eq 0 ] && echo "./test counts, says what was left out and why, and runs with the pinned toolchain alone"
exit "$status"
