# The C header, the source, the host crate's declarations and docs/LAYOUTS.md declare the same functions; they and the definitions in
# specs give every code the same number, and they and c/widosha_host.h every refusal the same sentence. The header is C and C++.
set -e
if ! command -v python3 >/dev/null; then
    echo "there is no python3"
    exit 77
fi
python3 -B tests/header/compare.py
python3 -B tests/header/compare.py --self-test
for compiler in "gcc -x c -std=c99" "g++ -x c++ -std=c++11"; do
    if command -v "${compiler%% *}" >/dev/null; then
        $compiler -Wall -Wextra -Wpedantic -Werror -fsyntax-only include/widosha.h
        echo "include/widosha.h compiles alone: $compiler"
    else
        echo "not compiled: there is no ${compiler%% *}"
    fi
done
