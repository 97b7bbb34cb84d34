# Static analysis of the console and the library's C, where the tools are installed: not a word.
# quiet COMMAND..: it succeeds and prints nothing
quiet() {
    "$@" > analysed.txt 2>&1 && [ ! -s analysed.txt ] || { head -n 40 analysed.txt; return 1; }
}
sources=("$root"/console/*.c "$root"/library/*.c)
analysed() {
    local file
    for file in "${sources[@]}"; do
        gcc -std=c11 -Wall -Wextra -Werror -O1 -fanalyzer -I"$root/include" -c "$file" -o analysed.o || return
    done
}
if gcc -fanalyzer -x c -c /dev/null -o analysed.o 2> analysed.txt; then
    holds 'gcc -fanalyzer has nothing to say' quiet analysed
fi
if command -v clang > analysed.txt; then
    holds 'clang --analyze has nothing to say' quiet clang --analyze -Xanalyzer -analyzer-output=text -std=c11 -I"$root/include" "${sources[@]}"
    holds 'clang has no warning' quiet clang -std=c11 -Wall -Wextra -Wpedantic -Wconversion -Wshadow -Werror -fsyntax-only -I"$root/include" "${sources[@]}"
fi
