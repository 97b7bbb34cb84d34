# The library and what is installed: headers, archive, shared library, program, man pages and pkg-config file, under DESTDIR and PREFIX; C and
# Python programs that use them.
lib=$root/target/lib
group 'the helpers for blocks and steps agree with the archive'
for flags in -O2 '-O1 -g -fsanitize=address,undefined -fno-sanitize-recover=all'; do
    gcc -std=c11 -Wall -Wextra -Wpedantic -Wconversion -Wshadow -Werror $flags -I"$root/include" "$root/tests/console/layout.c" "$lib/libstation_line.a" -o layout
    cases=("$work"/stored/run.*.table)
    holds "with $flags" ./layout "${cases[@]%.table}"
done
end
if command -v g++ > /dev/null; then
    printf '#include "station_line_layout.h"\nint main() { return station_line_check(0, 0) == STATION_LINE_DONE ? 0 : 1; }\n' > use.cpp
    g++ -std=c++11 -Wall -Wextra -Wpedantic -Wconversion -Werror -I"$root/include" use.cpp "$lib/libstation_line.a" -o use_from_cpp
    holds 'the headers are C++ too' ./use_from_cpp
fi
functions=$(sed -n 's/.*[ *]\(station_line_[a-z_0-9]*\)(.*/\1/p' "$root/include/station_line.h" | sort -u)
exported=$(nm -D --defined-only "$lib/libstation_line.so" | awk '{ print $3 }' | sort)
holds 'the shared library exports what the header declares' [ "$exported" = "$functions" ]
holds 'the shared library has its soname' [ "$(readelf -d "$lib/libstation_line.so" | sed -n 's/.*soname: \[\(.*\)\]$/\1/p')" = libstation_line.so.2 ]
holds 'the example in Python' eval '"$python" "$root/examples/line.py" "$lib/libstation_line.so" > python.txt && same python.txt <(cat "$root/crates/listing/stdout"; printf "%s\n" "may 9 leave? held-by 7" "3 held-by 5" "5 held-by 3" "7 bag" "9 held-by 7")'

into=$work/into
makes() {
    make -C "$root" --no-print-directory -s "$@" CONSOLE="$work/made/station-line" DESTDIR="$into" PREFIX=/opt/line LIBDIR=/opt/line/lib64 > made.txt 2>&1 || { cat made.txt; return 1; }
}
holds 'make install' makes install
wanted="bin/station-line
include/station_line.h
include/station_line_layout.h
lib64/libstation_line.a
lib64/libstation_line.so
lib64/libstation_line.so.2
lib64/libstation_line.so.2.3
lib64/pkgconfig/station-line.pc
share/bash-completion/completions/station-line
share/man/man1/station-line.1
share/man/man3/station_line.3
$(sed 's|.*|share/man/man3/&.3|' <<< "$functions")"
holds 'the files installed' [ "$(cd "$into/opt/line" && find . ! -type d | sed 's|^\./||' | sort)" = "$(sort <<< "$wanted")" ]
installed=$into/opt/line
holds 'the program installed' same <("$installed/bin/station-line" run "$root/examples/table.bin" "$root/examples/steps.bin") "$root/crates/listing/stdout"
holds 'no DESTDIR in the pkg-config file' eval '! grep -qF "$into" "$installed/lib64/pkgconfig/station-line.pc"'
version=$("$installed/bin/station-line" --version)
group 'one version'
for page in man1/station-line.1 man3/station_line.3; do
    holds "$page" grep -q "^\.TH .* \"$version\" " "$installed/share/man/$page"
done
holds 'the macros' grep -q "^.define STATION_LINE_VERSION_MINOR ${version##*.}$" "$installed/include/station_line.h"
end
if command -v groff > /dev/null; then
    group 'the man pages have no warning'
    for page in man1/station-line.1 man3/station_line.3; do
        holds "$page" [ -z "$(groff -ww -man -Tutf8 "$installed/share/man/$page" 2>&1 > /dev/null)" ]
    done
    end
fi
group 'every function has its man page'
for name in $functions; do
    holds "$name" grep -q "$name(" "$installed/share/man/man3/station_line.3"
done
end
# The example of the man page, without its escapes.
sed -n '/^\.SH EXAMPLE/,/^\.fi/p' "$root/library/station_line.3" | grep -v '^\.' | sed 's/\\e/\\/g; s/\\-/-/g' > manual.c
if command -v pkg-config > /dev/null; then
    export PKG_CONFIG_PATH=$installed/lib64/pkgconfig PKG_CONFIG_SYSROOT_DIR=$into
    holds 'the version of the pkg-config file' [ "station-line $(pkg-config --modversion station-line)" = "$version" ]
    group "the man page's example, built by pkg-config"
    gcc -std=c11 -Wall -Wextra -Wpedantic -Werror manual.c $(pkg-config --cflags --libs station-line) -o manual
    holds 'with the shared library' [ "$(LD_LIBRARY_PATH=$installed/lib64 ./manual)" = 'no refusal, 0 stations left' ]
    holds 'it is the shared one' eval '! ./manual 2> /dev/null'
    gcc -std=c11 manual.c $(pkg-config --cflags station-line) "$installed/lib64/libstation_line.a" -o manual
    holds 'with the archive' [ "$(./manual)" = 'no refusal, 0 stations left' ]
    end
    unset PKG_CONFIG_PATH PKG_CONFIG_SYSROOT_DIR
fi
holds 'make uninstall' makes uninstall
holds 'nothing is left' [ -z "$(find "$into" ! -type d)" ]
