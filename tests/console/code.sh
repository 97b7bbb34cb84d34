# The console's own code.
holds 'no file of the console knows itself by way of others' "$python" "$root/tests/console/code.py" layers "$root/console"
holds 'no function of the console is over 40 lines' "$python" "$root/tests/console/code.py" functions "$root/console" "$root/library" "$root/include"
mkdir ring && printf '#include "b.h"\n' > ring/a.c && printf '#include "c.h"\n' > ring/b.h && printf '#include "a.h"\n' > ring/c.c
holds 'test: a ring is found' refuses "$python" "$root/tests/console/code.py" layers ring
{ printf 'static int f(int a,\n             int b) {\n'; printf '    ;\n%.0s' {1..38}; printf '}\n'; } > ring/d.c
holds 'test: a long function is found' refuses "$python" "$root/tests/console/code.py" functions ring
# Every picture that a document shows is there, and has the stations that it is to show.
pictures() {
    local document picture
    for document in README.md docs/*.md; do
        for picture in $(grep -o '](\(docs/\)\?[a-z0-9-]*\.svg)' "$document" | tr -d ']()'); do
            [ -s "docs/${picture#docs/}" ] || { echo "$document: $picture"; return 1; }
        done
    done
    [ "$(grep -c 'class="node"' docs/line.svg) $(grep -c 'class="node"' docs/line-5.svg)" = '4 5' ] || return
    [ "$(grep -c 'class="node"' docs/line-64.svg) $(grep -c '>32/32<' docs/line-64-full.svg)" = '64 64' ]
}
holds 'the pictures of the documents' eval '(cd "$root" && pictures)'
