# The documents' sessions, word for word.
mkdir sessions && cd sessions || exit 1
mkdir path && ln -s "$program" path/station-line
for document in FORMAT MACHINE APPENDIX; do
    mkdir $document
    holds "the sessions of docs/$document.md" eval '(cd $document && PATH=$PWD/../path:$PATH "$python" "$root/tests/console/sessions.py" "$root/docs/$document.md")'
done
# The first session of the README, in a copy of the repository with what is built already.
mkdir clone && tar -C "$root" --exclude=./target --exclude=./.git -c . | tar -C clone -x && ln -s "$root/target" clone/target
holds 'the first session of the README' eval '(cd clone && "$python" "$root/tests/console/sessions.py" README.md)'
printf '```console\n$ echo one\ntwo\n```\n' > wrong.md
holds 'test: a session that prints something else' refuses "$python" "$root/tests/console/sessions.py" wrong.md
cd ..
