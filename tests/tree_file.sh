#!/usr/bin/env bash
# examples/tree_file.py fails closed: whole trees give their file; every other input gives no file, a reason, and a status that is not 0.
# Then it shows that edits of it are noticed. It needs python3 and target/bin/mktree.
set -eu
cd "$(dirname "$0")/.."

out=target/tree_file
mkdir -p "$out"
target/bin/mktree < examples/worked.table > "$out/worked"
target/bin/mktree < examples/printed.table > "$out/printed"
printf '\x03\x00\x02\x70\x03\x00\x80\x80\x00\x00\x00\xa0\x00\x00\x00\x90' > "$out/printed.tree" # written by hand

bad_inputs() {
    : > "$out/bad.empty"
    printf '\n' > "$out/bad.blank"
    printf 'refused 1 0 00000000\n' > "$out/bad.refusal"
    head -c -1 "$out/printed" > "$out/bad.newline"              # the last line is not ended
    head -c -4 "$out/printed" > "$out/bad.digits"
    head -n -1 "$out/printed" > "$out/bad.line"                 # the header counts one more
    head -n 1 "$out/printed" > "$out/bad.header"
    { cat "$out/printed"; echo '4 a0000000'; } > "$out/bad.more"
    { cat "$out/printed"; echo; } > "$out/bad.blank_after"
    sed 's/^0 7/0 6/' "$out/printed" > "$out/bad.kind"
    sed 's/^2 /3 /' "$out/printed" > "$out/bad.index"
    sed 2d "$out/printed" > "$out/bad.gap"
    sed 's/a0000000/a000000g/' "$out/printed" > "$out/bad.letter"
    sed 's/a0000000/a00000000/' "$out/printed" > "$out/bad.long"
    sed 's/a0000000/a000000/' "$out/printed" > "$out/bad.short"
    { cat "$out/printed"; echo 'refused 5 0 00000000'; } > "$out/bad.late"
}

all_runs() { # script; prints a line for each input
    local file status
    for file in "$out/worked" "$out/printed" "$out"/bad.*; do
        status=0
        printf 'stale' > "$out/made"
        python3 "$1" "$out/made" < "$file" 2> "$out/stderr" || status=$?
        if [ "$status" = 0 ]; then echo "${file##*/}: $(wc -c < "$out/made") bytes, $(wc -c < "$out/stderr") of a reason"
        elif [ -e "$out/made" ]; then echo "${file##*/}: status $status, and a file"
        elif [ -s "$out/stderr" ]; then echo "${file##*/}: no file"
        else echo "${file##*/}: no file and no reason"; fi
        if [ "$file" = "$out/printed" ] && ! cmp -s "$out/made" "$out/printed.tree"; then echo 'other bytes'; fi
    done
}

bad_inputs
{
    echo 'worked: 112 bytes, 0 of a reason'
    echo 'printed: 16 bytes, 0 of a reason'
    for file in "$out"/bad.*; do echo "${file##*/}: no file"; done
} > "$out/expected"
all_runs examples/tree_file.py > "$out/seen"
diff "$out/expected" "$out/seen" || { echo 'tree_file: not the expected lines'; exit 1; }

edits=0
while IFS= read -r edit; do
    sed "$edit" examples/tree_file.py > "$out/edited.py"
    if cmp -s examples/tree_file.py "$out/edited.py"; then echo "tree_file: the edit $edit changes nothing"; exit 1; fi
    all_runs "$out/edited.py" > "$out/edited.seen"
    if cmp -s "$out/expected" "$out/edited.seen"; then echo "tree_file: the edit $edit is not noticed"; exit 1; fi
    edits=$((edits + 1))
done <<'END'
s/words\[0\] & 0xFFFF != len(words) - 1/words[0] \& 0xFFFF > len(words) - 1/
s/words\[0\] & 0xFFFF != len(words) - 1/words[0] \& 0xFFFF < len(words) - 1/
s/words\[0\] >> 28 != HEADER or//
s/{index} (/[0-9]+ (/
s/{{8}}/{{1,8}}/
s/os.remove(name) .*/pass/
s/"little"/"big"/
END
echo "tree_file good: 2 trees, $(ls "$out"/bad.* | wc -l) other inputs without a file, $edits of $edits edits noticed"
