#!/usr/bin/env bash
# Builds the C examples as their own comments say, under gcc's sanitizers, and runs them: simulator.c on the worked table, on
# words of 16 and 32 bits, on each refusal and on files of currents with a mistake; lister.c and cache.c on an AVR image, on the buoy's table,
# on an image that is too long for one listing and on each refusal; operands.c on instructions of the buoy, AVR and A32, on operands of 32
# bits, on each refusal and on arguments that are no numbers.
# Every expected line is written here by hand. Then it shows that edits of the examples are noticed. (tests/c/cache_test.c tries
# the cache with narrow and damaged trees.)
# It needs gcc and python3, target/bin/mktree and the library; tests/run has just built that one (tests/c/run).
set -eu
cd "$(dirname "$0")/.."

out=target/examples
library=target/staticlib/libkilnumber.a
mkdir -p "$out"
[ -f "$library" ] || tools/build kilnumber

build() { # source, program
    gcc -std=c11 -O1 -Wall -Wextra -Werror -fsanitize=address,undefined -Iinclude "$1" "$library" -o "$2"
}

words() { # words in hexadecimal, as a file of words: low byte first
    for word in "$@"; do printf "\\x${word:6:2}\\x${word:4:2}\\x${word:2:2}\\x${word:0:2}"; done
}

target/bin/mktree < examples/worked.table | python3 examples/tree_file.py "$out/worked.tree"
target/bin/mktree < data/avr.table | python3 examples/tree_file.py "$out/avr.tree"
target/bin/mktree < data/buoy.table | python3 examples/tree_file.py "$out/buoy.tree"
# One entry, 1--..-, of width 16, 32 and 3, and the trees of these: bit 15, 31 or 2 is tested.
words 10010010 20001010 00008000 00008000 3000000f > "$out/sixteen.table"
words 70100003 87800003 a0000000 90000000 > "$out/sixteen.tree"
words 10010020 20002010 80000000 80000000 3000001f > "$out/thirty_two.table"
words 70200003 8f800003 a0000000 90000000 > "$out/thirty_two.tree"
words 10010003 20000310 00000004 00000004 30000002 > "$out/three.table"
words 70030003 81000003 a0000000 90000000 > "$out/three.tree"
# One entry of width 32, 1--..-1: bits 31 and 0 are tested.
words 10010020 20002010 80000001 80000001 3000011e > "$out/ends.table"
words 70200005 8f800003 a0000000 80000005 a0000000 90000000 > "$out/ends.tree"
# One entry of width 32 that is one field: with a sign, and with sixteen bits after the point.
words 10010020 20002010 00000000 00000000 31000020 > "$out/signed.table"
words 10010020 20002010 00000000 00000000 32100020 > "$out/point.table"
words 10010003 20000310 00000004 00000004 > "$out/early.table"      # ends before the field
words 10010003 30000310 00000004 00000004 30000002 > "$out/head.table"  # word 1 is no entry's head
words 10010003 20000310 00000004 00000005 30000002 > "$out/value.table" # a value outside its mask
words 10010003 20000310 00000004 00000004 30000003 > "$out/field.table" # a field over the mask
head -c 65540 /dev/zero > "$out/long.table"                         # 16,385 words
words 70030003 81000004 a0000000 90000000 > "$out/damaged.tree"     # the one side is past the last node
words 70030003 81000003 90000000 90000000 > "$out/other.tree"       # well formed, and another table's
head -c 15 "$out/three.tree" > "$out/cut.tree"
printf '0 7\n' > "$out/seven.currents"
printf '\x00\x80\x80\x00\x01\xff' > "$out/sixteen.image"
printf '\x00\x00\x00\x80\x80\x00\x00\x00\x01\x00\x00\xff' > "$out/thirty_two.image"
printf '\x04\x08\x00' > "$out/three.image"                          # the second word is no word of three bits
printf '\r\n\t0  7 \r\n' > "$out/blanks.currents"
printf '5 7' > "$out/other.currents"                                # no newline at the end
printf '0 7\n0 8\n' > "$out/twice.currents"
printf '0 seven\n' > "$out/text.currents"
printf '1 1234567890\n' > "$out/ten_digits.currents"
printf '12345\n' > "$out/five_digits.currents"
printf '0 7\n\n-5 7\n' > "$out/minus.currents"
printf '0 -7\n' > "$out/minus_current.currents"
printf '0\n' > "$out/alone.currents"
printf '0 7 8\n' > "$out/three_numbers.currents"
printf '0 7\0\n' > "$out/zero_byte.currents"
printf '256 7\n' > "$out/over.currents"
printf '\x00\x0f\xf3\x1f\x00\xe0\x34\x12\x00\xb1\x00\xe0' > "$out/buoy.image"  # 0f00 1ff3 e000 1234 b100 e000
for turn in 1 2 3; do head -c 46 examples/avr.image; done > "$out/loop.image" # without the last halfword, which is cut off
# The same 45,700 times, but for the first 6 bytes: 2,102,194 bytes. The byte after 2,097,152 of them is in the middle of 940e 0040.
python3 -c 'import sys; sys.stdout.buffer.write((open("examples/avr.image", "rb").read(46) * 45700)[6:])' > "$out/long.image"
head -c 2102193 "$out/long.image" > "$out/long_odd.image"
printf '\x00\x80\x00\x00\x00\x80\x01\x00\x34\x80\x03\x00\x12\x80' > "$out/ends.image" # 8000 0000 8000 0001 8034 0003 8012

cat > "$out/simulator.expected" <<'END'
entry   0:        3 times    120 uA =          360
entry   1:        1 times     95 uA =           95
entry   2:        1 times    210 uA =          210
entry   3:        1 times    215 uA =          215
entry   4:        1 times     80 uA =           80
entry   5:        1 times     82 uA =           82
entry   6:        3 times    340 uA =         1020
total:           11 words           =         2062 microampere cycles
unknown words: 2
status 0
entry   0:        2 times      7 uA =           14
total:            2 words           =           14 microampere cycles
unknown words: 1
status 0
entry   0:        2 times      7 uA =           14
total:            2 words           =           14 microampere cycles
unknown words: 1
status 0
entry   0:        2 times      7 uA =           14
total:            2 words           =           14 microampere cycles
unknown words: 1
status 0
refused 7: byte 1: the word 00000008 has a bit at or above the tree's width
entry   0:        1 times      7 uA =            7
total:            1 words           =            7 microampere cycles
unknown words: 1
refused words: 1
status 1
refused 14: the tree is not right for the table
status 1
refused 14: the tree is not right for the table
status 1
refused 14: the tree is not right for the table
status 1
refused 2: the table ends early, after 4 words
status 1
refused 2: word 1 of the table is at fault
status 1
refused 3: word 2 of the table is at fault
status 1
refused 4: word 4 of the table is at fault
status 1
byte 0: entry 0 has no current
status 1
target/examples/three.image: the last word is not whole
status 2
target/examples/cut.tree: not whole words
status 2
target/examples/no_such_file: can't be opened
status 2
target/examples: can't be read
status 2
target/examples/twice.currents:2: the entry has a current already (a line has an entry, 0 to 255, and its current, 0 to 999999999 microamperes)
status 2
target/examples/text.currents:1: no current after the entry (a line has an entry, 0 to 255, and its current, 0 to 999999999 microamperes)
status 2
target/examples/ten_digits.currents:1: no current after the entry (a line has an entry, 0 to 255, and its current, 0 to 999999999 microamperes)
status 2
target/examples/five_digits.currents:1: no entry's number at its start (a line has an entry, 0 to 255, and its current, 0 to 999999999 microamperes)
status 2
target/examples/minus.currents:3: no entry's number at its start (a line has an entry, 0 to 255, and its current, 0 to 999999999 microamperes)
status 2
target/examples/minus_current.currents:1: no current after the entry (a line has an entry, 0 to 255, and its current, 0 to 999999999 microamperes)
status 2
target/examples/alone.currents:1: no current after the entry (a line has an entry, 0 to 255, and its current, 0 to 999999999 microamperes)
status 2
target/examples/three_numbers.currents:1: more than an entry and its current (a line has an entry, 0 to 255, and its current, 0 to 999999999 microamperes)
status 2
target/examples/zero_byte.currents:1: no current after the entry (a line has an entry, 0 to 255, and its current, 0 to 999999999 microamperes)
status 2
target/examples/over.currents:1: no entry's number at its start (a line has an entry, 0 to 255, and its current, 0 to 999999999 microamperes)
status 2
usage: simulator table tree currents image
status 2
standard output: can't be written
status 2
END

cat > "$out/lister.expected" <<'END'
     0: 940c 0034  entry 77
     4: 2411       entry 15
     6: be1f       entry 87
     8: efcf       entry 90
     a: e0d8       entry 90
     c: bfde       entry 87
     e: bfcd       entry 87
    10: 940e 0040  entry 78
    14: 940c 0045  entry 77
    18: ef8f       entry 90
    1a: 9380 0100  entry 40
    1e: 9180 0100  entry 27
    22: 9701       entry 80
    24: f7f1       entry 92
    26: ffff       unknown
    28: 9508       entry 63
    2a: 94f8       entry 62
    2c: cfff       entry 88
    2e: 940c       cut off
status 0
     0: 0f00       entry 13
     2: 1ff3       entry 1
     4: e000 1234  entry 19
     8: b100       unknown
     a: e000       cut off
status 0
     0: 8000       unknown
     2: 0000       unknown
     4: 8000 0001  entry 0
     8: 8034 0003  entry 0
     c: 8012       cut off
status 0
status 0
refused 14: the tree is not right for the table
status 1
refused 15: the table is not for images
status 1
refused 16: the image has an odd number of bytes, or over 2097152 at once
status 1
refused 2: the table ends early, after 4 words
status 1
refused 1: the table has over 16384 words
status 1
target/examples/cut.tree: not whole words
status 2
target/examples: can't be read
status 2
standard output: can't be written
status 2
END

# Lines where the first part ends, and the last one.
cat > "$out/lister_long.expected" <<'END'
1ffffc: bfcd       entry 87
1ffffe: 940e 0040  entry 78
200002: 940c 0045  entry 77
2013b0: cfff       entry 88
status 0
822599 lines
refused 16: the image has an odd number of bytes, or over 2097152 at once
status 1
END

# An item's slot is its top ten bits.
# avr.image: bfcd hits, an out as bfde before it; 940c, 940e and 940c put each other out of their slot, and the last 940c hits.
# loop.image: the later rounds miss only 940e and the second 940c.
# buoy.image: e000 hits the second time, as no bit of its other half is tested.
# ends.image: 8000 0000, 0000 8000 and 8000 0001 miss, 8034 0003 hits, and 8012 without another half misses.
cat > "$out/cache.expected" <<'END'
19 items: 2 hits, 17 misses
status 0
54 items: 33 hits, 21 misses
status 0
5 items: 1 hits, 4 misses
status 0
5 items: 1 hits, 4 misses
status 0
0 items: 0 hits, 0 misses
status 0
refused 14: the tree is not right for the table
status 1
refused 15: the table is not for images
status 1
refused 16: the image has an odd number of bytes, or over 2097152 at once
status 1
refused 16: the image has an odd number of bytes, or over 2097152 at once
status 1
refused 2: the table ends early, after 4 words
status 1
target/examples/cut.tree: not whole words
status 2
target/examples: can't be read
status 2
standard output: can't be written
status 2
END

# FILTER with two gains, BRANCH, SAMPLE, whose fields are plain, and STOP ALL; rjmp .-2, brne .-4 and nop; b to itself.
cat > "$out/operands.expected" <<'END'
bits 25-24: 0
bits 23-20: 1
bits 19-16: 2
bits 15-0: -0.500000000000
status 0
bits 25-24: 3
bits 23-20: 15
bits 19-16: 0
bits 15-0: 7.999755859375
status 0
bits 27-24: 0
bits 23-16: -2
status 0
bits 26-20: 127
bits 19-16: 8
bits 15-8: 255
bits 7-0: 128
status 0
bits 19-16: 9
status 0
bits 27-16: -1
status 0
bits 25-19: -2
bits 18-16: 1
status 0
status 0
bits 31-28: 14
bits 23-0: -2
status 0
bits 31-0: -1
status 0
bits 31-0: -32768.0000000000000000
status 0
bits 6-6: 0
bits 3-2: 1
bits 1-0: 2
status 0
word: it has a bit at or above the table's width
status 2
refused 11: the table has no such entry
status 1
refused 11: the table has no such entry
status 1
refused 2: the table ends early, after 4 words
status 1
refused 1: the table ends early, after 0 words
status 1
word: a hexadecimal number of 32 bits is wanted
status 2
entry: a decimal number of 32 bits is wanted
status 2
word: a hexadecimal number of 32 bits is wanted
status 2
entry: a decimal number of 32 bits is wanted
status 2
entry: a decimal number of 32 bits is wanted
status 2
entry: a decimal number of 32 bits is wanted
status 2
word: a hexadecimal number of 32 bits is wanted
status 2
word: a hexadecimal number of 32 bits is wanted
status 2
target/examples/cut.tree: not whole words
status 2
usage: operands table entry word
status 2
standard output: can't be written
status 2
END

run() { # program, its files
    local status=0
    ASAN_OPTIONS=allocator_may_return_null=1 timeout 60 "$@" 2> "$out/stderr" || status=$?
    if [ -s "$out/stderr" ]; then sed '/^==/d' "$out/stderr"; fi # without the sanitizer's warning of memory that there isn't, for a folder
    echo "status $status"
}

run_full() { # program, its files: on a full device
    run sh -c 'exec "$@" > /dev/full' sh "$@"
}

simulator_runs() { # program
    run "$1" examples/worked.table "$out/worked.tree" examples/worked.currents examples/worked.image
    run "$1" "$out/sixteen.table" "$out/sixteen.tree" "$out/seven.currents" "$out/sixteen.image"
    run "$1" "$out/thirty_two.table" "$out/thirty_two.tree" "$out/seven.currents" "$out/thirty_two.image"
    run "$1" "$out/thirty_two.table" "$out/thirty_two.tree" "$out/blanks.currents" "$out/thirty_two.image"
    run "$1" "$out/three.table" "$out/three.tree" "$out/seven.currents" "$out/three.image"
    run "$1" "$out/three.table" "$out/damaged.tree" "$out/seven.currents" "$out/three.image"
    run "$1" "$out/three.table" "$out/other.tree" "$out/seven.currents" "$out/three.image"
    run "$1" "$out/three.table" /dev/null "$out/seven.currents" "$out/three.image"
    run "$1" "$out/early.table" "$out/three.tree" "$out/seven.currents" "$out/three.image"
    local wrong
    for wrong in head value field; do
        run "$1" "$out/$wrong.table" "$out/three.tree" "$out/seven.currents" "$out/three.image"
    done
    run "$1" "$out/three.table" "$out/three.tree" "$out/other.currents" "$out/three.image"
    run "$1" "$out/sixteen.table" "$out/sixteen.tree" "$out/seven.currents" "$out/three.image"  # the last word is not whole
    run "$1" "$out/three.table" "$out/cut.tree" "$out/seven.currents" "$out/three.image"
    run "$1" "$out/three.table" "$out/three.tree" "$out/seven.currents" "$out/no_such_file"
    run "$1" "$out/three.table" "$out/three.tree" "$out/seven.currents" "$out"                  # a folder
    for wrong in twice text ten_digits five_digits minus minus_current alone three_numbers zero_byte over; do
        run "$1" "$out/three.table" "$out/three.tree" "$out/$wrong.currents" "$out/three.image"
    done
    run "$1" "$out/three.table"
    run_full "$1" "$out/three.table" "$out/three.tree" "$out/seven.currents" /dev/null
}

lister_runs() { # program
    run "$1" data/avr.table "$out/avr.tree" examples/avr.image
    run "$1" data/buoy.table "$out/buoy.tree" "$out/buoy.image"
    run "$1" "$out/ends.table" "$out/ends.tree" "$out/ends.image"        # with 0 for its other half the last one would be unknown
    run "$1" data/avr.table "$out/avr.tree" /dev/null                    # an image without bytes has no items
    run "$1" data/avr.table "$out/buoy.tree" examples/avr.image
    run "$1" "$out/three.table" "$out/three.tree" examples/avr.image
    run "$1" data/avr.table "$out/avr.tree" "$out/three.image"           # three bytes
    run "$1" "$out/early.table" "$out/three.tree" examples/avr.image
    run "$1" "$out/long.table" "$out/three.tree" examples/avr.image
    run "$1" data/avr.table "$out/cut.tree" examples/avr.image
    run "$1" data/avr.table "$out/avr.tree" "$out"
    run_full "$1" data/avr.table "$out/avr.tree" examples/avr.image
}

lister_long_runs() { # program
    run "$1" data/avr.table "$out/avr.tree" "$out/long.image" | awk '/^(1ffffc|1ffffe|200002|2013b0):|^status/; END { print NR " lines" }'
    run "$1" data/avr.table "$out/avr.tree" "$out/long_odd.image"        # refused before anything is listed
}

cache_runs() { # program
    run "$1" data/avr.table "$out/avr.tree" examples/avr.image
    run "$1" data/avr.table "$out/avr.tree" "$out/loop.image"
    run "$1" data/buoy.table "$out/buoy.tree" "$out/buoy.image"
    run "$1" "$out/ends.table" "$out/ends.tree" "$out/ends.image"
    run "$1" data/avr.table "$out/avr.tree" /dev/null
    run "$1" data/avr.table "$out/buoy.tree" examples/avr.image
    run "$1" "$out/three.table" "$out/three.tree" examples/avr.image
    run "$1" data/avr.table "$out/avr.tree" "$out/three.image"
    run "$1" data/avr.table "$out/avr.tree" "$out/long.image"
    run "$1" "$out/early.table" "$out/three.tree" examples/avr.image
    run "$1" data/avr.table "$out/cut.tree" examples/avr.image
    run "$1" data/avr.table "$out/avr.tree" "$out"
    run_full "$1" data/avr.table "$out/avr.tree" examples/avr.image
}

operands_runs() { # program
    run "$1" data/buoy.table 23 e412f800
    run "$1" data/buoy.table 23 e7f07fff
    run "$1" data/buoy.table 9 90fe0000
    run "$1" data/buoy.table 26 eff8ff80
    run "$1" data/buoy.table 25 eff90000
    run "$1" data/avr.table 88 cfff0000
    run "$1" data/avr.table 92 f7f10000
    run "$1" data/avr.table 0 0
    run "$1" data/a32.table 180 0xeafffffe
    run "$1" "$out/signed.table" 0 ffffffff
    run "$1" "$out/point.table" 0 80000000
    run "$1" examples/worked.table 6 36
    run "$1" examples/worked.table 6 136                                 # a bit above the width, 8
    run "$1" data/avr.table 97 0
    run "$1" data/avr.table 256 0
    run "$1" "$out/early.table" 0 0
    run "$1" /dev/null 0 0                                               # a table without words
    run "$1" data/avr.table 0 100000000                                  # more than 32 bits
    run "$1" data/avr.table -1 0
    run "$1" data/avr.table 0 -1
    run "$1" data/avr.table 0x 0
    run "$1" data/avr.table ' 0' 0
    run "$1" data/avr.table '0 ' 0
    run "$1" data/avr.table 0 0x
    run "$1" data/avr.table 0 ''
    run "$1" "$out/cut.tree" 0 0
    run "$1" data/avr.table 0
    run_full "$1" data/buoy.table 23 e412f800
}

try_example() { # name, its runs; standard input: an edit a line, each of which makes one thing wrong, so that the lines must differ
    local edits=0 edit header changed
    build "examples/$1.c" "$out/$1"
    "$2_runs" "$out/$1" > "$out/$2.seen"
    diff "$out/$2.expected" "$out/$2.seen" || { echo "examples: $1 prints not the expected lines"; exit 1; }
    while IFS= read -r edit; do
        sed "$edit" "examples/$1.c" > "$out/edited.c"
        changed=0
        cmp -s "examples/$1.c" "$out/edited.c" || changed=1
        for header in files.h numbers.h refusals.h items.h parts.h cache.h; do
            sed "$edit" "examples/$header" > "$out/$header"
            cmp -s "examples/$header" "$out/$header" || changed=1
        done
        if [ "$changed" = 0 ]; then echo "examples: $1: the edit $edit changes nothing"; exit 1; fi
        gcc -std=c11 -O0 -Iinclude "$out/edited.c" "$library" -o "$out/edited"
        "$2_runs" "$out/edited" > "$out/edited.seen" 2>&1
        if cmp -s "$out/$2.expected" "$out/edited.seen"; then echo "examples: $1: the edit $edit is not noticed"; exit 1; fi
        edits=$((edits + 1))
    done
    echo "$2 good: $(grep -c '^status' "$out/$2.expected") runs, $edits of $edits edits noticed"
}

try_example simulator simulator <<'END'
s/at\[byte\] << 8 \* byte/at[byte] << 8 * (size - 1 - byte)/
s/width <= 16 ? 2 : 4/width <= 16 ? 2 : 2/
s/account->unknown++/account->unknown/
s/if (kilnumber_is_nothing(result))/if (0)/
s/account->count\[entry\]++/account->count[entry] = 1/
s/charge += its/charge = its/
s/if (kilnumber_number(result) != 0) { /if (0) { /
s/number == KILNUMBER_HIGH_WORD/number == 99/
s/ended || account.refused != 0/ended/
s/int ended = is_refused(kilnumber_check(.*/int ended = 0;/
s/case KILNUMBER_WRONG_TREE/case 99/
s/case KILNUMBER_TABLE_PATTERN:/case 99:/
s/case KILNUMBER_TABLE_FIELD:/case 99:/
s/kilnumber_list_place(result)/kilnumber_place(result)/
s/place == table.count/0/
s/if (bytes.count % 4 != 0)/if (0)/
s/fflush(stdout) != 0 || ferror(stdout)/0/
s/if (image.count % size != 0)/if (0)/
s/if (account->has_current\[entry\]) return.*//
s/if (!skip_blanks(&line)) return.*//
s/if (skip_blanks(&line)) return NULL;//
s/KILNUMBER_MOST_ENTRIES - 1, &entry/KILNUMBER_MOST_ENTRIES, \&entry/
s/10, MOST_CURRENT/10, 2000000000/
s/digit == base || //
s/ || taken > most//
s/return text->at > from;/return 1;/
s/ || byte == '\\r'//
s/number++) {/number += 2) {/
END

# Without its check the simulator meets a damaged tree, and must charge nothing for it either.
cat > "$out/unchecked.expected" <<'END'
refused 9: byte 0: the word 00000004 meets a damaged tree
refused 7: byte 1: the word 00000008 has a bit at or above the tree's width
refused 9: byte 2: the word 00000000 meets a damaged tree
total:            0 words           =            0 microampere cycles
unknown words: 0
refused words: 3
status 1
END
cp examples/*.h "$out"
sed 's/int ended = is_refused(kilnumber_check(.*/int ended = 0;/' examples/simulator.c > "$out/unchecked.c"
build "$out/unchecked.c" "$out/unchecked"
run "$out/unchecked" "$out/three.table" "$out/damaged.tree" "$out/seven.currents" "$out/three.image" > "$out/unchecked.seen"
diff "$out/unchecked.expected" "$out/unchecked.seen" || { echo 'examples: simulator charges a walk that is refused'; exit 1; }
echo 'simulator charges no walk that is refused'

try_example lister lister <<'END'
s/kilnumber_item_address(items\[at + 1\])/kilnumber_item_address(items[at]) + 1/
s/case KILNUMBER_CUT_OFF/case 99/
s/case KILNUMBER_INSTRUCTION/case 98/
s/return refused;/return 0;/
s/items, length \/ 2)/items, length \/ 4)/
s/case KILNUMBER_BAD_IMAGE/case 99/
s/case KILNUMBER_NO_IMAGE_TABLE/case 99/
s/table.count > KILNUMBER_MOST_TABLE_WORDS/0/
s/if (bytes.count % 4 != 0)/if (0)/
s/fflush(stdout) != 0 || ferror(stdout)/0/
s/part\[2 \* at + 1\], part\[2 \* at\]/part[2 * at], part[2 * at + 1]/
END
try_example lister lister_long <<'END'
s/start = part.next;/start = image.count;/
s/"%6zx:", start + 2 \* address/"%6zx:", 2 * address/
s/part = image.at + start;/part = image.at;/
s/most - left % 2/most/
END
try_example cache cache <<'END'
s/(word & slot->cover) == slot->key/slot->cover != 0/
s/slot->key = word & slot->cover/slot->key = word/
s/slot->cover = kilnumber_mask_words(.*, word)/slot->cover = 0xffffffff/
s/slot->cover = kilnumber_mask_words(.*, word)/slot->cover = word/
s/slot->result = result;//
s/slot\[at\].key = 1/slot[at].key = 0/
s/cache->misses++;//
s/width - CACHE_BITS/width - 16/
s/CACHE_BITS 10/CACHE_BITS 4/
s/half_at(image, address) << 16/half_at(image, address)/
s/ | half_at(image, address + 1)//
s/if (2 \* address + 2 > image.count) return 0;/if (2 * address + 2 > image.count) return 0xffff;/
s/image.at\[2 \* address\] |/image.at[2 * address + 1] |/
s/count - cache.misses/count/
s/is_refused(result, table) || //
s/return failed;/return 0;/
s/if (bytes.count % 4 != 0)/if (0)/
s/fflush(stdout) != 0 || ferror(stdout)/0/
END

try_example operands operands <<'END'
s/== 6 ? 4 : 3/== 6 ? 3 : 3/
s/== 6 ? 4 : 3/== 6 ? 4 : 4/
s/head >> 4 & 15/head \& 15/
s/3 + 3 \* (table.at\[at\] & 15)/3/
s/left = table.at\[head\] & 15/left = 0/
s/fields_of(table, head) + at\]/fields_of(table, head)]/
s/word >> lowest & /word \& /
s/1 << width) - 1/1 << 31) - 1/
s/lowest = field >> 8 & 0xff/lowest = 0/
s/kilnumber_text(field,/kilnumber_text(field \& 0xf000ffff,/
s/(int)kilnumber_text_length(result)/2/
s/text\[KILNUMBER_TEXT_ROOM\]/text[22]/
s/case KILNUMBER_NO_ENTRY/case 99/
s/int failed = is_refused(kilnumber_cycles(.*/int failed = 0;/
s/if (!failed && is_too_wide(table, word)) stop.*//
s/if (!failed) //
s/return failed;/return 0;/
s/ || taken > most//
s/ || text.at != text.end//
s/digit == base || //
s/return text->at > from;/return 1;/
s/text.at += 2;/;/
s/, 16, "word"/, 10, "word"/
s/place == table.count/0/
s/if (bytes.count % 4 != 0)/if (0)/
s/fflush(stdout) != 0 || ferror(stdout)/0/
END

# The cache's program must tell of a cache that is wrong: a slot that any word hits.
cp examples/cache.c examples/*.h "$out"
sed 's/(word & slot->cover) == slot->key/slot->cover != 0/' examples/cache.h > "$out/cache.h"
gcc -std=c11 -O0 -Iinclude "$out/cache.c" "$library" -o "$out/edited"
run "$out/edited" data/avr.table "$out/avr.tree" examples/avr.image > "$out/edited.seen"
told='word 940e0040: 00000000000a004d from the cache, 00000000000a004e from the tree' # jmp (77) for call (78)
if ! grep -qx "$told" "$out/edited.seen" || ! grep -qx 'status 1' "$out/edited.seen"; then
    echo 'examples: cache does not tell of a wrong cache'
    exit 1
fi
echo 'cache tells of a wrong cache'
