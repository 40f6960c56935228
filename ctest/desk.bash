# shellcheck shell=bash disable=SC2154
# Sourced by ctest/run: the desk program on its samples, on ledgers at and over its figures, and on files that are damaged.

# desk_on CODE FILE..: runs the desk in $dir; what it says goes to $said, standard error after standard output. The exit code is checked.
desk_on() {
    local want=$1 code=0
    shift
    said=$(launch "${runner[@]}" "$dir/desk" "$@" 2>"$dir/stderr") || code=$?
    said+=$(cat "$dir/stderr")
    holds "desk $*: exit code $code, not $want: $said" [ "$code" -eq "$want" ]
}

# desk_says CODE TEXT: runs it on the ledger that comes on standard input; what it says begins with TEXT.
desk_says() {
    cat >"$dir/case.txt"
    desk_on "$1" case.txt
    holds "desk: wanted '$2', got '${said:0:300}'" [ "${said:0:${#2}}" = "$2" ]
}

# The samples, whole. The last line of an .expected file is the exit code.
test_desk_samples() {
    local sample
    for sample in ledger paid-twice slip; do
        cp "$root/desk/$sample.txt" "$dir"
        desk_on "$(tail -n 1 "$root/desk/$sample.expected" | cut -d' ' -f2)" "$sample.txt"
        holds "desk/$sample.expected" diff "$root/desk/$sample.expected" <(printf '%s\n' "$said"; tail -n 1 "$root/desk/$sample.expected") >&2
    done
}

# Each answer in words.
test_desk_answers() {
    desk_says 0 'case.txt: 1 receipt, 1 invoice line, 0 invoices, 1 match
Thinned in 0 rounds, not settled: the file allows 0, and more might drop more.' <<<$'rounds 0\nreceipt a\nline b\nmatch a b'
    desk_says 0 'case.txt: 1 receipt, 1 invoice line, 0 invoices, 1 match
Thinned in 2 rounds, settled' <<<$'receipt a # x\r\n\tline b\r\nmatch a   b\r'
    desk_says 1 'case.txt: 1 receipt, 1 invoice line, 0 invoices, 1 match
There is no way to match everything.
The invoice line b (item 1) cannot be matched:
no match names it.
This was found before the first round.' <<<$'receipt a\nline b\nmatch a'
    desk_says 1 'case.txt: 2 receipts, 1 invoice line, 0 invoices, 2 matches
There is no way to match everything.
The receipt b (item 1) cannot be matched:
the last match left for it would take what another receipt or invoice line cannot do without.
This was found in round 1.' <<<$'receipt a b\nline c\nmatch a b\nmatch a c'
}

test_desk_refusals() {
    desk_says 2 'case.txt: refusal 10: there is no receipt and no invoice line' </dev/null
    desk_says 2 'case.txt: refusal 10: there is no receipt and no invoice line' <<<$'invoice i\nmatch i'
    desk_says 2 'case.txt: refusal 12: there is no match' <<<$'receipt a'
    desk_says 2 "case.txt:4: refusal 20 at entry 2, 'i' in match 1: the number of a rule is over 255" <<<$'receipt a\ninvoice i\nmatch a\nmatch a i:256'
    desk_says 2 "case.txt:3: refusal 21 at entry 0, 'a' in match 0: only an invoice can have a rule" <<<$'rule r 1\nline a\nmatch a:r'
    desk_says 2 "case.txt:4: refusal 22 at entry 3, 'i' in match 1: this is named twice in one match" <<<$'receipt a\ninvoice i\nmatch a\nmatch a i:1 i:1'
}

# names PREFIX COUNT: PREFIX1 PREFIX2 ..
names() { local i; for ((i = 1; i <= $2; i++)); do printf '%s%d ' "$1" "$i"; done; }
# lines COUNT TEXT
lines() { local i; for ((i = 0; i < $1; i++)); do printf '%s\n' "$2"; done; }

# At the figures, one over, and over what can be read.
test_desk_size() {
    desk_says 0 'case.txt: 64 receipts, 0 invoice lines, 0 invoices, 1 match' < <(echo "receipt $(names r 64)"; echo "match $(names r 64)")
    desk_says 3 'case.txt: too large for the desk (refusal 11): there are 65 receipts, invoice lines and invoices, the most is 64.' \
        < <(echo "receipt $(names r 64)"; echo "invoice i"; echo "match $(names r 64)")
    desk_says 0 'case.txt: 1 receipt, 0 invoice lines, 0 invoices, 256 matches' < <(echo "receipt r"; lines 256 "match r")
    desk_says 3 'case.txt: too large for the desk (refusal 13): there are 257 matches, the most is 256.' < <(echo "receipt r"; lines 257 "match r")
    desk_says 0 'case.txt: 16 receipts, 0 invoice lines, 0 invoices, 64 matches' < <(echo "receipt $(names r 16)"; lines 64 "match $(names r 16)")
    desk_says 3 'case.txt: too large for the desk (refusal 15): there are 1025 entries in all matches, the most is 1024.' \
        < <(echo "receipt $(names r 16)"; lines 64 "match $(names r 16)"; echo "match r1")
    desk_says 3 'case.txt:1026: too large for the desk: the most is 64 receipts, lines and invoices' \
        < <(for r in $(names r 1024); do echo "receipt $r"; done; echo; echo "line l")
    desk_says 3 'case.txt:4098: too large for the desk: the most is 256 matches' < <(echo "receipt r"; lines 4097 "match r")
    desk_says 3 'case.txt:1026: too large for the desk: the most is 1024 entries in all matches' \
        < <(echo "receipt $(names r 16)"; lines 1024 "match $(names r 16)"; echo "match r1")
    desk_says 3 'case.txt:256: too large for the desk: the most is 255 rules' < <(for ((i = 1; i <= 256; i++)); do echo "rule r$i $i"; done)
}

# Files that cannot be understood: the line and what is wrong with it.
test_desk_bad_files() {
    local long
    long=$(printf '%4001s' x)
    desk_says 4 "case.txt:2: no receipt, line or invoice of this name stands above: 'b'" <<<$'receipt a\nmatch a b'
    desk_says 4 "case.txt:1: no receipt, line or invoice of this name stands above: ''" <<<'match :5'
    desk_says 4 "case.txt:2: no rule of this name stands above: 'five'" <<<$'invoice i\nmatch i:five'
    desk_says 4 "case.txt:2: no rule of this name stands above: ''" <<<$'invoice i\nmatch i:'
    desk_says 4 "case.txt:2: no rule of this name stands above: '1:2'" <<<$'invoice i\nmatch i:1:2'
    desk_says 4 "case.txt:2: no rule of this name stands above: '4294967296'" <<<$'invoice i\nmatch i:4294967296'
    desk_says 4 "case.txt:2: this name is taken already: 'a'" <<<$'receipt a\ninvoice a'
    desk_says 4 "case.txt:1: this name is too long: 'aaaaaaaaaabbbbbbbbbbccccccccccdd'" <<<'receipt aaaaaaaaaabbbbbbbbbbccccccccccdd'
    desk_says 2 "case.txt: refusal 12" <<<'receipt aaaaaaaaaabbbbbbbbbbccccccccccd'
    desk_says 4 "case.txt:1: a name has no : and no # in it: 'a:b'" <<<'line a:b'
    desk_says 4 "case.txt:1: a name has no : and no # in it: 'a#b'" <<<'line a#b'
    desk_says 4 "case.txt:3: a name is missing" <<<$'\n# so\nreceipt # a'
    desk_says 4 "case.txt:1: a line begins with receipt, line, invoice, rule, match or rounds, not with this: 'Receipt'" <<<'Receipt a'
    desk_says 4 "case.txt:1: a rule has a name and a number" <<<'rule five'
    desk_says 4 "case.txt:1: a rule has a name and a number" <<<'rule five 1 2'
    desk_says 4 "case.txt:1: a rule's number is 1 or more: '0'" <<<'rule five 0'
    desk_says 4 "case.txt:1: a rule's number is 1 or more: '-1'" <<<'rule five -1'
    desk_says 4 "case.txt:1: a rule's name does not begin with a digit: '5'" <<<'rule 5 1'
    desk_says 4 "case.txt:2: this rule is there already: 'five'" <<<$'rule five 1\nrule five 2'
    desk_says 4 "case.txt:2: another rule has this number: '1'" <<<$'rule five 1\nrule six 1'
    desk_says 4 "case.txt:1: rounds has one number, below 2^32" <<<'rounds many'
    desk_says 4 "case.txt:1: rounds has one number, below 2^32" <<<'rounds 4294967296'
    desk_says 4 "case.txt:1: rounds has one number, below 2^32" <<<'rounds'
    desk_says 4 "case.txt:2: the rounds are given already" <<<$'rounds 1\nrounds 1'
    desk_says 4 "case.txt:2: this line is too long" <<<$'receipt a\n'"$long"
    desk_says 2 "case.txt: refusal 12" <<<$'receipt a\n'"${long:1:3999} "
    desk_says 4 "case.txt:1: a control character: this is not plain text" < <(printf 'receipt a\0b\n')
    desk_says 4 "case.txt:2: a control character: this is not plain text" < <(printf 'receipt a\n\033[2J')
    desk_says 2 "case.txt: refusal 12" <<<$'receipt Z\xc3\xbcrich'
}

on_a_full_disk() {
    local code=0
    launch "${runner[@]}" "$dir/desk" ledger.txt >/dev/full 2>"$dir/stderr" || code=$?
    [ "$code" -eq 5 ] && grep -q 'the answer could not be written' "$dir/stderr"
}

# No file, a folder, wrong use, and an answer that cannot be written.
test_desk_use() {
    rm -f "$dir/case.txt"
    desk_on 4 case.txt
    holds "desk: a missing file" [ "$said" = "case.txt: this file cannot be opened" ]
    desk_on 4 .
    holds "desk: a folder" [ "$said" = ".:1: the file cannot be read" ]
    desk_on 5
    holds "desk: no argument" [ "$said" = "usage: desk FILE" ]
    desk_on 5 ledger.txt ledger.txt
    holds "desk: two arguments" [ "$said" = "usage: desk FILE" ]
    if [ -e /dev/full ]; then holds "desk: a full disk" on_a_full_disk; fi
}

# The sample ledger, cut off at many places, or with a byte changed: an answer or a message, never a crash.
test_desk_damage() {
    local size at step=53 code
    size=$(wc -c <"$root/desk/ledger.txt")
    [ "$mode" != valgrind ] || step=700
    for ((at = 0; at < size; at += step)); do
        head -c "$at" "$root/desk/ledger.txt" >"$dir/cut.txt"
        { head -c "$at" "$root/desk/ledger.txt"; printf ':'; tail -c "+$((at + 2))" "$root/desk/ledger.txt"; } >"$dir/changed.txt"
        for file in cut changed; do
            code=0
            launch "${runner[@]}" "$dir/desk" "$file.txt" >"$dir/stdout" 2>&1 || code=$?
            holds "desk: ledger.txt $file at byte $at: exit code $code" [ "$code" -le 4 ]
        done
    done
}

test_desk() {
    cd "$dir" || exit 1
    test_desk_samples
    test_desk_answers
    test_desk_refusals
    test_desk_size
    test_desk_bad_files
    test_desk_use
    test_desk_damage
}
