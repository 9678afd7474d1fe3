# trace cut by a line as the oscilloscope takes it: the same bytes as by four numbers, the normal line in either form, and
# where a line that is refused goes wrong.

lines=$folder/lines
mkdir "$lines"
cd "$lines"
normal='WFSU SP,4,NP,0,FP,10,SN,0'

# ---- lines that are taken: what is written and what is told is that of the four numbers

# by NUMBERS LINE: the cuts of the sample by both
by() {
    local numbers=$1 line=$2 into
    for into in hi lo; do
        asked cut "$sample" - $numbers "$into"
        [ "$got" = 0 ] || wrong "trace cut by $numbers: $(cat "$folder/err")"
        cp "$folder/out" "$folder/cut" && cp "$folder/err" "$folder/told"
        asked cut "$sample" - "$line" "$into"
        [ "$got" = 0 ] || wrong "trace cut by $line: $(cat "$folder/err")"
        same "$folder/out" "$folder/cut" "a cut by $line is not that by $numbers"
        same "$folder/err" "$folder/told" "a cut by $line tells: $(cat "$folder/err"); not: $(cat "$folder/told")"
    done
    read -r sp np fp sn <<<"$numbers"
    [ "$(tail -n +2 "$folder/err")" = "WFSU SP,$sp,NP,$np,FP,$fp,SN,$sn" ] || wrong "the line of $numbers: $(tail -n +2 "$folder/err")"
}

while IFS='|' read -r numbers line; do by "$numbers" "$line"; done <<'LINES'
4 0 10 0|WFSU SP,4,NP,0,FP,10,SN,0
4 0 10 0|WAVEFORM_SETUP SP,4,NP,0,FP,10,SN,0
4 0 10 0|WFSU SN,0,FP,10,NP,0,SP,4
4 0 10 0|WAVEFORM_SETUP FP,10,SP,4
0 0 0 3|WFSU SN,3
0 2 0 0|WAVEFORM_SETUP NP,2
2 5 1 2|WFSU SP,0000000002,NP,05,FP,001,SN,2
0 0 0 0|WFSU NP,0000000000
268435455 4294967295 15 1|WFSU NP,4294967295,SN,1,SP,268435455,FP,15
LINES
pairs=(SP,3 NP,2 FP,1 SN,2)
for i in 0 1 2 3; do for j in 0 1 2 3; do for k in 0 1 2 3; do
    [ $((i == j || i == k || j == k)) = 0 ] || continue
    by '3 2 1 2' "WFSU ${pairs[i]},${pairs[j]},${pairs[k]},${pairs[6 - i - j - k]}"
done; done; done

# to a file, with -f and without, and behind --; the line that a cut tells is taken by the next one, and by grep
told() { printf '%s\n' "2 points of each segment kept, 441 bytes written to $1" "$normal"; }
expect 0 "$(told new)" cut "$sample" new 'WFSU FP,010,SP,4' lo
"$trace" cut "$sample" - 4 0 10 0 lo 2>/dev/null | cmp -s - new || wrong 'a cut by a line to a file is another'
[ "$(grep '^WFSU ' "$folder/err")" = "$normal" ] || wrong "grep finds $(grep '^WFSU ' "$folder/err")"
expect 0 "$(told again)" cut "$sample" again "$(tail -n 1 "$folder/err")" lo
same new again 'the line that a cut tells makes another cut'
echo before >"$folder/before"
cp "$folder/before" old
expect 3 'trace: old is there already: -f replaces it' cut "$sample" old "$normal" lo
same old "$folder/before" 'without -f, old was written to'
expect 0 "$(told old)" cut "$sample" old -f "$normal" lo
same old new 'with -f, old does not hold the cut'
expect 0 "$(told old)" cut -f -- - old "$normal" lo <"$sample"
same old new 'behind --, old does not hold the cut'

# a block that does not take the setup is the block's matter, and the same in both forms
refused 10 'it has 3 segments, and segment 4 was asked for' "a cut of $sample" cut "$sample" none 'WFSU SN,4' hi
refused 11 'a segment has 16 points, from 0 on, and point 4,294,967,295 was asked for' "a cut of $sample" cut "$sample" none 'WFSU FP,4294967295' hi
refused 12 'SP 268,435,456 and S 1 are too much together' "a cut of $sample" cut "$sample" none 'WFSU SP,268435456' hi

# ---- lines that are refused: where, and why; nothing is read, and nothing is written

# no_line FOUND LINE: this is found in the line, which is shown so
no_line() {
    local found=$1 line=$2 shown=${3-$2}
    expect 2 "trace: \"$shown\" is refused (15): $found; write $normal with the numbers that are wanted" cut -f "$folder/missing" old "$line" lo
    [ ! -s "$folder/out" ] || wrong "trace cut by $line prints $(cat "$folder/out")"
}
cp "$folder/before" old

# the word, and the blank behind it
word='at byte 1 WFSU or WAVEFORM_SETUP'
no_line "$word should stand, and the line ends there" ''
no_line "$word should stand, and \"WFS\" stands there" 'WFS SP,4'
no_line "$word should stand, and \"WFSUSP\" stands there" 'WFSUSP,4'
no_line "$word should stand, and \"C\" stands there" 'C1:WFSU SP,4'
no_line "$word should stand, and \"SP\" stands there" 'SP,4,NP,0,FP,10,SN,0'
no_line "$word should stand, and \"4\" stands there" '4 0 10 0'
no_line "$word should stand, and a blank stands there" ' WFSU SP,4'
no_line "$word should stand, and a quote stands there" '"WFSU SP,4"'
no_line "$word, in capitals, should stand, and \"wfsu\" stands there" 'wfsu SP,4'
no_line "$word, in capitals, should stand, and \"Waveform_Setup\" stands there" 'Waveform_Setup SP,4'
no_line 'at byte 5 one blank should stand, and the line ends there' WFSU
no_line 'at byte 15 one blank should stand, and the line ends there' WAVEFORM_SETUP
no_line 'at byte 5 one blank should stand, and a comma stands there' 'WFSU,SP,4'
no_line 'at byte 5 one blank should stand, and ":" stands there' 'WFSU:SP,4'
no_line 'at byte 5 one blank should stand, and "?" stands there' 'WFSU?'
no_line 'at byte 5 one blank should stand, and a tab stands there' $'WFSU\tSP,4' 'WFSU\x09SP,4'

# the keys
key='SP, NP, FP or SN'
no_line "at byte 6 $key should stand, and the line ends there" 'WFSU '
no_line "at byte 6 $key should stand, and a blank stands there" 'WFSU  SP,4'
no_line "at byte 6 $key should stand, and \"SQ\" stands there" 'WFSU SQ,4'
no_line "at byte 6 $key should stand, and \"SPARSE\" stands there" 'WFSU SPARSE,4'
no_line "at byte 6 $key, in capitals, should stand, and \"Sp\" stands there" 'WFSU Sp,4'
no_line "at byte 11 $key should stand, and a comma stands there" 'WFSU SP,4,,NP,0'
no_line "at byte 11 $key should stand, and a blank stands there" 'WFSU SP,4, NP,0'
no_line "at byte 11 $key should stand, and \"0\" stands there" 'WFSU SP,1,000'
no_line "at byte 11 $key should stand, and the line ends there" 'WFSU SP,4,'
no_line 'at byte 8 a comma should stand, and "=" stands there' 'WFSU SP=4'
no_line 'at byte 8 a comma should stand, and "4" stands there' 'WFSU SP4'
no_line 'at byte 8 a comma should stand, and a blank stands there' 'WFSU SP 4'
no_line 'at byte 8 a comma should stand, and the line ends there' 'WFSU SP'
no_line 'SP stands twice, at byte 6 and at byte 11' 'WFSU SP,4,SP,4'
no_line 'NP stands twice, at byte 21 and at byte 31' 'WAVEFORM_SETUP SP,4,NP,0,SN,1,NP,x'
no_line 'SN stands twice, at byte 22 and at byte 27' "$normal,SN,0"

# the values
no_line 'at byte 9 a digit should stand, and the line ends there' 'WFSU SP,'
no_line 'at byte 9 a digit should stand, and "-" stands there' 'WFSU SP,-4'
no_line 'at byte 9 a digit should stand, and a blank stands there' 'WFSU SP, 4'
no_line 'at byte 9 a digit should stand, and "NP" stands there' 'WFSU SP,NP,0'
no_line 'at byte 9 SP is 4,294,967,296, and 4,294,967,295 is the most' 'WFSU SP,4294967296'
no_line 'at byte 14 FP is 9,999,999,999, and 4,294,967,295 is the most' 'WFSU SP,1,FP,9999999999,'
no_line 'at byte 9 NP has 11 digits, and ten are the most' 'WFSU NP,00000000004'
zeros=$(printf '%01234d' 0)
no_line 'at byte 9 NP has 1,234 digits, and ten are the most' "WFSU NP,$zeros"

# and what stands behind them
no_line 'at byte 10 a comma or nothing should stand, and "." stands there' 'WFSU SP,4.5'
no_line 'at byte 10 a comma or nothing should stand, and "x" stands there' 'WFSU SP,0x4'
no_line 'at byte 10 a comma or nothing should stand, and "NP" stands there' 'WFSU SP,4NP,0'
no_line 'at byte 10 a comma or nothing should stand, and ";" stands there' 'WFSU SP,4;C1:WF?'
no_line 'at byte 10 a comma or nothing should stand, and a blank stands there' 'WFSU SP,4 '
no_line 'at byte 10 a comma or nothing should stand, and a line end stands there' $'WFSU SP,4\n' 'WFSU SP,4\x0A'
no_line 'at byte 10 a comma or nothing should stand, and a line end stands there' $'WFSU SP,4\r' 'WFSU SP,4\x0D'
no_line 'at byte 26 nothing should stand, and a comma stands there' "$normal,"
no_line 'at byte 26 nothing should stand, and a line end stands there' "$normal"$'\r\n' "$normal\\x0D\\x0A"
no_line 'at byte 26 nothing should stand, and a comma stands there' "$normal,XX,1"

# bytes that a terminal takes for its own, and letters that are not ASCII
no_line 'at byte 9 a digit should stand, and "\x1B" stands there' $'WFSU SP,\e[31m4' 'WFSU SP,\x1B[31m4'
no_line 'at byte 9 a digit should stand, and "\x80" stands there' $'WFSU SP,\x80' 'WFSU SP,\x80'
no_line 'at byte 5 one blank should stand, and "\xC2" stands there' $'WFSU\xC2\xA0SP,4'
no_line 'at byte 10 a comma or nothing should stand, and "\x5C" stands there' 'WFSU SP,4\n'
no_line "$word should stand, and \"\\xC3\" stands there" 'ä'
same old "$folder/before" 'a refused line wrote to OUT'

# ---- words that are too many or too few, a line without its quotes, a line that seems an option

for words in '' "$sample" "$sample none" "$sample none hi" "$sample none WFSU SP,4 hi" "$sample none 4 0 10 hi" "$sample none 4 0 10 0 hi more"; do
    expect 2 "$usage" cut $words
done
expect 2 'trace: up is not hi or lo' cut "$sample" none "$normal" up
expect 2 'trace: an empty word is not hi or lo' cut "$sample" none "$normal" ''
expect 2 'trace: 4294967296 is not a number from 0 to 4294967295' cut "$sample" none 4294967296 0 0 0 hi
expect 2 'trace: -WFSU is not known to cut; trace --help tells how it is called' cut "$sample" none -WFSU hi
expect 2 "trace: \"-WFSU\" is refused (15): $word should stand, and \"-\" stands there; write $normal with the numbers that are wanted" cut -- "$sample" none -WFSU hi

# what was found decides nothing: the library's number is told, with its own words; and nothing is written
text=$(awk -F ' [|] ' '$1 == "| 15" { print $3 }' "$folder/table")
room="a slice lent for the answer is too short; $(to_do 13)"
FAULT=unread expect 2 "trace: \"$normal\" is refused (15): $text; $(to_do 15)" cut "$sample" none "$normal" hi
FAULT=unasked expect 1 "trace: \"$normal\" is refused (13): $room" cut "$sample" none "$normal" hi
FAULT=unwritten expect 1 "trace: the normal line of a setup is refused (15): $text; $(to_do 15)" cut "$sample" none 4 0 10 0 hi
FAULT=unasked expect 1 "trace: the normal line of a setup is refused (13): $room" cut "$sample" none 4 0 10 0 hi
[ "$(ls -A | xargs)" = 'again new old' ] || wrong "the folder holds: $(ls -A | xargs)"
cd "$top"
