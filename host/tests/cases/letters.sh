# trace draw --text: the letters held to what points prints; and for both forms the options, what is refused, and OUT.

# ---- letters

# plain WHAT: the last output is printable ASCII without blanks at the end of a line
plain() { ! LC_ALL=C grep -qE '[^ -~]| $' "$folder/out" || wrong "$1: $(LC_ALL=C grep -m 1 -nE '[^ -~]| $' "$folder/out")"; }

# lettered WIDTH FILE: a plot of sixteen rows with a column for each letter. One that is higher stands no lower, those at the
# rail and no others have the letter # and it is said how many samples that are, and the trigger is where time 0 is
lettered() {
    asked draw --text "$2" --width "$1"
    [ "$got" = 0 ] && [ ! -s "$folder/err" ] || wrong "trace draw --text $2: status $got, $(cat "$folder/err")"
    plain "trace draw --text $2"
    "$trace" points "$2" | columns 1 "$1" >"$folder/expected"
    "$trace" points "$2" | awk '{ at[NR] = $3; marks += $5 } END { print "times", at[1], at[NR], marks + 0 }' >>"$folder/expected"
    awk -v width="$1" '
        function fault(what) { print what; exit bad = 1 }
        NR == FNR && $1 == "times" { first = $2; last = $3; marks = $4; next }
        NR == FNR && $1 == "panel" { rail = $4; next }
        NR == FNR { least[$2] = $3; greatest[$2] = $4; next }
        /^# at the rail, may be clipped: / { gsub(/,/, ""); said = $8 }
        match($0, /^ *-?[0-9.]* [|+]/) && !/^ *\+/ {
            row++
            for (q = 0; q < width; q++) {
                letter = substr($0, RLENGTH + 1 + q, 1)
                if (letter == "*" || letter == "#") { if (!(q in top)) top[q] = row; bottom[q] = row }
                if (letter == "#") hash[q] = 1
                if (letter == ":") trigger = q
            }
        }
        END {
            if (bad) exit 1
            if (row != 16) fault(row " rows")
            for (q in hash) rail--
            if (rail != 0) fault("other columns at the rail")
            if (said + 0 != marks) fault(said " samples at the rail are said, of " marks)
            for (q = 0; q < width; q++) {
                if (!(q in top)) fault("column " q " is missing")
                for (p = 0; p < width; p++)
                    if ((greatest[p] > greatest[q] && top[p] > top[q]) || (least[p] < least[q] && bottom[p] < bottom[q])) fault("columns " p " and " q " are the wrong way round")
            }
            if (first <= 0 && last >= 0 && trigger != int(-first / (last - first) * (width - 1) + 0.5)) fault("the trigger is at " trigger)
        }' "$folder/expected" "$folder/out" >"$folder/judged" || wrong "trace draw --text --width $1 $2: $(cat "$folder/judged")"
}

for shape in '0 0' '0 1' '1 0' '1 1'; do
    read -r order type <<<"$shape"
    $run "$programs/made" "$order" "$type" 1 5000 0 >one
    for width in 1 2 10 72 500; do lettered "$width" one; done
done
for type in 0 1; do
    $run "$programs/made" 0 "$type" 1 5000 0 >one
    patched one 180 '\300\162\300\0\0\0\0\0'
    for width in 9 72 500; do lettered "$width" "$folder/damaged"; done
done
# of fewer points each is at its time, and between two stands a line of dots
asked draw --text "$sample" --segment 2
plain 'the sample'
[ "$(sed -n 10p "$folder/out")" = '400 +*....*...*....*....*..' ] || wrong "the sample: $(sed -n 10p "$folder/out")"
[ "$(tr -cd '*' <"$folder/out" | wc -c)" = 16 ] || wrong "the sample: other points: $(cat "$folder/out")"
asked draw --text "$sample"
[ "$(tr -cd '*' <"$folder/out" | wc -c) $(grep '[|+]' "$folder/out" | tr -cd '#' | wc -c)" = '46 2' ] || wrong 'the sample: other points at the rail'
[ "$(grep -c '^# ' "$folder/out")" = 1 ] || wrong 'the sample: another legend'
[ -z "$(awk 'length($0) > 79' "$folder/out")" ] || wrong "the sample: a line too long for a terminal: $(awk 'length($0) > 79' "$folder/out")"
# times from the least double to the greatest, by RIS offsets, however few letters there are
patched "$folder/one" "${ris[@]}" 346 '\377\357\377\377\377\377\377\377\177\357\377\377\377\377\377\377'
for width in 1 9 20 72; do
    asked draw --text "$folder/damaged" --width "$width"
    [ "$got" = 0 ] && ! grep -qE 'nan|inf' "$folder/out" || wrong "the greatest span: $got, $(cat "$folder/err" "$folder/out")"
done
# texts of the file as show has them, and nothing that a terminal takes for its own
patched "$sample" 96 '\33[31m<\303\244\0'
asked draw --text "$folder/damaged"
[ "$(head -n 1 "$folder/out")" = '\x1B[31m<ä' ] || wrong "a text of the file: $(head -n 1 "$folder/out")"

# ---- options, anywhere; numbers; what is not known

"$trace" draw two text --text --width 20 2>/dev/null
for words in '--text --width 20 two' 'two --width 20 --text' '--width 20 two --text' '--text --width 7 --width 20 -- two' 'two - --text --width 20' 'two --text --array 1 --segment 1 --width 20 -f'; do
    asked draw $words
    [ "$got" = 0 ] || wrong "draw $words: $(cat "$folder/err")"
    same "$folder/out" text "draw $words draws something else"
done
rm text
usage='trace: draw takes FILE [OUT]; trace --help tells how it is called'
expect 2 "$usage" draw
expect 2 "$usage" draw --text
expect 2 "$usage" draw two none more
for option in --csv --digits --txt; do expect 2 "trace: $option is not known to draw; trace --help tells how it is called" draw "$option" two; done
for option in --array --segment --width --text; do expect 2 "trace: $option is not known to points; trace --help tells how it is called" points "$option" 1 two; done
for number in 0 9601 99999999999999999999 -5 x 1x ''; do
    expect 2 'trace: --width takes a number from 1 to 9600; trace --help tells how it is called' draw two --width "$number"
done
expect 2 'trace: --width takes a number from 1 to 9600; trace --help tells how it is called' draw two --width
for option in --array --segment; do
    expect 2 "trace: $option takes a number; trace --help tells how it is called" draw two "$option"
    expect 2 'trace: -1 is not a number from 0 to 4294967295' draw two "$option" -1
    expect 2 'trace: an empty word is not a number from 0 to 4294967295' draw two "$option" ''
done

# ---- what is refused: nothing is written (messages.sh has the arrays and the segments)

"$trace" draw two old 2>/dev/null
cp old before
head -c 400 "$sample" >short
refused 2 'the header says 514 bytes and 389 follow' short draw short none
refused 1 'it is empty' 'standard input' draw -f - old </dev/null
expect 3 'trace: missing: No such file or directory' draw missing none
$run "$programs/made" 1 0 101 3 1 >many
expect 1 'trace: a picture takes at most 100 segments, and many has 101: choose one by --segment' draw many none
expect 1 'trace: a picture takes at most 100 segments, and many has 101: choose one by --segment' draw -f many old --text
expect 0 '1 segment drawn in 3 columns, '"$("$trace" draw many --segment 101 | wc -c | sed 's/\(...\)$/,\1/')"' bytes written to last' draw many last --segment 101
expect 0 '1 segment drawn in 5 columns, '"$("$trace" draw two --width 5 | wc -c | sed 's/\(...\)$/,\1/')"' bytes written to five' draw two five --width 5
# what was found decides nothing: the library's number is told, with its own words
FAULT=undrawn expect 1 "trace: a picture of two is refused (11): $(awk -F ' [|] ' '$1 == "| 11" { print $3 }' "$folder/table"); $(to_do 11)" draw two none
FAULT=unasked expect 1 "trace: a picture of two is refused (13): a slice lent for the answer is too short; $(to_do 13)" draw -f two old
[ ! -e none ] || wrong 'a refused picture was written'
same old before 'a refused picture was written to OUT'

# ---- OUT: never FILE, by whatever name; replaced by -f alone; there whole or as it was

told="1 segment drawn in 16 columns, $(wc -c <before | sed 's/\(...\)$/,\1/') bytes written to"
cp two file
ln file hard
ln -s file soft
for force in '' -f; do
    for name in file ./file hard soft; do
        expect 3 "trace: $name is the file that was read, and is left as it is" draw $force file "$name"
    done
    expect 3 'trace: file is the file that was read, and is left as it is' draw $force - file <hard
done
for to in '' -; do
    got=0
    "$trace" draw file $to >>file 2>"$folder/err" || got=$?
    [ "$got $(cat "$folder/err")" = '3 trace: standard output is the file that was read, and is left as it is' ] || wrong "a picture to its own file by standard output: $got, $(cat "$folder/err")"
done
same file two 'the file that is drawn was written to'
cp "$folder/before" old
expect 3 'trace: old is there already: -f replaces it' draw two old
chmod 444 old
expect 3 'trace: old is read-only, and is left as it is' draw -f two old
same old "$folder/before" 'a picture that failed wrote to OUT'
chmod 644 old
expect 0 "$told old" draw two old -f
same old before 'with -f, old does not hold the picture'
expect 0 "$told -f" draw -- two -f
rm -- -f
expect 0 "$told standard output" draw - - <two
same "$folder/out" before 'another picture came to standard output'
asked draw - <two
same "$folder/out" before 'without OUT, another picture came to standard output'
[ ! -s "$folder/err" ] || wrong "without OUT: $(cat "$folder/err")"
mkfifo pipe
timeout 60 cat pipe >"$folder/through" 2>/dev/null &
expect 0 "$told pipe" draw two pipe
wait $!
same "$folder/through" before 'another picture came through the pipe'
for to in '' -; do
    got=0
    "$trace" draw two $to >/dev/full 2>"$folder/err" || got=$?
    [ "$got $(cat "$folder/err")" = "3 trace: standard output: No space left on device, after 0 of $(wc -c <before) bytes" ] || wrong "a picture to a full disk: $got, $(cat "$folder/err")"
done
for word in full flush close; do
    cp "$folder/before" old
    FAULT=$word asked draw -f two old
    [ "$got" = 3 ] || wrong "$word: $got"
    same old "$folder/before" "$word lost OUT"
    FAULT=$word asked draw two none
    [ "$got" = 3 ] && [ ! -e none ] && [ "$(wc -l <"$folder/err")" = 1 ] || wrong "$word: $got, $(cat "$folder/err")"
done
[ -z "$(ls -A | grep '^\.trace')" ] || wrong "a failing disk left $(ls -A)"

# ---- the picture that README shows

cd "$top"
asked draw host/sample.trc
same "$folder/out" host/sample.svg 'host/sample.svg is not the picture of host/sample.trc'
