# trace cross: the first point of each segment at or above a level, as a plain search through what points prints finds it.

# searched LEVEL WORDS..: what `trace cross` prints, from what `trace points` prints of these words, a file, an array and a
# segment; 17 digits are read as the number they were written from
searched() {
    local level=$1
    shift
    "$trace" points "$@" | awk -v level="$level" '
        !($1 in seen) { seen[$1]; order[++segments] = $1 }
        !($1 in line) && $4 + 0 >= level + 0 { line[$1] = $0 }
        END { for (i = 1; i <= segments; i++) print (order[i] in line) ? line[order[i]] : order[i] " none" }'
}

# finds LEVEL FILE WORDS..: the program finds just that, with an array and a segment or without, and ends with 0
finds() {
    local level=$1 file=$2
    shift 2
    asked cross "$file" "$level" "$@"
    [ "$got" = 0 ] || wrong "trace cross $file $level $*: status $got, $(cat "$folder/err")"
    searched "$level" "$file" "$@" | cmp -s - "$folder/out" || wrong "trace cross $file $level $*: $(searched "$level" "$file" "$@" | diff - "$folder/out" | head -n 3)"
}

# notes LINES WHAT: these lines, or none, stand on standard error
notes() { [ "$(cat "$folder/err")" = "$1" ] || wrong "trace cross: $2: $(cat "$folder/err"); not $1"; }

# from_start LEVEL SEGMENTS: how it is told that so many start at or above the level
from_start() { echo "at or above $1 from point 0 on: $2; whether and when the signal rose to it the samples do not say"; }

# ---- the sample: by hand, and at each of its values

expect 0 '1 4 9.348877974665794e-15 409.58750610332936 1' cross "$sample" 405
[ "$(cat "$folder/out")" = '1 4 9.348877974665794e-15 409.58750610332936 1
2 none
3 none' ] || wrong "the sample at 405: $(cat "$folder/out")"
notes '' 'a level that one of three segments rises to'
expect 0 '2 2 -4.0099999532556096e-07 401.8500059880316 0' cross "$sample" 401 1 2
[ "$(wc -l <"$folder/out")" = 1 ] || wrong "one segment: $(cat "$folder/out")"
notes '' 'one segment that rises'
for value in $("$trace" points "$sample" | cut -d ' ' -f 4 | sort -gu); do
    finds "$value" "$sample"
    finds "$value" "$sample" 1
    finds "$value" "$sample" 1 3
done

# a value is at its level, and the next double is above it: what points prints is read back as the same number
expect 0 '3 2 -4.0199999532556104e-07 401.8500059880316 0' cross "$sample" 401.8500059880316 1 3
expect 0 '3 none' cross "$sample" 401.8500059880317 1 3
expect 0 '1 3 -0.25 8.75 0' cross - 8.75 < <($run "$programs/made" 1 0 1 4 0)
expect 0 '1 none' cross - 8.750000000000002 < <($run "$programs/made" 1 0 1 4 0)
# the gain is a float: ten times 0.7 is below 7, which six digits do not show
patched "$example" 156 '\63\63\63\77' 160 '\0\0\0\0' 346 '\0\12'
expect 0 '1 none' cross "$folder/damaged" 7
expect 0 '1 1 -0.75 6.9999998807907104 0' cross "$folder/damaged" 6.9999998807907104
expect 0 '1 1 -0.75 7 0' cross --digits 6 "$folder/damaged" 6.9999998

# ---- sequences, in both orders and types; the whole block is asked twice, however many segments it has

for shape in '0 0' '0 1' '1 0' '1 1'; do
    read -r order type <<<"$shape"
    $run "$programs/made" "$order" "$type" 2000 50 1 >"$folder/sequence"
    half=$((type == 0 ? 60 : 16000))
    for level in -1e9 "-$half" -0.25 0 "$half" "$half.25" 1e9; do finds "$level" "$folder/sequence"; done
    finds "$half" "$folder/sequence" 1 777
    FAULT=count asked cross "$folder/sequence" "$half"
    [ "$(tail -n 1 "$folder/err")" = '2 questions' ] || wrong "a sequence: $(tail -n 1 "$folder/err") of the whole block, for all its crossings"
done
[ "$(grep -c none "$folder/out")" -gt 0 ] && [ "$(grep -vc none "$folder/out")" -gt 0 ] || wrong 'a sequence: all segments rise, or none does'

# two arrays, a gain below 0 and one of 0, RIS offsets, thinned, narrowed, under a short header, with words before it
$run "$programs/made" 1 0 60 4 1 >"$folder/sixty"
patched "$folder/sixty" 60 '\170\0\0\0\170\0\0\0' 116 '\170\0\0\0'
for level in -60 0 60 63.25 63.5; do
    for array in 1 2; do
        finds "$level" "$folder/damaged" "$array"
        finds "$level" "$folder/damaged" "$array" 60
    done
done
for gain in '\315\314\114\274' '\0\0\0\0' '\0\0\0\200' '\1\0\0\0'; do
    patched "$sample" 156 "$gain"
    for level in -401 -400 -0 0 1e-44 1e-40; do finds "$level" "$folder/damaged"; done
done
patched "$folder/one" "${ris[@]}"
for level in -3000 0 3000; do finds "$level" "$folder/damaged"; done
"$trace" cut "$sample" - 3 0 1 0 hi 2>/dev/null >"$folder/thin"
"$trace" narrow "$sample" - 2>/dev/null >"$folder/bytes"
{ printf 'C1:WF ALL,#6000514'; tail -c +12 "$sample"; echo; } >"$folder/words"
for file in thin bytes words; do
    for level in 150 400 401 406; do finds "$level" "$folder/$file"; done
done
asked cross - 405 <"$folder/words"
searched 405 "$sample" | cmp -s - "$folder/out" || wrong 'standard input has other crossings'

# ---- a table, and digits

expect 0 'segment,point,time (S),value (V),trigger time (s),at the rail' cross --csv "$sample" 405
[ "$(tail -n +2 "$folder/out")" = '1,4,9.348877974665794e-15,409.58750610332936,0,1
2,,,,0.0125,
3,,,,0.025,' ] || wrong "a table: $(cat "$folder/out")"
[ "$(awk -F , '{ print NF }' "$folder/out" | sort -u)" = 6 ] || wrong 'a table: rows of other lengths'
expect 0 'segment,point,time,value,at the rail' cross --csv "$example" 0
[ "$(sed -n 2p "$folder/out")" = '1,1,-0.75,1.75,0' ] || wrong "a table without trigger times: $(cat "$folder/out")"
asked cross "$example" 2 --csv
[ "$(sed -n 2p "$folder/out")" = '1,,,,' ] || wrong "a table without trigger times, and none: $(cat "$folder/out")"
for form in --csv '--csv --digits 3' '--digits 3' '--digits 17'; do
    "$trace" cross $form "$sample" 401 | cmp -s - <("$trace" points $form "$sample" | grep -E '^(segment,.*|[123][ ,]2[ ,].*)$') || wrong "trace cross $form prints a point otherwise than trace points"
done

# ---- the level: decimal numbers in every form, to the nearest double, and behind -- too

for level in 405 +405 405. 405.0 0405 4.05e2 .405e3 40500E-2 4.05e+02 404.99999999999999999999999999 "$(printf '405%0400de-400' 0)"; do
    expect 0 '1 4 9.348877974665794e-15 409.58750610332936 1' cross "$sample" "$level" 1 1
done
patched "$example" 160 '\0\0\0\0' 346 '\377\0'
for level in 0 -0 +0 0.0 -0.0 -.0 1e-400 -1e-400 -.0000001 -1e-320; do
    expect 0 '1 1 -0.75 0 0' cross "$folder/damaged" "$level"
done
for level in -.5 -0.5 -5e-1 -5 -1e308 -1.7976931348623157e308; do
    expect 0 '1 0 -1 -0.5 0' cross "$folder/damaged" "$level" 1 1
    expect 0 '1 0 -1 -0.5 0' cross -- "$folder/damaged" "$level"
done
expect 0 '1 none' cross "$folder/damaged" 4.94065645841246544e-324
expect 0 '1 none' cross "$folder/damaged" 1.7976931348623158e308

# what is no decimal number, and what is beyond the doubles; an infinity is refused by the library (messages.sh)
for level in abc 405V 4,05 1,000 0x195 0X1.95p8 -0x1 1e 1e+ e5 . - +-5 405.0.0 '4 05' '405 ' ' 405' $'\t405' 'nan(0x1)' infinit 12abc -5V -.5V -.; do
    expect 2 "trace: $(printf %s "$level" | sed 's/\t/\\x09/') is not a decimal number, such as 42, -0.5 or 4.2e1" cross "$sample" "$level"
done
expect 2 'trace: an empty word is not a decimal number, such as 42, -0.5 or 4.2e1' cross "$sample" ''
expect 2 'trace: 1e309 is beyond the doubles, which end at 1.7976931348623157e+308' cross "$sample" 1e309
expect 2 'trace: -1.8e308 is beyond the doubles, which end at -1.7976931348623157e+308' cross "$folder/missing" -1.8e308
for level in inf INF +inf Infinity -infinity nan -nan NAN 'nan(7)'; do
    asked cross "$sample" "$level"
    [ "$got" = 1 ] && grep -q '^trace: a crossing of .* is refused (9): the level is ' "$folder/err" || wrong "trace cross $level: $got, $(cat "$folder/err")"
done

# ---- what is told on standard error: segments that start there, and a level beyond what samples can say

asked cross "$sample" 400
notes "$(from_start '400 V' '3 of 3 segments')" 'all segments start at the level'
asked cross "$sample" -0 1 2
notes "$(from_start '0 V' '1 of 1 segment')" 'one segment starts above the level'
patched "$sample" $((346 + 24 + 48 + 32)) '\0\0'
asked cross "$folder/damaged" 400
[ "$(cut -d ' ' -f -2 "$folder/out" | xargs)" = '1 0 2 1 3 0' ] || wrong "two of three start at the level: $(cat "$folder/out")"
notes "$(from_start '400 V' '2 of 3 segments')" 'two of three start at the level'
$run "$programs/made" 0 0 4000 50 1 >"$folder/sequence"
asked cross "$folder/sequence" -64.25
notes "$(from_start -64.25 '4,000 of 4,000 segments')" 'thousands of segments'
patched "$sample" 196 '\033[1m\\\0'
asked cross "$folder/damaged" 1
notes "$(from_start '1 \x1B[1m\x5C' '3 of 3 segments')" 'a unit that would move the cursor'

full='is beyond the full range, which ends at 409.58750610332936 V: a signal that rose to it stands at the rail, of which trace show warns'
asked cross "$sample" 410
[ "$(cat "$folder/out")" = '1 none
2 none
3 none' ] || wrong "beyond the full range: $(cat "$folder/out")"
notes "410 V $full" 'beyond the full range'
asked cross "$sample" 409.5875061033294 1 2
notes "409.5875061033294 V $full" 'just beyond the full range'
asked cross "$sample" 409.58750610332936
notes '' 'the end of the full range'
asked cross "$sample" 409.58750610332936 1 2
notes '' 'the end of the full range, not reached'
patched "$sample" 156 '\315\314\114\274'
asked cross "$folder/damaged" 1e300
notes '1e+300 V is beyond the full range, which ends at 409.6000061035156 V: a signal that rose to it stands at the rail, of which trace show warns' 'a gain below 0'
# the limits that the instrument states, before the rail; limits that are no numbers, or state nothing, say nothing
stated='V is beyond the stated limits, which end at 406.4000060558319 V: a signal that rose to it may be clipped there, without a mark'
patched "$sample" 164 '\0\0\376\106' $((346 + 24 + 48 + 8)) '\0\177\0\177'
asked cross "$folder/damaged" 408
notes "408 $stated" 'beyond the stated limits'
asked cross "$folder/damaged" 406.4000060558319
notes '' 'the end of the stated limits'
asked cross "$folder/damaged" 410
notes "410 V $full" 'beyond both'
patched "$sample" 164 '\0\0\376\106'
asked cross "$folder/damaged" 408
notes '' 'beyond the stated limits, and reached'
for limit in '\0\0\300\177' '\0\0\200\377'; do
    patched "$sample" 164 "$limit" 168 "$limit" $((346 + 24 + 48 + 8)) '\0\177\0\177'
    asked cross "$folder/damaged" 409
    notes '' 'limits that are no numbers'
done
asked cross "$example" 63
notes '' 'no stated limits'

# ---- words that are none of cross's, files that are not right, an output that takes no more

usage='trace: cross takes FILE LEVEL [ARRAY [SEGMENT]]; trace --help tells how it is called'
expect 2 "$usage" cross
expect 2 "$usage" cross "$sample"
expect 2 "$usage" cross "$sample" 1 1 1 1
expect 2 'trace: -f is not known to cross; trace --help tells how it is called' cross -f "$sample" 1
expect 2 'trace: -information is not known to cross; trace --help tells how it is called' cross "$sample" -information
expect 2 'trace: -1 is not a number from 0 to 4294967295' cross "$sample" 1 -1
expect 2 'trace: 1.5 is not a number from 0 to 4294967295' cross "$sample" 1 1 1.5
expect 3 "trace: $folder/missing: No such file or directory" cross "$folder/missing" 1
refused 1 'it is empty' 'standard input' cross - inf </dev/null
# what was found decides nothing: the library's number is told, with its own words
FAULT=uncrossed expect 1 "trace: a crossing of $sample is refused (9): $(awk -F ' [|] ' '$1 == "| 9" { print $3 }' "$folder/table"); $(to_do 9)" cross "$sample" 1
FAULT=unasked expect 1 "trace: a crossing of $sample is refused (13): a slice lent for the answer is too short; $(to_do 13)" cross "$sample" 1
# a few lines, which fail before anything is told of them, and many
for file in "$sample" "$folder/sequence"; do
    got=0
    "$trace" cross "$file" -64.25 >/dev/full 2>"$folder/err" || got=$?
    [ "$got $(cat "$folder/err")" = '3 trace: standard output: No space left on device' ] || wrong "cross to a full disk: $got, $(cat "$folder/err")"
done
