# trace narrow: words as bytes, the loss in words, and OUT kept as by a cut.

narrows=$folder/narrows
mkdir "$narrows"
cd "$narrows"

# tells LINES FILE: FILE is narrowed to `out`, and told so
tells() {
    rm -f out
    expect 0 "$1" narrow "$2" out
}

# high FILE ARRAY: what `trace points` prints of the narrowed FILE, from what it prints of FILE, whose gain is 0.5 and
# offset 0.25
high() {
    "$trace" points "$1" "$2" | awk '
        {
            word = ($4 + 0.25) / 0.5
            byte = (word - (word % 256 + 256) % 256) / 256
            printf "%d %d %s %.17g %d\n", $1, $2, $3, 128 * byte - 0.25, byte == -128 || byte == 127
        }'
}

# railed FILE ARRAY: the line on samples of the narrowed FILE that are new at the rail, where there are any
railed() {
    local before now
    before=$("$trace" points "$1" "$2" | awk '$5' | wc -l)
    now=$(high "$1" "$2" | awk '$5' | wc -l)
    [ "$now" = "$before" ] || printf '\nnew at the rail, array %d: %d of %d samples; %d stood there before' "$2" $((now - before)) "$(high "$1" "$2" | wc -l)" "$before"
}

# changed FILE COUNT: which of the first COUNT bytes of its payload are others in `out`
changed() { { cmp -l <(tail -c +12 "$1" | head -c "$2") <(tail -c +12 out | head -c "$2") || true; } | awk '{ print $1 - 1 }' | xargs; }

loss=': each value is as it was or lower, by less than'

# halves FILE ARRAYS: FILE, a block of words with a gain of 0.5 and an offset of 0.25, is narrowed as it should be: all its
# points, and COMM_TYPE, the lengths of the arrays and the gain, with no other byte before the samples
halves() {
    local file=$1 arrays=$2 array samples length rails=
    samples=$(($("$trace" points "$file" | wc -l) * arrays))
    length=$(($(stat -c %s "$file") - samples))
    for ((array = 1; array <= arrays; array++)); do rails+=$(railed "$file" "$array"); done
    tells "$samples samples narrowed to bytes, $length bytes written to out
one step of a sample is 128, and was 0.5$loss 128$rails" "$file"
    [ "$(stat -c %s out)" = "$length" ] || wrong "$file: $(stat -c %s out) bytes"
    for ((array = 1; array <= arrays; array++)); do
        high "$file" "$array" | cmp -s - <("$trace" points out "$array") || wrong "$file: other points in array $array"
    done
    changed "$file" $((length - samples - 11)) | grep -qxE '3[23]( 6[0-7])+ 15[69]' || wrong "$file: other fields or tables: $(changed "$file" $((length - samples - 11)))"
}

# ---- words, in both orders: one segment, a sequence, two arrays of which the second is the last half, RIS offsets

for order in 0 1; do
    $run "$programs/made" "$order" 1 1 301 0 >one
    halves one 1
    $run "$programs/made" "$order" 1 3 80 1 >sequence
    halves sequence 1
    length=$([ "$order" = 0 ] && echo '\0\0\0\360' || echo '\360\0\0\0') count=$([ "$order" = 0 ] && echo '\0\0\0\170' || echo '\170\0\0\0')
    patched sequence 60 "$length$length" 116 "$count"
    mv "$folder/damaged" two
    halves two 2
done
$run "$programs/made" 0 1 1 12 1 >one
patched one "${ris[@]}"
mv "$folder/damaged" offsets
halves offsets 1
[ "$("$trace" show out | grep '^times by')" = 'times by         RIS, offsets of 2 sweeps' ] || wrong 'RIS: other offsets'

# bytes stay, under a header of nine digits, and narrowing twice is narrowing once
for order in 0 1; do
    $run "$programs/made" "$order" 0 3 5 1 >whole
    already='the samples are bytes already, and each value is as it was; 420 bytes written to out'
    tells "$already" whole
    same out whole 'bytes are narrowed to something else'
    { printf '#3409'; tail -c +12 whole; echo; } >short
    tells "$already" short
    same out whole 'bytes under a short header are narrowed to something else'
    patched whole 156 '\177\177\177\177'
    tells "$already" "$folder/damaged"
    same out "$folder/damaged" 'bytes with a great gain are narrowed to something else'
done
"$trace" narrow "$sample" once 2>/dev/null
tells 'the samples are bytes already, and each value is as it was; 477 bytes written to out' once
same out once 'a file that is narrowed twice is another'

# words before the block, and a new line behind it
{ printf 'C1:WF ALL,'; cat "$sample"; echo; } >words
sampled="48 samples narrowed to bytes, 477 bytes written to"
steps="one step of a sample is 3.2 V, and was 0.0125 V"
tells "$sampled out
$steps$loss 3.2 V" words
same out once 'words before the block, or a new line behind it, are narrowed to something else'

# ---- the gain: below 0, 0, the least there is, and the greatest that is taken; its unit

# gains BYTES LINE: the sample with this gain tells so
gains() {
    patched "$sample" 156 "$1"
    tells "$sampled out
$2" "$folder/damaged"
}
gains '\315\314\114\274' "$steps: each value is as it was or higher, by less than 3.2 V"
[ "$("$trace" points out 1 1 | sed -n 7p)" = '1 6 4.0000001402331694e-07 -368.0000054836273 0' ] || wrong "a gain below 0: $("$trace" points out 1 1 | sed -n 7p)"
for zero in '\0\0\0\0' '\0\0\0\200'; do
    gains "$zero" 'the gain is 0: no value changes'
    cmp -s <("$trace" points "$folder/damaged" | cut -d ' ' -f -4) <("$trace" points out | cut -d ' ' -f -4) || wrong 'a gain of 0: other values'
done
gains '\1\0\0\0' "one step of a sample is 3.58732e-43 V, and was 1.4013e-45 V$loss 3.58732e-43 V"
gains '\377\377\177\173' "one step of a sample is 3.40282e+38 V, and was 1.32923e+36 V$loss 3.40282e+38 V"
patched "$sample" 196 '\033[1m\\\0'
tells "$sampled out
one step of a sample is 3.2 \\x1B[1m\\x5C, and was 0.0125 \\x1B[1m\\x5C$loss 3.2 \\x1B[1m\\x5C" "$folder/damaged"

# low bytes that are 0, as words of eight measured bits have them: nothing is lost, in either order
"$trace" cut "$sample" turned 1 0 0 0 hi 2>/dev/null
for file in "$sample" turned; do
    low=$([ "$file" = turned ] && echo 1 || echo 0) zeros=()
    for ((i = 0; i < 48; i++)); do zeros+=($((346 + 24 + 48 + 2 * i + low)) '\0'); done
    patched "$file" "${zeros[@]}"
    cp "$folder/damaged" eight
    tells "$sampled out
$steps; the low byte of each sample was 0: no value changes
new at the rail, array 1: 2 of 48 samples; 0 stood there before" eight
    cmp -s <("$trace" points eight | cut -d ' ' -f -4) <("$trace" points out | cut -d ' ' -f -4) || wrong "$file: low bytes of 0, and other values"
    patched eight $((346 + 24 + 48 + 94 + low)) '\1'
    tells "$sampled out
$steps$loss 3.2 V
new at the rail, array 1: 2 of 48 samples; 0 stood there before" "$folder/damaged"
done

# ---- samples that came to stand at the rail, in each array by itself

$run "$programs/made" 0 1 2 4 0 >one
patched one 60 '\0\0\0\10\0\0\0\10' 116 '\0\0\0\4' 346 '\177\377\177\0\176\377\200\0\200\377\201\0\0\0\177\377'
cp "$folder/damaged" whole
rail=' samples narrowed to bytes, 365 bytes written to out
one step of a sample is 128, and was 0.5: each value is as it was or lower, by less than 128
new at the rail, array'
tells "8$rail 1: 1 of 4 samples; 2 stood there before
new at the rail, array 2: 1 of 4 samples; 1 stood there before" whole
# array 2 alone has low bytes, and samples at the rail
patched whole 346 '\1\0\2\0\3\0\4\0'
tells "8$rail 2: 1 of 4 samples; 1 stood there before" "$folder/damaged"
$run "$programs/made" 1 1 2000 50 1 >sequence
rm out
FAULT=count asked narrow sequence out
[ "$(tail -n 1 "$folder/err")" = '3 questions' ] || wrong "a sequence: $(tail -n 1 "$folder/err") of the whole block, to narrow it"
[ "$(sed -n 3p "$folder/err")" = "$(railed sequence 1 | tail -n 1 | sed 's/100000/100,000/')" ] || wrong "a sequence: $(sed -n 3p "$folder/err"), not $(railed sequence 1)"
rm sequence

# ---- cut and narrow change places; a join of words and bytes says how they become alike

"$trace" cut once - 3 4 1 2 hi 2>/dev/null >after
"$trace" cut "$sample" - 3 4 1 2 hi 2>/dev/null | "$trace" narrow - - 2>/dev/null | cmp -s - after || wrong 'a cut and a narrowing do not change places'
for k in 1 2 3; do "$trace" cut "$sample" "part$k" 1 0 0 "$k" lo 2>/dev/null; done
"$trace" narrow part2 part2.narrow 2>/dev/null
refuses '3 files' 'part2.narrow differs from part1: COMM_TYPE BYTE, not WORD; WAVE_ARRAY_1 16, not 32; VERTICAL_GAIN 3.2, not 0.0125; trace narrow makes bytes of words' part1 part2.narrow part3

# ---- what is refused, and words that are none of narrow's

head -c 400 "$sample" >short
refused 2 'the header says 514 bytes and 389 follow' short narrow short none
refused 1 'it is empty' 'standard input' narrow - none </dev/null
expect 3 'trace: missing: No such file or directory' narrow missing none
usage='trace: narrow takes FILE OUT; trace --help tells how it is called'
expect 2 "$usage" narrow
expect 2 "$usage" narrow "$sample"
expect 2 "$usage" narrow "$sample" none more
expect 2 'trace: --csv is not known to narrow; trace --help tells how it is called' narrow --csv "$sample" none
# what was found decides nothing: the library's number is told, with its own words (messages.sh has what is found)
FAULT=unnarrowed expect 1 "trace: a narrowing of $sample is refused (19): $(awk -F ' [|] ' '$1 == "| 19" { print $3 }' "$folder/table"); $(to_do 19)" narrow "$sample" none
FAULT=unasked expect 1 "trace: a narrowing of $sample is refused (13): a slice lent for the answer is too short; $(to_do 13)" narrow "$sample" none
[ ! -e none ] || wrong 'a refused narrowing was written'

# ---- OUT: never FILE, by whatever name; replaced by -f alone; there whole or as it was

cp "$sample" file
ln file hard
ln -s file soft
for force in '' -f; do
    for name in file ./file hard soft; do
        expect 3 "trace: $name is the file that was read, and is left as it is" narrow $force file "$name"
    done
    expect 3 'trace: file is the file that was read, and is left as it is' narrow $force - file <hard
done
got=0
"$trace" narrow file - >>file 2>"$folder/err" || got=$?
[ "$got $(cat "$folder/err")" = '3 trace: standard output is the file that was read, and is left as it is' ] || wrong "a narrowing to its own file by standard output: $got, $(cat "$folder/err")"
same file "$sample" 'the file that is narrowed was written to'

told="$steps$loss 3.2 V"
cp "$folder/before" old
expect 3 'trace: old is there already: -f replaces it' narrow "$sample" old
patched "$sample" 156 '\0\0\200\173'
asked narrow -f "$folder/damaged" old
[ "$got" = 1 ] || wrong "a gain that is too much: $got"
chmod 444 old
expect 3 'trace: old is read-only, and is left as it is' narrow -f "$sample" old
same old "$folder/before" 'a narrowing that failed wrote to OUT'
chmod 644 old
expect 0 "$sampled old
$told" narrow "$sample" old -f
same old once 'with -f, old does not hold the narrowed file'
expect 0 "$sampled -f
$told" narrow -- "$sample" -f
rm -- -f
expect 0 "$sampled standard output
$told" narrow - - <"$sample"
same "$folder/out" once 'another narrowed file came to standard output'
mkfifo pipe
timeout 60 cat pipe >"$folder/through" 2>/dev/null &
expect 0 "$sampled pipe
$told" narrow "$sample" pipe
wait $!
same "$folder/through" once 'another narrowed file came through the pipe'
expect 3 'trace: /dev/full: No space left on device, after 0 of 477 bytes' narrow "$sample" /dev/full
rm -f out
for word in full flush close; do
    cp "$folder/before" old
    FAULT=$word asked narrow -f "$sample" old
    [ "$got" = 3 ] || wrong "$word: $got"
    same old "$folder/before" "$word lost OUT"
    FAULT=$word asked narrow "$sample" out
    [ "$got" = 3 ] && [ ! -e out ] && [ "$(wc -l <"$folder/err")" = 1 ] || wrong "$word: $got, $(cat "$folder/err")"
done
[ -z "$(ls -A | grep '^\.trace')" ] || wrong "a failing disk left $(ls -A)"
FAULT=meanwhile expect 3 'trace: out: File exists' narrow "$sample" out
same out /dev/null 'what came to be meanwhile was replaced'
cd "$top"
