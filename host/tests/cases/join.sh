# trace join: the files' order does not matter, OUT is kept as by a cut, and all that does not fit is told.

parts=$folder/parts
mkdir "$parts" "$folder/joins"
cd "$parts"

# the last line of a join that is refused
unfit() { echo "trace: a join of $1 is refused (16): $(awk -F ' [|] ' '$1 == "| 16" { print $3 }' "$folder/table"); $(to_do 16)"; }

# refuses FILES LINES WORDS..: these are refused by 16 with these lines before the refusal, and nothing is written
refuses() {
    local files=$1 lines=$2
    shift 2
    expect 1 "${lines:+$lines
}$(unfit "$files")" join "$folder/joins/none" "$@"
    [ -z "$(ls -A "$folder/joins")" ] || wrong "a refused join wrote: $(ls -A "$folder/joins")"
}

# part NAME AT BYTES..: the file NAME with these bytes in its payload, as NAME.bad
part() {
    local name=$1
    shift
    patched "$name" "$@"
    mv "$folder/damaged" "$name.bad"
}

# ---- segments of each kind, cut out of a sequence, joined in several orders, and cut out again

for shape in '0 0 4 5 0' '1 0 4 5 1' '0 1 4 5 1' '1 1 4 5 0'; do
    $run "$programs/made" $shape >whole
    order=$([ "${shape%% *}" = 0 ] && echo hi || echo lo)
    for k in 1 2 3 4; do
        rm -f "$k"
        "$trace" cut whole "$k" 1 0 0 "$k" "$order" 2>/dev/null
    done
    "$trace" cut whole - 1 0 0 0 "$order" 2>/dev/null >thinned
    for files in '1 2 3 4' '4 3 2 1' '3 1 4 2' '2 4 1 3'; do
        expect 0 "segment 1  from  1
segment 2  from  2
segment 3  from  3
segment 4  from  4
4 segments of 5 points joined, $(stat -c %s thinned) bytes written to $folder/joins/all" join "$folder/joins/all" $files
        same "$folder/joins/all" thinned "$shape: $files joined are another block than that of all segments"
        rm "$folder/joins/all"
    done
    for k in 1 2 3 4; do
        "$trace" cut thinned - 1 0 0 "$k" "$order" 2>/dev/null | cmp -s - "$k" || wrong "$shape: segment $k of the joined block is another"
    done
done

# two arrays, of words and of bytes: array 2 is the last half of the samples
for shape in '0 1 3 8 1' '1 0 3 8 0'; do
    $run "$programs/made" $shape >whole
    half=$([ "${shape%% *}" = 0 ] && echo '\0\0\0\030' || echo '\014\0\0\0') count=$([ "${shape%% *}" = 0 ] && echo '\0\0\0\014' || echo '\014\0\0\0')
    patched whole 60 "$half" 64 "$half" 116 "$count"
    order=$([ "${shape%% *}" = 0 ] && echo hi || echo lo)
    "$trace" cut "$folder/damaged" - 1 0 0 0 "$order" 2>/dev/null >thinned
    for k in 1 2 3; do
        rm -f "$k"
        "$trace" cut thinned "$k" 1 0 0 "$k" "$order" 2>/dev/null
    done
    asked join - 2 3 1
    [ "$got" = 0 ] || wrong "two arrays: $(cat "$folder/err")"
    same "$folder/out" thinned "$shape: two arrays are joined to another block"
done

# words before a block, one new line behind it, another header, a last sample that is a new line, standard input
for k in 1 2 3; do
    rm -f "$k"
    "$trace" cut "$sample" "$k" 1 0 0 "$k" lo 2>/dev/null
done
"$trace" join "$folder/good3" 1 2 3 2>/dev/null
"$trace" points "$folder/good3" | cmp -s - <("$trace" points "$sample") || wrong 'the joined segments of the sample have other points'
{ printf 'C2:WF ALL,'; cat 1; echo; } >1.words
{ printf '#6%06d' $(($(stat -c %s 2) - 11)); tail -c +12 2; } >2.six
expect 0 "segment 1  from  1.words
segment 2  from  2.six
segment 3  from  standard input
3 segments of 16 points joined, 525 bytes written to standard output" join - - 2.six 1.words <3
same "$folder/out" "$folder/good3" 'words, another header and standard input give another block'
patched 1 $((346 + 24 + 16 + 31)) '\n'
cp "$folder/damaged" 1.ten
{ cat 1.ten; echo; } >1.tens
"$trace" join - 1.ten 2 3 2>/dev/null >ten
"$trace" join - 3 1.tens 2 2>/dev/null | cmp -s - ten || wrong 'a last sample that is a new line is lost'
[ "$(stat -c %s ten)" = 525 ] || wrong "a last sample that is a new line: $(stat -c %s ten) bytes"
expect 2 'trace: - is given twice, and standard input can be read once' join "$folder/joins/none" - - <1
expect 0 "segment 1  from  1
1 segment of 16 points joined, 429 bytes written to -f" join -- -f 1
rm -- -f

# ---- a file that is no block is told as by the other commands

head -c 400 2 >short
refused 2 'the header says 418 bytes and 389 follow' short join "$folder/joins/none" 3 short 1
refused 1 'it is empty' /dev/null join "$folder/joins/none" 1 /dev/null short
{ cat 2; echo; echo; } >lines
refused 2 'the header says 418 bytes and 420 follow' lines join "$folder/joins/none" 1 lines
cat 1 2 >both
refused 2 'the header says 418 bytes and 847 follow' both join "$folder/joins/none" both 3
patched "$folder/six" $((346 + 4 * 16)) '\077\360\0\0\0\0\0\0'
refused 20 "$backwards" "$folder/damaged" join "$folder/joins/none" 1 "$folder/damaged" 1
expect 3 'trace: none: No such file or directory' join "$folder/joins/none" 1 none
expect 2 'trace: join takes OUT FILE..; trace --help tells how it is called' join "$folder/joins/none"
expect 2 'trace: join takes OUT FILE..; trace --help tells how it is called' join
expect 2 'trace: --csv is not known to join; trace --help tells how it is called' join --csv "$folder/joins/none" 1
[ -z "$(ls -A "$folder/joins")" ] || wrong "a bad file was joined: $(ls -A "$folder/joins")"

# ---- what does not fit

refuses '2 files' 'segment 2 is missing' 3 1
refuses '1 file' 'segments 1 to 2 are missing' 3
refuses '3 files' 'segment 2 is in 2 files: 2, 2.six' 1 2 2.six
refuses '5 files' 'segment 1 is missing
segment 2 is in 3 files: 2, 2.six, 2
segment 3 is in 2 files: 3, 3' 2 3 2.six 2 3
refuses '1 file' "$sample has 3 segments: cut out each with its SN, from 1 to 3, and join these" "$sample"
patched 1 140 '\0'
cp "$folder/damaged" zero
zero='zero has segment index 0, so it was not fetched by its number: fetch it again, with SN in WAVEFORM_SETUP'
refuses '1 file' "$zero" zero
refuses '4 files' "$zero
$sample has 3 segments: cut out each with its SN, from 1 to 3, and join these
segments 1 to 2 are missing
segment 3 is in 2 files: 3, 3" 3 zero 3 "$sample"
patched 3 140 '\351\3'
cp "$folder/damaged" high
refuses '3 files' 'segments 3 to 1,000 are missing
high has segment 1,001, and 1,000 segments are the most that a join takes' high 1 2
patched 3 140 '\377\377\377\177'
cp "$folder/damaged" high
refuses '2 files' 'segments 2 to 2,147,483,646 are missing
high has segment 2,147,483,647, and 1,000 segments are the most that a join takes' 1 high

# differs LINE AT BYTES..: the second segment with these bytes in its payload is told apart from the two others so
differs() {
    local line=$1
    shift
    part 2 "$@"
    refuses '3 files' "2.bad differs from 1: $line" 3 2.bad 1
}
differs 'VERTICAL_GAIN 0.5, not 0.0125' 156 '\0\0\0\077'
differs 'INSTRUMENT_NUMBER 1, not 21,834; TRACE_LABEL BUZ, not BUS' 92 '\1\0' 98 Z
differs 'TRACE_LABEL (none), not BUS' 96 '\0'
differs 'TRACE_LABEL BUS, with other bytes behind it' 100 old
differs 'TEMPLATE_NAME LECROY_2_3, with other bytes behind it' 27 old
differs 'the reserved word at 112 1, not 0; SPARSING_FACTOR 0, not 1; SUBARRAY_COUNT 0, not 1' 112 '\1' 136 '\0' 144 '\0'
differs 'MAX_VALUE nan, not 32767; VERTUNIT A, not V; TRIGGER_MINUTES 27, not 26' 164 '\0\0\300\177' 196 A 304 '\033'
differs 'HORIZ_OFFSET -0, not -8e-07; RECORD_TYPE interleaved, not single_sweep; VERT_COUPLING AC,_1MOhm, not DC_1MOhm' 180 '\0\0\0\0\0\0\0\200' 316 '\1' 326 '\4'
differs 'WAVE_SOURCE 77, which has no name, not CHANNEL_2; user text from byte 23 on 4, not 3' 344 '\115' $((346 + 23)) 4
differs 'user text from byte 6 on \x1B[31mown x3, not ridge, shutdown x3' $((346 + 6)) '\033[31mown x3\0\0\0\0\0\0\0\0'
differs 'user text from byte 0 on (none), not half bridge, shutdown x3' 346 '\0\0\0\0\0\0\0\0\0\0\0\0\0\0\0\0\0\0\0\0\0\0\0\0'
part 1 164 '\0\0\300\177'
part 2 164 '\1\0\300\177'
refuses '2 files' '2.bad differs from 1.bad: MAX_VALUE nan, of other bits' 1.bad 2.bad
rm -f 2.hi
"$trace" cut "$sample" 2.hi 1 0 0 2 hi 2>/dev/null
refuses '3 files' '2.hi differs from 1: COMM_ORDER HIFIRST, not LOFIRST; trace cut writes either order' 2.hi 1 3
rm -f 2.fewer
"$trace" cut "$sample" 2.fewer 2 0 1 2 lo 2>/dev/null
refuses '3 files' '2.fewer differs from 1: WAVE_ARRAY_1 16, not 32; WAVE_ARRAY_COUNT 8, not 16; FIRST_POINT 1, not 0; SPARSING_FACTOR 2, not 1' 2.fewer 1 3
# the odd one is told, wherever it is
part 1 156 '\0\0\0\077'
refuses '3 files' '1.bad differs from 2: VERTICAL_GAIN 0.5, not 0.0125' 3 1.bad 2

# each byte of the descriptor counts but for SEGMENT_INDEX: where the block is still good, another byte is told
compared=0
for ((at = 0; at < 346; at++)); do
    patched 1 "$at" '\125'
    if cmp -s "$folder/damaged" 1 || ! "$trace" show "$folder/damaged" >/dev/null 2>&1; then continue; fi
    cp "$folder/damaged" 1.bad
    asked join "$folder/joins/none" 1.bad 2 3
    [ "$got" = 1 ] || wrong "byte $at of the descriptor is another, and the files are joined"
    if ((at < 140 || at > 143)); then
        [ "$(wc -l <"$folder/err")" = 2 ] && grep -q '^1.bad differs from 2: ' "$folder/err" || wrong "byte $at of the descriptor: $(cat "$folder/err")"
    fi
    compared=$((compared + 1))
done
[ "$compared" -gt 200 ] || wrong "$compared bytes of the descriptor were compared"

# trigger times, by index whatever the files' order: equal ones pass, and of those that fall each is told
falls='the TRIGGER_TIME of segment 2 is 1 (2.bad), and that of segment 3 is 0.025 (3): time runs backwards'
part 2 $((346 + 24)) '\0\0\0\0\0\0\360\077'
for files in '1 2.bad 3' '3 2.bad 1' '2.bad 1 3'; do
    refuses '3 files' "$falls" $files
done
part 1 $((346 + 24)) '\0\0\0\0\0\0\0\100'
refuses '3 files' "the TRIGGER_TIME of segment 1 is 2 (1.bad), and that of segment 2 is 1 (2.bad): time runs backwards
$falls" 3 1.bad 2.bad
part 2 $((346 + 24)) "$(od -An -v -tx1 -j $((11 + 346 + 24)) -N 8 3 | sed 's/ /\\x/g')"
asked join - 3 2.bad 1
[ "$got" = 0 ] || wrong "equal trigger times: $(cat "$folder/err")"

# RIS offsets: one segment keeps them, more have none
$run "$programs/made" 0 1 1 12 1 >one
patched one "${ris[@]}" 140 '\0\0\0\1'
cp "$folder/damaged" ris1
asked join - ris1
[ "$got" = 0 ] || wrong "RIS: $(cat "$folder/err")"
patched ris1 140 '\0\0\0\0'
same "$folder/out" "$folder/damaged" 'a segment with RIS offsets is joined to another block'
patched ris1 140 '\0\0\0\2'
cp "$folder/damaged" ris2
refuses '2 files' 'ris1 has RIS offsets, which a block of more than one segment cannot have' ris2 ris1

# the longest, one byte more, and files that are so long that the rest is not read
$run "$programs/made" 0 0 1 8388435 0 >one
patched one 140 '\0\0\0\1'
mv "$folder/damaged" long1
patched one 140 '\0\0\0\2'
mv "$folder/damaged" long2
expect 0 'segment 1  from  long1
segment 2  from  long2
2 segments of 8,388,435 points joined, 16,777,227 bytes written to /dev/null' join /dev/null long2 long1
$run "$programs/made" 0 0 1 8388436 0 >one
patched one 140 '\0\0\0\1'
mv "$folder/damaged" long1
patched one 140 '\0\0\0\2'
mv "$folder/damaged" long2
refuses '2 files' '2 files joined would have a payload of 16,777,218 bytes, and 16,777,216 are the most: cut each with a larger SP' long2 long1
refuses '1,200 files' '1,200 files were given, and 1,000 segments are the most that a join takes
segment 1 is in 3 files: long1, long1, long1
3 files joined would have a payload of 25,165,654 bytes, and 16,777,216 are the most: cut each with a larger SP; the other files were not read' $(yes long1 | head -n 1200)
rm long1 long2 one

# a thousand segments, and one more
$run "$programs/made" 1 1 1001 3 1 >whole
mkdir thousand
for ((k = 1; k <= 1001; k++)); do
    "$trace" cut whole "thousand/$k" 1 0 0 "$k" lo 2>/dev/null
done
asked join - $(ls thousand/* | grep -v 1001)
[ "$got" = 0 ] || wrong "a thousand segments: $(tail -n 1 "$folder/err")"
[ "$(sed -n 7p "$folder/err")" = 'segment     7  from  thousand/7' ] || wrong "a thousand segments: $(sed -n 7p "$folder/err")"
[ "$(tail -n 1 "$folder/err")" = "1,000 segments of 3 points joined, 22,357 bytes written to standard output" ] || wrong "a thousand segments: $(tail -n 1 "$folder/err")"
"$trace" points "$folder/out" >joined
"$trace" points whole | head -n 3000 | cmp -s - joined || wrong 'a thousand segments have other points'
refuses '1,001 files' '1,001 files were given, and 1,000 segments are the most that a join takes
thousand/1001 has segment 1,001, and 1,000 segments are the most that a join takes' $(ls thousand/*)
refused 2 'the header says 418 bytes and 389 follow' short join "$folder/joins/none" $(ls thousand/*) short
rm -r thousand

# what was found decides nothing: the library's number is told, with its own words
FAULT=unjoined refuses '3 files' 'what does not fit was not found' 1 2 3
FAULT=unasked expect 1 "trace: a join of 3 files is refused (13): a slice lent for the answer is too short; $(to_do 13)" join "$folder/joins/none" 1 2 3

# ---- OUT: never a FILE, by whatever name; replaced by -f alone; there whole or as it was

cp 1 file
ln file hard
ln -s file soft
for force in '' -f; do
    for name in file ./file hard soft; do
        expect 3 "trace: $name is one of the files that were read, and is left as it is" join $force "$name" 2 file 3
    done
    expect 3 'trace: file is the file that was read, and is left as it is' join $force file soft
    expect 3 'trace: file is one of the files that were read, and is left as it is' join $force file 2 file
done
got=0
"$trace" join - 2 file 3 >>file 2>"$folder/err" || got=$?
[ "$got $(cat "$folder/err")" = '3 trace: standard output is one of the files that were read, and is left as it is' ] || wrong "a join to one of its files by standard output: $got, $(cat "$folder/err")"
same file 1 'a file that is joined was written to'
# somebody forgot OUT: the first file is taken for it, and told so before the others are judged
expect 3 'trace: 1 is there already: -f replaces it' join 1 2 3
cp "$folder/before" old
expect 3 'trace: old is there already: -f replaces it' join old 1 2 3
refuses '1 file' 'segment 1 is missing' 2
asked join -f old 2
same old "$folder/before" 'a refused join wrote to OUT'
asked join old 1 -f 2 3
[ "$got" = 0 ] || wrong "-f in the middle: $(cat "$folder/err")"
same old "$folder/good3" 'with -f, old does not hold the join'
for word in full flush close; do
    cp "$folder/before" old
    FAULT=$word asked join -f old 1 2 3
    [ "$got" = 3 ] || wrong "$word: $got"
    same old "$folder/before" "$word lost OUT"
    FAULT=$word asked join "$folder/joins/new" 1 2 3
    [ "$got" = 3 ] && [ -z "$(ls -A "$folder/joins")" ] || wrong "$word left $(ls -A "$folder/joins")"
done
FAULT=meanwhile expect 3 "trace: $folder/joins/new: File exists" join "$folder/joins/new" 1 2 3
same "$folder/joins/new" /dev/null 'what came to be meanwhile was replaced'
rm "$folder/joins/new"
cd "$top"
