# Every refusal with the numbers that were found: each clause of each rule, told by a file that breaks it alone.

# found NUMBER MESSAGE: the damaged file is refused so
found() { refused "$1" "$2" "$folder/damaged" show "$folder/damaged"; }

# bytes TEXT: a damaged file of these bytes, as printf has them
bytes() { printf "$1" >"$folder/damaged"; }

# ---- the header

bytes ''
found 1 'it is empty'
bytes 'WAVEDESC'
found 1 'no # in its 8 bytes'
head -c 64 /dev/zero | tr '\0' x >"$folder/words"
{ cat "$folder/words"; cat "$example"; } >"$folder/damaged"
found 1 'no # in the first 64 bytes'
{ head -c 63 "$folder/words"; cat "$example"; } >"$folder/damaged"
expect 0 'block            359 bytes' show "$folder/damaged"
bytes '#'
found 1 'it ends with its #'
bytes '#0WAVEDESC'
found 1 'it starts with #0'
bytes 'C1:WF ALL,#0WAVEDESC'
found 1 'behind 10 bytes it goes on with #0'
bytes 'x#'
found 1 'behind 1 byte it ends with its #'
bytes '<style>#3456{}'
found 2 'behind 7 bytes the header says 456 bytes and 2 follow'
bytes 'x'
found 1 'no # in its 1 byte'
bytes '#\033['
found 1 'it starts with #\x1B'
bytes '#9'
found 1 '#9 is followed by nothing, not by 9 digits'
bytes '#61234'
found 1 '#6 is followed by 1234, not by 6 digits'
bytes '#1x'
found 1 '#1 is followed by x, not by 1 digit'
bytes '#900000X348'
found 1 '#9 is followed by 00000X348, not by 9 digits'
bytes '#3345'
found 2 'the header says 345 bytes, and the descriptor alone has 346'
bytes '#9016777217'
found 2 'the header says 16,777,217 bytes, and 16,777,216 are the most'
bytes '#9016777216'
found 2 'the header says 16,777,216 bytes and 0 follow'
$run "$programs/made" 0 0 2 4070 0 | head -c -3 >"$folder/damaged"
found 2 'the header says 8,486 bytes and 8,483 follow'
{ cat "$example"; printf 'x'; } >"$folder/damaged"
found 2 'the header says 348 bytes and 349 follow, the last not a new line but 78'
{ cat "$example"; printf '\n\n'; } >"$folder/damaged"
found 2 'the header says 348 bytes and 350 follow'

# ---- the descriptor of two segments of five words, the high byte first, with trigger times

base=$folder/base
$run "$programs/made" 0 1 2 5 1 >"$base"
expect 0 'block            409 bytes' show "$base"

# broken NUMBER MESSAGE AT BYTES..: the block with these bytes in its payload is refused so
broken() {
    local number=$1 message=$2
    shift 2
    patched "$base" "$@"
    found "$number" "$message"
}

broken 3 'the template is LECROY_2_2' 25 2
broken 3 'the template is LECROY_2_30' 26 0
broken 3 'the template is not named' 16 '\0'
broken 3 'the descriptor is WAVEFORM' 0 WAVEFORM
broken 3 'the descriptor is WAVEDESC\x7F' 8 '\177'
broken 4 'the bytes of COMM_ORDER are 00 01, not 00 00 or 01 00' 34 '\0\1'
broken 4 'the bytes of COMM_ORDER are 02 00, not 00 00 or 01 00' 34 '\2\0'
broken 4 'COMM_TYPE is 7, not 0 or 1' 32 '\0\7'
broken 4 'COMM_TYPE is -1, not 0 or 1' 32 '\377\377'
broken 4 'COMM_TYPE is 256, not 0 or 1, and 1 in the other byte order than COMM_ORDER says' 34 '\1\0'
broken 5 'WAVE_DESCRIPTOR is 345, not 346' 36 '\0\0\1\131'
broken 5 'USER_TEXT is -1' 40 '\377\377\377\377'
broken 5 'RES_DESC1 is 4, not 0' 44 '\0\0\0\4'
broken 5 'RES_ARRAY1 is -4, not 0' 56 '\377\377\377\374'
broken 5 'RES_ARRAY2 is 4, not 0' 68 '\0\0\0\4'
broken 5 'RES_ARRAY3 is 4, not 0' 72 '\0\0\0\4'
broken 5 'the parts have 1,422 bytes and the payload has 398' 40 '\0\0\4\0'
broken 6 'WAVE_ARRAY_COUNT is 0' 116 '\0\0\0\0'
broken 6 'SUBARRAY_COUNT is -1' 144 '\377\377\377\377'
broken 6 '10 points cannot be shared by 3 segments' 144 '\0\0\0\3'
broken 6 'WAVE_ARRAY_1 has 20 bytes, and 12 samples of 2 bytes would have 24' 116 '\0\0\0\014'
broken 6 'WAVE_ARRAY_1 has 20 bytes, and 10 samples of 1 byte would have 10' 32 '\0\0'
broken 6 'WAVE_ARRAY_2 has 2 bytes, and 10 samples of 2 bytes would have 20' 48 '\0\0\0\036' 64 '\0\0\0\2'
broken 6 'TRIGTIME_ARRAY has 16 bytes, and 2 segments of 16 bytes would have 32' 40 '\0\0\0\020' 48 '\0\0\0\020'
broken 6 'RIS_TIME_ARRAY has 32 bytes, and RIS_SWEEPS is 5' 48 '\0\0\0\0\0\0\0\040' 322 '\0\5'
broken 6 'RISTIME stands beside 2 segments' 48 '\0\0\0\0\0\0\0\040' 322 '\0\4'
broken 6 'RISTIME stands beside TRIGTIME' 48 '\0\0\0\020\0\0\0\020' 144 '\0\0\0\1' 322 '\0\2'
broken 6 'SEGMENT_INDEX is -1' 140 '\377\377\377\377'
broken 6 'SEGMENT_INDEX is 2 in a block of 2 segments' 140 '\0\0\0\2'
broken 7 'FIRST_POINT is -1' 132 '\377\377\377\377'
broken 7 'SPARSING_FACTOR is -1' 136 '\377\377\377\377'
broken 7 'SPARSING_FACTOR is 268,435,456' 136 '\020\0\0\0'
broken 7 'FIRST_POINT 268,435,455 and SPARSING_FACTOR 0 put the last of 5 points at 268,435,459' 132 '\017\377\377\377'
broken 8 'VERTICAL_GAIN is infinite' 156 '\177\200\0\0'
broken 8 'VERTICAL_OFFSET is not a number' 160 '\177\300\0\0'
broken 8 'HORIZ_INTERVAL is minus infinity' 176 '\377\200\0\0'
broken 8 'HORIZ_OFFSET is not a number' 180 '\177\370\0\0\0\0\0\0'
broken 8 'TRIGGER_TIME of segment 2 is infinite' 362 '\177\360\0\0\0\0\0\0'
broken 8 'TRIGGER_OFFSET of segment 1 is not a number' 354 '\377\370\0\0\0\0\0\0'
broken 20 'the TRIGGER_TIME of segment 1 is 100, and that of segment 2 is 1' 362 '\077\360\0\0\0\0\0\0'

# two sweeps of RIS in the place of one trigger entry
$run "$programs/made" 0 1 1 12 1 >"$folder/one"
ris=(48 '\0\0\0\0\0\0\0\020' 322 '\0\2')
patched "$folder/one" "${ris[@]}"
expect 0 'block            397 bytes' show "$folder/damaged"
patched "$folder/one" "${ris[@]}" 354 '\177\370\0\0\0\0\0\0'
found 8 'RIS_OFFSET[1] is not a number'

# a damaged sequence, segment 5 before segment 4: 1 in the fifth TRIGGER_TIME, where 500 stood
$run "$programs/made" 0 1 6 4 1 >"$folder/six"
expect 0 'block            501 bytes' show "$folder/six"
patched "$folder/six" $((346 + 4 * 16)) '\077\360\0\0\0\0\0\0'
backwards='the TRIGGER_TIME of segment 4 is 400, and that of segment 5 is 1'
refused 20 "$backwards" "$folder/damaged" show "$folder/damaged"
refused 20 "$backwards" "$folder/damaged" points "$folder/damaged"
refused 20 "$backwards" "$folder/damaged" points "$folder/damaged" 1 1
refused 20 "$backwards" "$folder/damaged" cross "$folder/damaged" inf 3 9
refused 20 "$backwards" "$folder/damaged" draw "$folder/damaged" "$folder/none" --array 3 --segment 9
refused 20 "$backwards" "$folder/damaged" cut "$folder/damaged" "$folder/none" 1 0 0 1 hi
refused 20 "$backwards" "$folder/damaged" narrow "$folder/damaged" "$folder/none"
[ ! -e "$folder/none" ] || wrong 'a refused sequence was drawn, cut or narrowed'
said=$($run "$programs/first" <"$folder/damaged" || true)
[ "$said" = "refused: a TRIGGER_TIME is less than the one before it; $(to_do 20)" ] || wrong "the first program says of a damaged sequence: $said"

# ---- what is asked of a good block

refused 9 'it has 1 array, and array 2 was asked for' "a point of $example" points "$example" 2
refused 9 'it has 1 array, and array 0 was asked for' "a point of $example" points "$example" 0 2
refused 10 'it has 1 segment, and segment 2 was asked for' "a point of $example" points "$example" 1 2
refused 9 'it has 1 array, and array 2 was asked for' "a crossing of $example" cross "$example" 1 2 9
refused 9 'the level is infinite' "a crossing of $example" cross "$example" inf
refused 9 'the level is minus infinity' "a crossing of $example" cross "$example" -inf 1 9
refused 9 'the level is not a number' "a crossing of $example" cross "$example" nan
refused 9 'it has 1 array, and array 0 was asked for, and the level is infinite' "a crossing of $example" cross "$example" inf 0
refused 10 'it has 3 segments, and segment 4 was asked for' "a crossing of $sample" cross "$sample" 1 1 4
refused 10 'it has 3 segments, and segment 0 was asked for' "a crossing of $sample" cross --csv "$sample" 1 1 0
refused 9 'it has 1 array, and array 2 was asked for' "a picture of $example" draw "$example" "$folder/none" --array 2 --segment 9
refused 9 'it has 1 array, and array 0 was asked for' "a picture of $example" draw "$example" --array 0 --text
refused 10 'it has 3 segments, and segment 4 was asked for' "a picture of $sample" draw "$sample" --segment 4
refused 10 'it has 3 segments, and segment 0 was asked for' "a picture of $sample" draw "$sample" "$folder/none" --segment 0 --width 1
[ ! -e "$folder/none" ] || wrong 'a refused picture was written'
refused 10 'it has 3 segments, and segment 0 was asked for' "a point of $sample" points --csv "$sample" 1 0
refused 10 'it has 3 segments, and segment 4 was asked for' "a cut of $sample" cut "$sample" "$folder/none" 1 0 0 4 hi
refused 11 'a segment has 16 points, from 0 on, and point 16 was asked for' "a cut of $sample" cut "$sample" "$folder/none" 1 0 16 0 hi
patched "$example" 136 '\0\341\365\5'
refused 12 'SP 5 and S 100,000,000 are too much together' "a cut of $folder/damaged" cut "$folder/damaged" "$folder/none" 5 0 0 0 hi
[ ! -e "$folder/none" ] || wrong 'a refused cut was written'
patched "$sample" 156 '\0\0\200\173'
refused 19 'VERTICAL_GAIN is 1.329228e+36, and 256 times that is beyond the greatest float' "a narrowing of $folder/damaged" narrow "$folder/damaged" "$folder/none"
patched "$sample" 156 '\377\377\177\377'
refused 19 'VERTICAL_GAIN is -3.4028235e+38, and 256 times that is beyond the greatest float' "a narrowing of $folder/damaged" narrow "$folder/damaged" "$folder/none"
[ ! -e "$folder/none" ] || wrong 'a refused narrowing was written'
