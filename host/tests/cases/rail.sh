# Samples at the rail: the mark of each point, and what show warns of. README has the sample's.

# at_rail: the lines of the last show on samples at the rail, without their name
at_rail() { grep '^at the rail' "$folder/out" | sed 's/^at the rail  *//'; }

# warns WHAT EXPECTED: these are the lines of the last show
warns() { [ "$(at_rail)" = "$2" ] || wrong "show: $1: $(at_rail); not $2"; }

# how an array's first line ends
means='; these may be clipped: a peak, a mean or a rise time with them means nothing'

# counted FILE ARRAY: the lines that the marks which `trace points` prints come to
counted() {
    "$trace" points "$1" "$2" | awk -v array="$2" -v means="$means" '
        { at[$1] += $5; points[$1]++; all += $5 }
        END {
            for (n = 1; n in points; n++)
                if (at[n] && ++segments <= 10)
                    lines = lines sprintf("array %d, segment %d: %d of %d samples\n", array, n, at[n], points[n])
                else if (at[n])
                    rest += at[n]
            if (!all)
                exit
            printf "array %d: %d of %d samples in %d of %d segments%s\n%s", array, all, NR, segments, n - 1, means, lines
            if (segments > 10)
                printf "array %d, in %d more segment%s: %d of %d samples\n", array, segments - 10, (segments > 11 ? "s" : ""), rest, (segments - 10) * points[1]
        }'
}

# rails ORDER TYPE: the bytes of the lowest number, the one above it, the one below the highest, and the highest
rails() {
    case "$1 $2" in
    '0 0' | '1 0') echo '\200 \201 \176 \177' ;;
    '0 1') echo '\200\0 \200\1 \177\376 \177\377' ;;
    '1 1') echo '\0\200 \1\200 \376\177 \377\177' ;;
    esac
}

for shape in '0 0' '0 1' '1 0' '1 1'; do
    read -r order type <<<"$shape"
    read -r low above below high <<<"$(rails "$order" "$type")"
    width=$((1 + type))

    # one segment: the four numbers as values, times and marks, in lines, in digits and in a table
    $run "$programs/made" "$order" "$type" 1 4 0 >"$folder/four"
    patched "$folder/four" 346 "$low$above$below$high"
    cp "$folder/damaged" "$folder/railed"
    if [ "$type" = 0 ]; then values='-64.25 -63.75 62.75 63.25'; else values='-16384.25 -16383.75 16382.75 16383.25'; fi
    read -r one two three four <<<"$values"
    expect 0 "1 0 -1 $one 1" points "$folder/railed"
    printf '1 0 -1 %s 1\n1 1 -0.75 %s 0\n1 2 -0.5 %s 0\n1 3 -0.25 %s 1\n' "$one" "$two" "$three" "$four" >"$folder/expected"
    same "$folder/out" "$folder/expected" "marks, order $order, type $type: $(cat "$folder/out")"
    expect 0 'segment,point,time,value,at the rail' points --csv "$folder/railed"
    sed 's/ /,/g' "$folder/expected" | cmp -s - <(tail -n +2 "$folder/out") || wrong "marks, order $order, type $type: another table"
    asked points --digits 1 "$folder/railed"
    [ "$(cut -d ' ' -f 5 "$folder/out" | xargs)" = '1 0 0 1' ] || wrong "marks in one digit: $(cat "$folder/out")"
    asked show "$folder/railed"
    warns "both rails, order $order, type $type" "array 1: 2 of 4 samples$means"
    [ "$(grep -A 1 '^array 1 ' "$folder/out" | tail -n 1)" = "$(tail -n 1 "$folder/out")" ] || wrong 'show: the warning stands elsewhere than behind its array'
    asked show --digits 2 "$folder/railed"
    warns "two digits" "array 1: 2 of 4 samples$means"

    # one rail alone, whichever it is and whichever way the gain goes; none at all
    minus=$([ "$order" = 0 ] && echo '\277\0\0\0' || echo '\0\0\0\277')
    for number in "$low" "$high"; do
        patched "$folder/four" 346 "$above$below$number$above"
        asked show "$folder/damaged"
        warns "one rail, order $order, type $type" "array 1: 1 of 4 samples$means"
        patched "$folder/four" 346 "$above$below$number$above" 156 "$minus"
        asked show "$folder/damaged"
        grep -q '^gain  *-0.5$' "$folder/out" || wrong 'show: the gain is not below 0'
        warns "one rail and a gain below 0, order $order, type $type" "array 1: 1 of 4 samples$means"
    done
    patched "$folder/four" 346 "$above$below$above$below"
    asked show "$folder/damaged"
    warns "beside the rails, order $order, type $type" ''

    # 14 segments of 3 points in two arrays: in array 1 in two segments, in array 2 in eleven, then in all
    $run "$programs/made" "$order" "$type" 14 6 1 >"$folder/sequence"
    half=$((42 * width)) first=$((346 + 14 * 16))
    length=$([ "$order" = 0 ] && printf '\\0\\0\\0\\%o' "$half" || printf '\\%o\\0\\0\\0' "$half")
    count=$([ "$order" = 0 ] && echo '\0\0\0\52' || echo '\52\0\0\0')
    patched "$folder/sequence" 60 "$length$length" 116 "$count"
    asked show "$folder/damaged"
    warns "a sequence without, order $order, type $type" ''
    cp "$folder/damaged" "$folder/two"
    patched "$folder/two" $((first + 3 * width)) "$low$above$high" $((first + 40 * width)) "$high"
    cp "$folder/damaged" "$folder/two"
    asked show "$folder/two"
    warns "two segments, order $order, type $type" "array 1: 3 of 42 samples in 2 of 14 segments$means
array 1, segment 2: 2 of 3 samples
array 1, segment 14: 1 of 3 samples"
    for segments in 11 14; do
        places=()
        for ((n = 0; n < segments; n++)); do places+=($((first + half + (3 * n + 1) * width)) "$low"); done
        patched "$folder/two" "${places[@]}" $((first + half)) "$high"
        asked show "$folder/damaged"
        { counted "$folder/damaged" 1; counted "$folder/damaged" 2; } >"$folder/expected"
        warns "$segments segments, order $order, type $type" "$(cat "$folder/expected")"
        [ "$(wc -l <"$folder/expected")" = 15 ] || wrong 'the marks of two arrays come to other lines'
        grep -A 1 '^array 2 ' "$folder/out" | grep -q "^at the rail      array 2: $((segments + 1)) of 42 samples in $segments of 14 segments;" || wrong 'show: the warning stands elsewhere than behind array 2'
    done
    grep -qx 'array 2, segment 1: 2 of 3 samples' <(at_rail) || wrong "show: $(at_rail)"
    grep -qx 'array 2, in 4 more segments: 4 of 12 samples' <(at_rail) || wrong "show: $(at_rail)"

    # a cut keeps the marks, in either order: every second point from the second on of the second segment, and of all
    for sn in 0 2; do
        for into in hi lo; do
            rm -f "$folder/cut"
            "$trace" cut "$folder/damaged" "$folder/cut" 2 0 1 "$sn" "$into" 2>/dev/null
            for array in 1 2; do
                "$trace" points "$folder/damaged" "$array" | awk -v sn="$sn" '$2 % 2 == 1 && (sn == 0 || sn == $1)' | cut -d ' ' -f 3- >"$folder/expected"
                "$trace" points "$folder/cut" "$array" | cut -d ' ' -f 3- | cmp -s - "$folder/expected" || wrong "a cut with SN $sn into $into: other values, times or marks in array $array"
            done
        done
    done
done

# thousands of segments: numbers with commas, and no more lines than for eleven
$run "$programs/made" 1 0 4000 50 1 >"$folder/sequence"
asked show "$folder/sequence"
[ "$(at_rail | wc -l)" = 12 ] || wrong "show: $(at_rail | wc -l) lines for 4,000 segments"
[ "$(at_rail | sed -n '1p;$p')" = "array 1: 1,562 of 200,000 samples in 1,562 of 4,000 segments$means
array 1, in 1,552 more segments: 1,552 of 77,600 samples" ] || wrong "show: $(at_rail | sed -n '1p;$p')"

# README's first program says it of the point it prints
patched "$example" 346 '\200'
[ "$($run "$programs/first" <"$folder/damaged")" = '-64.25 V at -1 s, at the rail' ] || wrong "the first program says: $($run "$programs/first" <"$folder/damaged")"
