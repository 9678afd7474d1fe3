# trace points: every point with its own segment's time, in plain lines and as a table.

# points_of ORDER TYPE SEGMENTS POINTS: what `trace points` prints of that block of `made`
points_of() {
    awk -v order="$1" -v type="$2" -v segments="$3" -v points="$4" '
        function byte(i) { return (253 + 7 * i) % 256 }
        function sample(i,  n) {
            n = type == 0 ? byte(i) : order == 0 ? 256 * byte(2 * i) + byte(2 * i + 1) : byte(2 * i) + 256 * byte(2 * i + 1)
            return type == 0 ? (n > 127 ? n - 256 : n) : (n > 32767 ? n - 65536 : n)
        }
        BEGIN {
            low = type == 0 ? -128 : -32768
            high = -low - 1
            for (n = 1; n <= segments; n++)
                for (k = 0; k < points; k++) {
                    z = sample((n - 1) * points + k)
                    printf "%d %d %.17g %.17g %d\n", n, k, 0.25 * k + n - 1, 0.5 * z - 0.25, z == low || z == high
                }
        }'
}

for shape in '0 0' '0 1' '1 0' '1 1'; do
    read -r order type <<<"$shape"
    $run "$programs/made" "$order" "$type" 2000 50 1 >"$folder/sequence"
    points_of "$order" "$type" 2000 50 >"$folder/expected"
    FAULT=count expect 0 "$(head -n 1 "$folder/expected")" points "$folder/sequence"
    same "$folder/out" "$folder/expected" "a sequence, order $order, type $type: other points"
    [ "$(cat "$folder/err")" = '2 questions' ] || wrong "a sequence: $(cat "$folder/err") of the whole block, for all its points"
    # one more where samples stand at the rail, as bytes do here and words do not
    FAULT=count asked show "$folder/sequence"
    [ "$(cat "$folder/err")" = "$((5 - type)) questions" ] || wrong "a sequence: $(cat "$folder/err") of the whole block, to show it"
    expect 0 "$(grep -m 1 '^777 ' "$folder/expected")" points "$folder/sequence" 1 777
    grep '^777 ' "$folder/expected" >"$folder/one_segment"
    same "$folder/out" "$folder/one_segment" 'one segment of a sequence: other points'
    # the table: the same numbers, and the trigger time of each segment
    expect 0 'segment,point,time,value,trigger time (s),at the rail' points --csv "$folder/sequence"
    sed 's/ /,/g; s/^\([0-9]*\)\(,.*\),\([01]\)$/\1\2,\100,\3/' "$folder/expected" | cmp -s - <(tail -n +2 "$folder/out") || wrong "a sequence, order $order, type $type: another table"
done

# all segments of two arrays are the segments one by one
$run "$programs/made" 1 0 60 4 1 >"$folder/sixty"
patched "$folder/sixty" 60 '\170\0\0\0\170\0\0\0' 116 '\170\0\0\0'
for array in 1 2; do
    for n in {1..60}; do "$trace" points --csv "$folder/damaged" "$array" "$n" | tail -n +2; done >"$folder/expected"
    "$trace" points --csv "$folder/damaged" "$array" | tail -n +2 | cmp -s - "$folder/expected" || wrong "array $array: the segments one by one are others"
done

got=0
"$trace" points "$folder/sequence" >/dev/full 2>"$folder/err" || got=$?
[ "$got $(cat "$folder/err")" = '3 trace: standard output: No space left on device' ] || wrong "points to a full disk: $got, $(cat "$folder/err")"

# digits: by default those that read the same number back, else as many as asked; the options stand anywhere
expect 0 '1 0 -8e-07 400.0000059604645 0' points "$sample" 1 1
expect 0 '1 0 -8e-07 400 0' points --digits 6 "$sample" 1 1
expect 0 '1 0 -8e-07 4e+02 0' points "$sample" --digits 1 1 1
expect 0 '1 0 -7.9999999999999996e-07 400.00000596046448 0' points "$sample" 1 1 --digits 17
expect 0 'segment,point,time (S),value (V),trigger time (s),at the rail' points "$sample" --csv --digits 3
[ "$(sed -n 19p "$folder/out")" = '2,1,-6.01e-07,401,0.0125,0' ] || wrong "three digits: $(sed -n 19p "$folder/out")"
expect 0 'segment,point,time,value,at the rail' points --csv "$example"
for n in 0 18 4294967297 six 3x ''; do
    expect 2 'trace: --digits takes a number from 1 to 17; trace --help tells how it is called' points --digits "$n" "$sample"
done
expect 2 'trace: --digits takes a number from 1 to 17; trace --help tells how it is called' points "$sample" --digits
expect 2 'trace: --cvs is not known to points; trace --help tells how it is called' points --cvs "$sample"
expect 2 'trace: points takes FILE [ARRAY [SEGMENT]]; trace --help tells how it is called' points --csv
expect 2 'trace: points takes FILE [ARRAY [SEGMENT]]; trace --help tells how it is called' points "$sample" 1 1 1
expect 2 'trace: an empty word is not a number from 0 to 4294967295' points "$sample" ''
expect 0 '1 0 -8e-07 400.0000059604645 0' points -- "$sample"
cp "$sample" "$folder/--csv"
(cd "$folder" && "$trace" points -- --csv 1 1 | head -n 1 | grep -qx '1 0 -8e-07 400.0000059604645 0') || wrong 'a file that has the name of an option'

# units with a comma or a quote have their cell in quotes; control bytes are shown by their numbers
patched "$sample" 196 'V, "peak"\0' 244 '\316\274s\n\0'
expect 0 'segment,point,time (μs\x0A),"value (V, ""peak"")",trigger time (s),at the rail' points --csv "$folder/damaged"
patched "$sample" 196 '"\0'
expect 0 'segment,point,time (S),"value ("")",trigger time (s),at the rail' points --csv "$folder/damaged"
