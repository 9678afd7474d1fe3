# Files that are good, damaged, empty, too long, not there, no files, under other headers, with words before the #.

expect 0 'block            359 bytes' show "$example"
expect 0 '1 0 -1 -1.75 0' points "$example"
{ printf 'C1:WF ALL,'; cat "$example"; printf '\n'; } >"$folder/words"
expect 0 'block            360 bytes' show "$folder/words"
[ "$(sed -n 2p "$folder/out")" = 'words before it  C1:WF ALL,' ] || wrong "words before the #: $(sed -n 2p "$folder/out")"
expect 2 'trace: -1 is not a number from 0 to 4294967295' points "$example" -1
expect 3 "trace: $folder/none: No such file or directory" show "$folder/none"
expect 3 "trace: $folder: Is a directory" show "$folder"

# standard input, a pipe, a named pipe
"$trace" points "$sample" >"$folder/listed"
expect 0 'block            525 bytes' show - <"$sample"
cat "$sample" | expect 0 "$(head -n 1 "$folder/listed")" points -
same "$folder/out" "$folder/listed" 'a pipe has other points'
refused 1 'it is empty' 'standard input' show - </dev/null
mkfifo "$folder/pipe"
cat "$sample" >"$folder/pipe" &
expect 0 'block            525 bytes' show "$folder/pipe"
wait $!
got=0
"$trace" show - <&- >"$folder/out" 2>"$folder/err" || got=$?
[ "$got $(cat "$folder/err")" = '3 trace: standard input: Bad file descriptor' ] || wrong "no standard input: $got, $(cat "$folder/err")"

for ((n = 0; n < 359; n += 7)); do
    head -c "$n" "$example" >"$folder/damaged"
    survives "$folder/damaged" "the first $n bytes"
    { head -c "$n" "$example"; printf '\377'; tail -c +$((n + 2)) "$example"; } >"$folder/damaged"
    survives "$folder/damaged" "byte $n damaged"
done

# ---- headers of every length: the same answers, and the same cut

under() { # under D FILE: the payload of FILE, a `#9` block, with D digits
    printf '#%d%0*d' "$1" "$1" $(($(stat -c %s "$2") - 11))
    tail -c +12 "$2"
}
for file in "$example" "$sample"; do
    "$trace" show "$file" | tail -n +2 >"$folder/shown"
    "$trace" points --csv "$file" >"$folder/listed"
    for d in 3 4 5 6 7 8 9; do
        under "$d" "$file" >"$folder/short"
        expect 0 "block            $(stat -c %s "$folder/short") bytes" show "$folder/short"
        tail -n +2 "$folder/out" | cmp -s - "$folder/shown" || wrong "#$d shows something else"
        expect 0 "$(head -n 1 "$folder/listed")" points --csv "$folder/short"
        same "$folder/out" "$folder/listed" "#$d has other points"
        for sn in 0 1; do
            rm -f "$folder/cut" "$folder/cut9"
            "$trace" cut "$file" "$folder/cut9" 1 0 0 "$sn" hi 2>/dev/null
            "$trace" cut "$folder/short" "$folder/cut" 1 0 0 "$sn" hi 2>/dev/null
            same "$folder/cut" "$folder/cut9" "#$d is cut to something else"
        done
        [ "$($run "$programs/first" <"$folder/short")" = "$($run "$programs/first" <"$file")" ] || wrong "the first program on #$d"
    done
done
for header in '#0' '#:' '#19' '#299' '#6000347' '#6000349' '#60003480'; do
    { printf '%s' "$header"; tail -c +12 "$example"; } >"$folder/damaged"
    survives "$folder/damaged" "$header"
    [ -s "$folder/err" ] || wrong "$header is taken"
done

# ---- the longest block, and one byte more; README's first program takes it too

{ $run "$programs/made" 1 0 1 16776870 0; echo; } >"$folder/longest"
expect 0 'block            16,777,228 bytes' show "$folder/longest"
[ "$(tail -n 2 "$folder/out")" = 'array 1          least -64.25 (point 165, at the rail), greatest 63.25 (point 238, at the rail), mean -0.499971
at the rail      array 1: 131,069 of 16,776,870 samples; these may be clipped: a peak, a mean or a rise time with them means nothing' ] || wrong "the longest block: $(tail -n 2 "$folder/out")"
[ "$($run "$programs/first" <"$folder/longest")" = '-1.75 V at -1 s' ] || wrong 'the first program refuses the longest block'
[ "$($run "$programs/first" <"$example")" = '-1.75 V at -1 s' ] || wrong 'the first program refuses the example'
echo >>"$folder/longest"
refused 2 'the header says 16,777,216 bytes and 16,777,218 follow' "$folder/longest" show "$folder/longest"
said=$($run "$programs/first" <"$folder/longest" || true)
[ "${said#refused: the length in the header is not that of the data, }" != "$said" ] || wrong "the first program says of more than the longest block: $said"
head -c 20000000 /dev/zero >"$folder/long"
refused 1 'no # in the first 64 bytes' "$folder/long" show "$folder/long"
{ cat "$example"; cat "$folder/long"; } >"$folder/longest"
refused 2 'the header says 348 bytes and at least 16,777,282 follow' "$folder/longest" show "$folder/longest"
printf '#9020000000' | cat - "$folder/long" >"$folder/longest"
refused 2 'the header says 20,000,000 bytes, and 16,777,216 are the most' "$folder/longest" show "$folder/longest"
rm "$folder/longest" "$folder/long"
