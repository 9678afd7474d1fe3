# trace show: the fields by their names, texts, what has no name, and what the arrays hold. README has the sample's.

# line NAME TEXT: the last show has this line
line() {
    local there
    there=$(grep "^$1  *" "$folder/out" | sed "s/^$1  *//")
    [ "$there" = "$2" ] || wrong "show: $1 is $there; not $2"
}

# shown FILE AT BYTES..: show of FILE with these bytes in its payload
shown() {
    patched "$@"
    asked show "$folder/damaged"
    [ "$got" = 0 ] || wrong "show: $(cat "$folder/err")"
}

asked show "$example"
line label '(none)'
line instrument '(none)'
line 'user text' '(none)'
line triggered '(none)'
line 'values in' '(none)'
line 'stated limits' '(none)'
line rate '4 points per unit'
line 'times by' 'horizontal offset, -1'
line 'array 1' 'least -1.75 (point 0), greatest 1.75 (point 1), mean 0'

# texts: valid UTF-8 is shown, what would move the cursor or is no UTF-8 is not, and a label may have no zero byte
shown "$sample" 96 'U\303\244 \316\251 \342\202\254\0xxxxx'
line label 'Uä Ω €'
shown "$sample" 96 '\360\237\224\213\303\050\377\300\257\355\240\200\\\033'
line label '🔋\xC3(\xFF\xC0\xAF\xED\xA0\x80\x5C\x1B'
shown "$sample" 96 '\342\200\256abc\342\200\213\302\205\364\220\200\200\0'
line label '\xE2\x80\xAEabc\xE2\x80\x8B\xC2\x85\xF4\x90\x80\x80'
shown "$sample" 96 'SIXTEEN BYTES ..'
line label 'SIXTEEN BYTES ..'
shown "$sample" 96 '0123456789abcde\303'
line label '0123456789abcde\xC3'
shown "$sample" 346 'two\nlines\t'
line 'user text' 'two\x0Alines\x09e, shutdown x3'
shown "$sample" 356 '\0\0\0\0\0\0\0\0\0\0\0\0\0\0'
line 'user text' 'half bridg'
shown "$sample" 196 '\316\251\0'
line gain '0.0125 Ω'

# the enums, in the low byte first; one that the template does not have
for pair in 1:interleaved 5:complex 8:centered_RIS 9:peak_detect; do
    shown "$sample" 316 "\\$(printf %o "${pair%%:*}")\\0"
    line 'record type' "${pair#*:}"
done
shown "$sample" 316 '\12\0' 318 '\3\0' 326 '\4\0' 334 '\0\0' 344 '\11\0'
line 'record type' '10, which has no name'
line processing sparsed
line coupling 'AC,_1MOhm'
line 'bandwidth limit' off
line source UNKNOWN
shown "$sample" 318 '\10\0' 326 '\377\377' 334 '\2\0' 344 '\4\0'
line processing '8, which has no name'
line coupling '-1, which has no name'
line 'bandwidth limit' '2, which has no name'
line source '4, which has no name'

# a clock that was never set, and one that is damaged
shown "$sample" 296 '\0\0\0\0\0\0\0\0\0\0\1\1\266\7'
line triggered '1974-01-01 00:00:00.000000000'
shown "$sample" 296 '\0\0\0\0\0\300\130\100'
line triggered 'no date: year 2026, month 3, day 14, hour 9, minute 26, second 99'
shown "$sample" 296 '\0\0\0\0\0\0\370\177'
line triggered 'no date: year 2026, month 3, day 14, hour 9, minute 26, second nan'
shown "$sample" 296 '\0\0\0\0\0\0\0\200'
line triggered '2026-03-14 09:26:00.000000000'
shown "$sample" 296 '\377\377\377\377\377\377\115\100'
line triggered 'no date: year 2026, month 3, day 14, hour 9, minute 26, second 60'
for fields in '74 11 30 2 2024' '32 9 14 13 2026' '60 9 14 3 2026' '26 24 14 3 2026' '26 9 0 3 2026' '26 9 29 2 2026'; do
    read -r minute hour day month year <<<"$fields"
    shown "$sample" 304 "$(printf '\\%o\\%o\\%o\\%o\\%o\\%o' "$minute" "$hour" "$day" "$month" $((year % 256)) $((year / 256)))"
    line triggered "no date: year $year, month $month, day $day, hour $hour, minute $minute, second 53.589793"
done
shown "$sample" 304 '\0\27\35\2\350\7'
line triggered '2024-02-29 23:00:53.589793000'

# thinned from point 4 on by 3 as segment 2: the place in the trace buffer, the interval between points, the span
rm -f "$folder/thin"
"$trace" cut "$sample" "$folder/thin" 3 0 4 2 hi 2>/dev/null
asked show "$folder/thin"
line interval '2e-07 S, between points 6e-07 S'
line span '1.8e-06 S, from -9.99991e-10 to 1.799e-06 S'
line rate '1.66667e+06 points per S'
line 'first point F' 4
line 'sparsing S' 3
line 'segment index' 2
line segments 1
line samples 'words, high byte first'
line 'times by' 'trigger time, 0.0125 s after the first trigger'

# RIS; no interval; a falling gain; two arrays
patched "$folder/one" 48 '\0\0\0\0\0\0\0\020' 322 '\0\2'
asked show "$folder/damaged"
line 'times by' 'RIS, offsets of 2 sweeps'
shown "$sample" 176 '\0\0\0\0'
line rate '(none)'
shown "$sample" 156 '\315\314\314\275' 160 '\0\0\200\77'
line gain '-0.1 V'
line offset '1 V'
line 'full range' '-3277.7 to 3275.8 V (samples -32768 to 32767)'
line 'stated limits' '-3277.7 to 3275.8 V (samples -32768 to 32767)'
line 'array 1' 'least -3277.7 V (segment 1, point 4, at the rail), greatest -1001 V (segment 3, point 15), mean -2553.17 V'
shown "$sample" 164 '\0\0\376\106'
line 'stated limits' '-409.6 to 406.4 V (samples -32768 to 32512)'
shown "$sample" 164 '\0\0\300\177' 168 '\0\0\200\377'
line 'stated limits' 'nan to -inf V (samples -inf to nan)'

# the limits of bytes; and beyond these they are of words, from which the bytes were narrowed, whichever way the gain goes
limits=(164 '\0\0\376\102' 168 '\0\0\0\303')
shown "$example" "${limits[@]}"
line 'stated limits' '-64.25 to 63.25 (samples -128 to 127)'
line samples 'bytes, low byte first'
shown "$example" 164 '\0\0\376\106' 168 '\0\0\0\307'
line 'stated limits' '-64.25 to 63.25 (samples -32768 to 32512, as words)'
line samples 'bytes, low byte first; narrowed from words, by the stated limits: each value was as it is or higher, by less than 0.5'
shown "$example" "${limits[@]}" 156 '\0\0\0\277' 164 '\0\0\0\103' 196 V
line 'stated limits' '-0.5 to 0 V (samples -128 to 128, as words)'
line samples 'bytes, low byte first; narrowed from words, by the stated limits: each value was as it is or lower, by less than 0.5 V'
shown "$example" "${limits[@]}" 156 '\0\0\0\200' 168 '\0\0\1\303'
line 'stated limits' '-0.25 to -0.25 (samples -129 to 127, as words)'
line samples 'bytes, low byte first; narrowed from words, by the stated limits'
# limits that are no word's either say nothing
shown "$example" 164 '\0\0\0\107' 168 '\0\0\0\303'
line 'stated limits' '-64.25 to 16383.8 (samples -128 to 32768)'
line samples 'bytes, low byte first'
shown "$example" 164 '\0\0\376\106' 168 '\0\0\300\177'
line samples 'bytes, low byte first'
$run "$programs/made" 1 0 1 4 0 >"$folder/four"
shown "$folder/four" 60 '\2\0\0\0\2\0\0\0' 116 '\2\0\0\0'
line 'array 1' 'least -1.75 (point 0), greatest 1.75 (point 1), mean 0'
line 'array 2' 'least 5.25 (point 0), greatest 8.75 (point 1), mean 7'

# points that are not valid; zeros without a sign; digits
shown "$sample" 128 '\7\0\0\0'
line 'valid points' '0 to 7; least, greatest, mean and samples at the rail are of all 48'
shown "$example" 124 '\1\0\0\0\1\0\0\0' 156 '\0\0\0\200' 160 '\0\0\0\0' 180 '\0\0\0\0\0\0\0\200'
line 'valid points' '1 to 1; least, greatest, mean and samples at the rail are of all 2'
line 'full range' '0 to 0 (samples -128 to 127)'
line 'times by' 'horizontal offset, 0'
asked show --digits 17 "$sample"
line 'array 1' 'least 125.00000186264515 V (segment 3, point 15), greatest 409.58750610332936 V (segment 1, point 4, at the rail), mean 319.02135892045527 V'
asked show "$sample" --digits 2
line 'array 1' 'least 1.3e+02 V (segment 3, point 15), greatest 4.1e+02 V (segment 1, point 4, at the rail), mean 3.2e+02 V'
