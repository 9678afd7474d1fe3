# trace draw: every column of a picture held to what points prints, its words and marks, its letters, and OUT kept as by a cut.

draws=$folder/draws
mkdir "$draws"
cd "$draws"

# formed WHAT: the last output is a well-formed document, by itself: no script, no style, nothing that is fetched
formed() {
    $run "$programs/formed" <"$folder/out" >"$folder/judged" || wrong "$1: $(cat "$folder/judged")"
    ! grep -qiE 'href|<script|<style|url\(|@import|<!' "$folder/out" || wrong "$1: it asks for something from elsewhere"
}

# the judge itself finds what is not well-formed
for fault in '<a><b></a></b>' '<a>' '<a/><b/>' '<a x="1" x="2"/>' '<a x=1/>' '<a x="<"/>' '<a>&</a>' '<a>&nbsp;</a>' '<a>\1</a>' '<a>\377</a>' '<a></a>x' 'x' '' '<a x="1"y="2"/>'; do
    ! printf "$fault" | $run "$programs/formed" >/dev/null || wrong "$fault is taken for well-formed"
done
[ "$(printf '<a x="&lt;"><b/>\302\265 &amp; <b>></b></a>\n' | $run "$programs/formed")" = '3 elements' ] || wrong 'a well-formed document is refused'

# columns SIGN WIDTH: what drawn.awk works out of a picture, from what `trace points` prints; the gain has this sign
columns() {
    awk -v sign="$1" -v width="$2" '
        function close_panel(    q, from, to, k, least, greatest, marked, rail, peak, behind) {
            width_now = width < points ? width : points
            for (q = 0; q < width_now; q++) {
                from = int(q * points / width_now); to = int((q + 1) * points / width_now)
                least = greatest = value[from]; marked = 0
                for (k = from; k < to; k++) {
                    if (value[k] < least) least = value[k]
                    if (value[k] > greatest) greatest = value[k]
                    if (mark[k]) marked = 1
                }
                rail += marked
                behind = to < points ? at[to] : at[points - 1]
                print panel, q, least, greatest, (width_now == points || width_now < 720 ? at[from] : (at[from] + behind) / 2)
            }
            for (k = 1; k < points; k++) if (sign * value[k] > sign * value[peak + 0]) peak = k
            print "panel", panel, width_now, rail + 0, (at[0] <= 0 && at[points - 1] >= 0 ? 0 : "none"), (sign ? at[peak + 0] " " value[peak + 0] : "none")
        }
        $1 != segment { if (panel) close_panel(); segment = $1; panel++; points = 0 }
        { at[points] = $3 + 0; value[points] = $4 + 0; mark[points++] = $5 }
        END { close_panel() }'
}

# shows SIGN WIDTH FILE ARRAY [SEGMENT]: the picture of it, in so many columns, shows each of them as it should
shows() {
    local sign=$1 width=$2 file=$3 array=$4 segment=${5:-}
    asked draw "$file" --width "$width" --array "$array" ${segment:+--segment "$segment"}
    [ "$got" = 0 ] && [ ! -s "$folder/err" ] || wrong "trace draw $file: status $got, $(cat "$folder/err")"
    formed "trace draw $*"
    "$trace" points "$file" "$array" $segment | columns "$sign" "$width" >"$folder/expected"
    awk -f "$cases/../drawn.awk" "$folder/out" >"$folder/shown"
    awk '
        function near(one, other, off) { return one == other || (one - other <= off && other - one <= off) }
        NR == FNR { right[$1, $2] = $0; lines++; next }
        { shown[$1, $2] = $0; if ($1 == "panel") { values[$2] = $(NF - 1); times[$2] = $NF } }
        END {
            for (which in right) {
                split(right[which], a, " "); n = split(shown[which], b, " ")
                off = a[1] == "panel" ? values[a[2]] : values[a[1]]
                if (a[1] != "panel") same = near(a[3], b[3], off) && near(a[4], b[4], off) && near(a[5], b[5], times[a[1]])
                else same = a[3] == b[3] && a[4] == b[4] && near(a[5], b[5], times[a[2]]) && near(a[6], b[6], times[a[2]]) && (a[6] == "none" || near(a[7], b[7], off))
                if (!same) { print right[which] " is shown as " shown[which]; exit 1 }
            }
            for (which in shown) lines--
            if (lines != 0) { print "columns or panels are missing, or too many"; exit 1 }
        }' "$folder/expected" "$folder/shown" >"$folder/judged" || wrong "trace draw $*: $(cat "$folder/judged")"
}

# ---- columns: points, lines and steps; both orders and types; sequences, two arrays, gains of either sign, thinned, narrowed

shows 1 960 "$sample" 1
shows 1 960 "$sample" 1 2
shows 1 5 "$sample" 1
for shape in '0 0' '0 1' '1 0' '1 1'; do
    read -r order type <<<"$shape"
    $run "$programs/made" "$order" "$type" 1 3000 0 >one
    for width in 1 2 7 64 719 720 960 2999 3000 9600; do shows 1 "$width" one 1; done
    $run "$programs/made" "$order" "$type" 7 150 1 >sequence
    for width in 40 149 150; do shows 1 "$width" sequence 1; done
    shows 1 100 sequence 1 7
done
$run "$programs/made" 1 0 2 600 1 >sequence
patched sequence 60 '\130\2\0\0\130\2\0\0' 116 '\130\2\0\0'
for array in 1 2; do shows 1 128 "$folder/damaged" "$array"; done
grep -q '; array 2 of 2; 300 points in each segment, drawn in 128 columns</text>' "$folder/out" || wrong 'two arrays: another subtitle'
for gain in '\315\314\114\274' '\1\0\0\200'; do
    patched "$sample" 156 "$gain"
    shows -1 960 "$folder/damaged" 1
    shows -1 3 "$folder/damaged" 1
    grep -q '; least -' "$folder/out" || wrong 'a gain below 0: the peak is not the least value'
done
patched "$sample" 156 '\0\0\0\0'
shows 0 960 "$folder/damaged" 1
patched "$folder/one" "${ris[@]}"
shows 1 960 "$folder/damaged" 1
for file in thin bytes words; do shows 1 960 "$folder/$file" 1; done
$run "$programs/made" 0 1 1 1 0 >point
shows 1 960 point 1
shows 1 1 point 1
# the interval below 0: times run backwards, and the picture does not
$run "$programs/made" 0 0 1 100 0 >one
patched one 176 '\276\200\0\0' 180 '\100\44\0\0\0\0\0\0'
asked draw "$folder/damaged"
[ "$(awk -f "$cases/../drawn.awk" "$folder/out" | awk '$1 == "panel" { print ($5 < 1e-9 && $5 > -1e-9), $3 }')" = '1 100' ] || wrong 'times that run backwards'

# so many columns where none is asked for, and one for each point where these are fewer
for pair in 959:959 960:960 961:960 20000:960; do
    $run "$programs/made" 0 0 1 "${pair%:*}" 0 >one
    asked draw one
    [ "$(awk -f "$cases/../drawn.awk" "$folder/out" | awk '$1 == "panel" { print $3 }')" = "${pair#*:}" ] || wrong "$pair: another number of columns"
done
# however many segments there are, the whole block is asked twice
$run "$programs/made" 1 1 100 40 1 >hundred
FAULT=count asked draw hundred
[ "$(tail -n 1 "$folder/err")" = '2 questions' ] || wrong "a sequence: $(tail -n 1 "$folder/err") of the whole block, for its picture"
[ "$(grep -c '^<g class="panel">$' "$folder/out")" = 100 ] || wrong 'a sequence: other than 100 panels'

# ---- ticks at 1, 2 or 5 times a power of ten, one step apart, and with few letters

# ticks CLASS: the numbers along the times or the values of the first panel
ticks() { awk -v class="$1" '$0 ~ "<g class=\"" class "\"" { on = 1; next } /<\/g>/ { if (on) exit } on { gsub(/<[^>]*>/, ""); print }' "$folder/out"; }

# round WHAT: both axes of the last picture have such ticks
round() {
    local class
    for class in times values; do
        ticks "$class" | awk '
            { if (length($0) > 9) exit bad = 1 }
            NR == 2 { step = $1 - before; for (size = step; size < 0.9999; size *= 10); for (; size > 9.999; size /= 10); if (size !~ /^(1|2|5)(\.0000.*)?$/ && sprintf("%.3f", size) !~ /^(1|2|5)\.000$/) bad = 1 }
            NR >= 2 { off = $1 - before - step; if (off > step / 1000 || off < -step / 1000) bad = 1 }
            { before = $1 }
            END { exit bad || NR < 2 }' || wrong "$1: $class at $(ticks "$class" | xargs)"
    done
}

asked draw "$sample"
[ "$(ticks values | xargs)" = '150 200 250 300 350 400' ] || wrong "the sample's values at $(ticks values | xargs)"
[ "$(ticks times | xargs)" = '-0.5 0.0 0.5 1.0 1.5 2.0' ] || wrong "the sample's times at $(ticks times | xargs)"
round 'the sample'
$run "$programs/made" 0 1 1 700 0 >one
# gains, intervals and horizontal offsets, the high byte first: great, tiny, 0, and far from the trigger
for gain in '\177\177\377\377' '\0\0\0\1' '\0\0\0\0' '\200\0\0\0' '\272\203\22\157' '\106\34\100\0'; do
    for interval in '\177\177\377\377' '\0\0\0\1' '\0\0\0\0' '\60\211\160\137' '\260\211\160\137'; do
        for offset in '\0\0\0\0\0\0\0\0' '\77\360\0\0\0\0\0\0' '\300\131\0\0\0\0\0\0' '\177\357\377\377\377\377\377\377' '\200\0\0\0\0\0\0\1'; do
            patched one 156 "$gain" 176 "$interval" 180 "$offset"
            asked draw "$folder/damaged"
            [ "$got" = 0 ] || wrong "gain $gain, interval $interval, offset $offset: $(cat "$folder/err")"
            formed "gain $gain, interval $interval, offset $offset"
            round "gain $gain, interval $interval, offset $offset"
            ! grep -qE 'nan|inf' "$folder/out" || wrong "gain $gain, interval $interval, offset $offset: $(grep -m 1 -E 'nan|inf' "$folder/out")"
        done
    done
done

# ---- words: title, units, trigger, rail, segments

# says TEXT..: each is a text of the last picture
says() {
    local text
    for text in "$@"; do
        sed 's/<[^>]*>//g' "$folder/out" | grep -qxF -- "$text" || wrong "the picture does not say: $text; but: $(sed 's/<[^>]*>//g' "$folder/out" | grep -E '[a-z]' | xargs -d '\n')"
    done
}

asked draw "$sample"
says BUS 'BUS, LECROYWR64MXI-A, number 21834' 'LECROYWR64MXI-A, number 21834; 16 points in each segment' 'time (µs)' 'value (V)' trigger \
    'segment 1 of 3, 0 s after the first trigger; greatest 409.588 V at 0 µs, mean 340.955 V' \
    'segment 2 of 3, 0.0125 s after the first trigger; greatest 401.85 V at -0.401 µs, mean 318.367 V' \
    'segment 3 of 3, 0.025 s after the first trigger; greatest 401.85 V at -0.402 µs, mean 297.742 V' \
    'at the rail, may be clipped: 2 of 16 samples'
[ "$(grep -c 'at the rail' "$folder/out") $(grep -c 'class="legend" text' "$folder/out")" = '1 1' ] || wrong 'a legend without samples at the rail'
# the means are those of the values
for n in 1 2 3; do
    mean=$("$trace" points "$sample" 1 "$n" | awk '{ sum += $4 } END { printf "%.6g", sum / NR }')
    grep -q "segment $n of 3.*, mean $mean V<" "$folder/out" || wrong "segment $n: another mean than $mean V"
done
"$trace" cut "$sample" two 1 0 0 2 hi 2>/dev/null
asked draw two
says 'segment 2, 0.0125 s after the first trigger; greatest 401.85 V at -0.401 µs, mean 318.367 V' 'LECROYWR64MXI-A, number 21834; 16 points'
asked draw "$example"
says 'label (none)' 'instrument (none); 2 points' time value 'greatest 1.75 at -0.75, mean 0' 'trigger 0.75 behind the last point'
# the trigger before the first point, at it, at the last, and behind it
for offset in '\77\320\0\0\0\0\0\0:trigger 0.25 s before the first point' '\0\0\0\0\0\0\0\0:trigger' '\300\0\0\0\0\0\0\0:trigger' '\300\2\0\0\0\0\0\0:trigger 0.25 s behind the last point'; do
    $run "$programs/made" 0 0 1 9 0 >one
    patched one 180 "${offset%%:*}" 244 S
    asked draw "$folder/damaged"
    says "${offset#*:}"
    [ "$(grep -c 'class="trigger"' "$folder/out")" = $(("$(wc -w <<<"${offset#*:}")" == 1)) ] || wrong "${offset#*:}: another line at the trigger"
done
# units: a prefix before those that take one, else a power of ten; a long one is cut
for pair in A=A HZ=HZ dB=dB 'V*V=V*V' 'ten of them=ten of t..' 'ten of the=ten of the' '\\.=\x5C.'; do
    patched "$sample" 196 "${pair%%=*}\0"
    asked draw "$folder/damaged"
    says "value (${pair#*=})"
done
patched "$sample" 156 '\54\54\54\61' 196 'A\0'
asked draw "$folder/damaged"
says 'value (µA)'
patched "$sample" 156 '\54\54\54\61' 196 'dB\0' 244 'HZ\0'
asked draw "$folder/damaged"
says 'value (1e-6 dB)' 'time (µHZ)'
# texts of the file: letters that mean something in XML, and bytes that are none
patched "$sample" 76 '\200\33[31m<script>\0' 96 '<&>\\"\47]]>\303\244\0' 196 '<&>\0'
asked draw "$folder/damaged"
formed 'texts of the file'
grep -qF '<text x="84" y="30" font-size="18" font-weight="bold">&lt;&amp;&gt;\x5C"'"'"']]&gt;ä</text>' "$folder/out" || wrong "texts of the file: $(grep 'font-size="18"' "$folder/out")"
grep -qF '\x80\x1B[31m&lt;script&gt;, number 21834;' "$folder/out" || wrong "texts of the file: $(grep number "$folder/out")"
grep -qF 'value (&lt;&amp;&gt;)' "$folder/out" || wrong "texts of the file: $(grep 'value (' "$folder/out")"
