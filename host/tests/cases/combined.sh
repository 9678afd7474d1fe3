# trace combined: the one cut of cuts in a row, in numbers and in words, and the same bytes; what cannot be is refused.

# gives NUMBERS WORDS CUTS..: the one cut of these cuts, on standard output and on standard error
gives() {
    local numbers=$1 words=$2
    shift 2
    asked combined "$@"
    [ "$got" = 0 ] || wrong "trace combined $*: status $got, $(cat "$folder/err")"
    printf '%s\n' "$numbers" | cmp -s - "$folder/out" || wrong "trace combined $* prints $(cat "$folder/out"), not $numbers"
    printf '%s\n' "$words" | cmp -s - "$folder/err" || wrong "trace combined $* says $(cat "$folder/err"), not $words"
}

# cannot STATUS MESSAGE CUTS..: these are refused so, and no number is printed
cannot() {
    local status=$1 message=$2
    shift 2
    expect "$status" "trace: $message" combined "$@"
    [ ! -s "$folder/out" ] || wrong "trace combined $* prints $(cat "$folder/out")"
}

gives '1 16 0 0' 'every point from point 0 on, 16 points, of each segment' 0 0 0 0 16
gives '1 1 0 3' 'every point from point 0 on, 1 point, of segment 3' 1 0 0 3 1
gives '12 5 40 0' 'every 12th point from point 40 on, 5 points, of each segment' 2 0 10 0 41 6 0 15 0 5
gives '6 1 4 0' 'every 6th point from point 4 on, 1 point, of each segment' 3 0 1 0 3 2 0 1 0 1
gives '6 2 5 2' 'every 6th point from point 5 on, 2 points, of segment 2' 2 0 1 0 8 1 5 1 2 5 3 0 1 0 2
gives '1 3 0 4294967295' 'every point from point 0 on, 3 points, of segment 4,294,967,295' 0 3 0 4294967295 3 1 3 0 1 3 0 0 0 0 3
gives '268435455 1 4294967295 0' 'every 268,435,455th point from point 4,294,967,295 on, 1 point, of each segment' 16383 0 4294967295 0 2 16385 0 0 0 1
gives '3 1250 1000000 1200' 'every 3rd point from point 1,000,000 on, 1,250 points, of segment 1,200' 3 0 1000000 1200 1,250
gives '1 4294967295 0 0' 'every point from point 0 on, 4,294,967,295 points, of each segment' 1 0 0 0 4,294,967,295

# which one, in words
while read -r sp words; do
    gives "$sp 2 0 0" "every $words point from point 0 on, 2 points, of each segment" "$sp" 0 0 0 2
done <<'WORDS'
2 2nd
3 3rd
4 4th
10 10th
11 11th
12 12th
13 13th
20 20th
21 21st
22 22nd
23 23rd
101 101st
110 110th
111 111th
112 112th
113 113th
122 122nd
1000 1,000th
1001 1,001st
1011 1,011th
WORDS

# ---- cuts in a row, each with what it said that it kept, and the one cut that these give: the same bytes

rows=0
while IFS='|' read -r shape cuts; do
    $run "$programs/made" $shape >"$folder/whole"
    cp "$folder/whole" "$folder/row"
    told=()
    while read -r sp np fp sn order; do
        asked cut "$folder/row" - "$sp" "$np" "$fp" "$sn" "$order"
        [ "$got" = 0 ] || wrong "a cut of the row $shape: $(cat "$folder/err")"
        cp "$folder/out" "$folder/row"
        told+=("$sp" "$np" "$fp" "$sn" "$(head -n 1 "$folder/err" | cut -d ' ' -f 1)")
        "$trace" cut "$folder/whole" - $("$trace" combined "${told[@]}" 2>/dev/null) "$order" 2>/dev/null | cmp -s - "$folder/row" || wrong "trace combined ${told[*]}: the one cut writes other bytes"
        rows=$((rows + 1))
    done < <(tr ';' '\n' <<<"$cuts")
done <<'ROWS'
0 0 1 3000 0|2 0 10 0 lo;0 1200 7 0 hi;3 0 0 1 hi;1 0 399 0 lo
1 1 4 40 1|1 39 1 0 hi;2 0 0 3 lo;0 15 2 0 lo;3 0 1 1 hi;2 9 0 0 lo;1 0 2 0 hi
0 1 2 7 0|268435455 0 6 2 hi;0 0 0 0 lo;1 1 0 1 lo
1 0 3 9 1|0 0 0 0 lo
ROWS
[ "$rows" = 14 ] || wrong "$rows cuts in rows"

# ---- what is no cut, and what cannot have been made

usage='combined takes SP NP FP SN C for each cut'
cannot 2 "$usage; trace --help tells how it is called"
for words in 1 '1 0 0 0' '1 0 0 0 2 1' '1 0 0 0 2 1 0 0 0'; do
    cannot 2 "$usage, and a count of $(wc -w <<<"$words") is no multiple of five; trace --help tells how it is called" $words
done
cannot 2 '-1 is not a number from 0 to 4294967295' -1 0 0 0 2
cannot 2 '4294967296 is not a number from 0 to 4294967295' 1 4294967296 0 0 2
cannot 2 '1,000 is not a number from 0 to 4294967295' 1 1,000 0 0 2
for count in x 1,25 ,125 1,250, 0,125 4,294,967,296 99999999999999999999999999; do
    cannot 2 "$count is not a number from 0 to 4294967295" 1 0 0 0 "$count"
done
cannot 2 'an empty word is not a number from 0 to 4294967295' 1 0 0 0 ''
cannot 2 '-f is not known to combined; trace --help tells how it is called' -f 1 0 0 0 2
cannot 1 'cut 1 cannot have been made: its C is 0, and a cut keeps at least 1 point' 1 0 0 0 0
cannot 1 'cut 2 cannot have been made: its C is 0, and a cut keeps at least 1 point' 1 0 0 0 5 1 0 5 0 0
cannot 1 'cut 1 cannot have been made: its C is 6, and by its NP it keeps at most 5' 1 5 0 0 6
cannot 1 'cut 2 cannot have been made: its C is 1,001, and by its NP it keeps at most 1,000' 1 0 0 0 2000 1 1000 0 0 1001
cannot 1 'cut 2 cannot have been made: its FP is 16, and cut 1 kept 16 points, from 0 on; is a cut between them missing?' 1 0 0 0 16 1 0 16 0 1
cannot 1 'cut 3 cannot have been made: its FP is 1, and cut 2 kept 1 point, from 0 on; is a cut between them missing?' 1 0 0 0 16 1 1 0 0 1 1 0 1 0 1
cannot 1 'cut 2 cannot have been made: its C is 9, and of the 16 points that cut 1 kept it keeps 8; is a cut between them missing?' 1 0 0 0 16 2 0 0 0 9
cannot 1 'cut 2 cannot have been made: its C is 7, and of the 16 points that cut 1 kept it keeps 8; is a cut between them missing?' 1 0 0 0 16 2 0 0 0 7
cannot 1 'cut 2 cannot have been made: its C is 4, and of the 16 points that cut 1 kept it keeps 5; is a cut between them missing?' 1 0 0 0 16 3 5 2 0 4
cannot 1 'cut 2 cannot have been made: its SN is 2, and the cuts before it kept only segment 3' 1 0 0 3 16 1 0 0 2 16
cannot 1 'cut 4 cannot have been made: its SN is 3, and the cuts before it kept only segment 1' 1 0 0 0 9 1 0 0 1 9 1 0 0 0 9 1 0 0 3 9

# too much, by the library's number: the SP, the FP, and products that 32 bits do not hold
sp_most='and 268,435,455 is the most; such' fp_most='and 4,294,967,295 is the most; such'
cannot 1 "cut 1 is refused (12): with it the one cut has SP 268,435,456, $sp_most a cut cannot have been accepted" 268435456 0 0 0 1
cannot 1 "cut 2 is refused (12): with it the one cut has SP 268,435,456, $sp_most cuts cannot both have been accepted" 16384 0 0 0 9 16384 0 0 0 1
cannot 1 "cut 2 is refused (12): with it the one cut has SP 4,294,967,296, $sp_most cuts cannot both have been accepted" 65536 0 0 0 9 65536 0 0 0 1
cannot 1 "cut 2 is refused (12): with it the one cut has SP 1,152,921,500,043,444,225, $sp_most cuts cannot both have been accepted" 268435455 0 0 0 9 4294967295 0 0 0 1
cannot 1 "cut 3 is refused (12): with it the one cut has SP 400,000,000, $sp_most cuts cannot all have been accepted" 2 0 0 0 9 2 0 0 0 5 100000000 0 0 0 1 1 0 0 0 0
cannot 1 "cut 2 is refused (12): with it the one cut has FP 4,294,967,296, $fp_most cuts cannot both have been accepted" 0 0 4294967295 0 9 1 0 1 0 8
cannot 1 "cut 2 is refused (12): with it the one cut has FP 4,294,967,296, $fp_most cuts cannot both have been accepted" 268435455 0 16 0 90 1 0 16 0 74
cannot 1 "cut 3 is refused (12): with it the one cut has FP 4,294,967,300, $fp_most cuts cannot all have been accepted" 4 0 4294967284 0 9 1 0 2 0 7 1 0 2 0 5

# what was found decides nothing: the library's number is told, with its own words
FAULT=uncombined cannot 1 "cut 1 is refused (12): $(awk -F ' [|] ' '$1 == "| 12" { print $3 }' "$folder/table"); $(to_do 12)" 1 0 0 0 16
FAULT=unasked cannot 1 "cut 1 is refused (13): a slice lent for the answer is too short; $(to_do 13)" 1 0 0 0 16

# standard output that takes no more
got=0
"$trace" combined 1 0 0 0 2 >/dev/full 2>"$folder/err" || got=$?
[ "$got $(cat "$folder/err")" = '3 trace: standard output: No space left on device' ] || wrong "combined to a full disk: $got, $(cat "$folder/err")"
