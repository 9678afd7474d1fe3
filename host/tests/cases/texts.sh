# What the program says of itself, what README prints, the starter for other machines, and what the makefile says is
# missing.

expect 0 'trace 0.8: reads LECROY_2_3 waveform files' --help
cp "$folder/out" "$folder/help"
for words in 'show --help' 'points --help' 'cross --help' 'draw --help' 'cut --help' 'join --help' 'combined --help' 'narrow --help' '--help show'; do
    asked $words
    [ "$got" = 0 ] || wrong "trace $words: status $got"
    same "$folder/out" "$folder/help" "trace $words says something else"
done
expect 0 'trace 0.8' --version
expect 0 'trace 0.8' --version x
expect 2 'trace: nothing was asked; trace --help tells how it is called'
expect 2 'trace: shw is not known; trace --help tells how it is called' shw "$sample"
expect 2 'trace: an empty word is not known; trace --help tells how it is called' ''
expect 2 'trace: --csv is not known to show; trace --help tells how it is called' show --csv "$sample"

# names that somebody typed are shown as texts of a file are: one line, and no byte that a terminal takes for its own
expect 3 "trace: $folder/no\\x1B[31m\\x0Aname ä: No such file or directory" show "$folder"/no$'\e[31m\nname ä'
expect 2 'trace: \x07 is not known; trace --help tells how it is called' $'\a'
cp "$sample" "$folder"/$'a\rb'
expect 0 "16 points of each segment kept, 525 bytes written to $folder/c\\x0Dd
WFSU SP,1,NP,0,FP,0,SN,0" cut "$folder"/$'a\rb' "$folder"/$'c\rd' 1 0 0 0 lo
printf x >"$folder"/$'a\rb'
refused 1 'no # in its 1 byte' "$folder/a\\x0Db" show "$folder"/$'a\rb'
expect 2 'trace: show takes one FILE; trace --help tells how it is called' show
expect 2 'trace: show takes one FILE; trace --help tells how it is called' show "$sample" "$sample"

# ---- README: its table of refusals is the header's, its commands print what it says, and its sample is what is tested

sed -n '/^| No. | Name |/,/^$/p' README.md | tail -n +3 | sed '/^$/d' >"$folder/rows"
same "$folder/rows" "$folder/table" "README's table of refusals is not the header's: $(diff "$folder/rows" "$folder/table" | head -n 3)"
$run "$programs/sample" | cmp -s - "$sample" || wrong 'host/sample.trc is not what sample.c writes'

# printed COMMAND EXPECTED: a command of README, run from the repository's top, prints what stands below it
commands=0
printed() {
    PATH=$programs:$PATH bash -c "$1" >"$folder/out" 2>&1 || true
    commands=$((commands + 1))
    same "$folder/out" "$2" "README: $1 prints something else: $(diff "$folder/out" "$2" | head -n 3)"
}
command=
: >"$folder/expected"
while IFS= read -r row; do
    if [ "${row#\$ }" != "$row" ] || [ "$row" = '```' ]; then
        [ -z "$command" ] || printed "$command" "$folder/expected"
        command=${row#\$ }
        : >"$folder/expected"
    else
        echo "$row" >>"$folder/expected"
    fi
    [ "$row" != '```' ] || command=
done < <(awk '/^```console$/ { on = 1; next } on; /^```$/ { on = 0 }' README.md)
[ "$commands" -ge 3 ] || wrong "README has $commands commands"
grep -qF "prints \`$($run "$programs/first" <"$sample")\`, the first point of the sample" README.md || wrong 'the first program prints something else than README says'

[ "$($run "$programs/printed" <"$sample")" = 'V
2 of 16 at the rail
at 9.34888e-15 s
from 32000 to 32148
from 28474 to 32767
from 23748 to 27348
from 18800 to 22400
greatest at point 4
every 12th point from point 40, 5 points
every 4th point from point 10
WFSU SP,4,NP,0,FP,10,SN,0
3 segments in 525 bytes
477 bytes' ] || wrong "the lines of the header print $($run "$programs/printed" <"$sample")"
while IFS= read -r row; do
    grep -qF "prints \"$row\"" include/tessarquin.h || wrong "the header does not say that its lines print $row"
done < <($run "$programs/printed" <"$sample" | grep -E '^(every|WFSU)')

# ---- where the machine is not x86-64, `trace` is a script; a link to it starts the same program

mkdir "$folder/started"
cp host/emulated "$folder/started/trace"
program=$programs/trace
[ ! -e "$program.x86-64" ] || program=$program.x86-64
cp "$program" "$folder/started/trace.x86-64"
ln -s started/trace "$folder/linked"
for start in "$folder/started/trace" "$folder/linked"; do
    [ "$(cd / && EMULATOR=${run:-env} "$start" points "$sample" 1 1 | head -n 1)" = '1 0 -8e-07 400.0000059604645 0' ] || wrong "$start does not start"
done

# ---- what is missing is said before anything is installed, by a line that can be read

# needs PATH WORDS..: tools/need with the programs of this path alone
needs() {
    local path=$1
    shift
    got=0
    PATH=$path "$top/tools/need" "$@" >"$folder/out" 2>&1 || got=$?
}
mkdir "$folder/bin"
for program in bash env id mktemp cat rm; do ln -s "$(command -v "$program")" "$folder/bin/$program"; done
needs "$folder/bin" rt:
[ "$got $(cat "$folder/out")" = '1 missing: rt; no package has it, README says what it is' ] || wrong "no kit: $got, $(cat "$folder/out")"
needs "$folder/bin" cat:coreutils gcc:gcc
[ "$got $(cat "$folder/out")" = "1 missing: gcc
install what has it as root, then try again: apt-get update && apt-get install -y gcc" ] || wrong "no apt-get: $got, $(cat "$folder/out")"
needs "$folder/bin" bash: cat:coreutils
[ "$got $(cat "$folder/out")" = '0 ' ] || wrong "nothing is missing: $got, $(cat "$folder/out")"
printf '#!/usr/bin/env bash\necho "$*" >>"%s"\n' "$folder/installed" >"$folder/bin/apt-get"
printf '#!/usr/bin/env bash\necho 0\n' >"$folder/root"
chmod +x "$folder/bin/apt-get" "$folder/root"
mv "$folder/root" "$folder/bin/id"
needs "$folder/bin" gcc:gcc cat:coreutils qemu-x86_64:qemu-user
[ "$got $(cat "$folder/out")" = "0 missing: gcc qemu-x86_64
installing: apt-get update && apt-get install -y gcc qemu-user" ] || wrong "installing: $got, $(cat "$folder/out")"
[ "$(cat "$folder/installed")" = 'update
install -y gcc qemu-user' ] || wrong "installed: $(cat "$folder/installed")"
