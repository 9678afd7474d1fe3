# trace cut: OUT is there whole or as it was, nothing else is left or lost.

cuts=$folder/cuts
mkdir "$cuts"
cd "$cuts"
setup=(2 0 1 0 hi)

# left NAMES..: the folder of the cuts holds these files and no other; it is emptied
left() {
    local there
    there=$(ls -A "$cuts" | xargs)
    [ "$there" = "$*" ] || wrong "the folder holds: $there; not: $*"
    rm -rf "${cuts:?}"/*
}

# written OUT: what the program says of a good cut of the example: the last line is the setup's
written() { printf '%s\n' "1 point of each segment kept, 358 bytes written to $1" 'WFSU SP,2,NP,0,FP,1,SN,0'; }

expect 0 "$(written "$cuts/new")" cut "$example" "$cuts/new" "${setup[@]}"
[ "$(stat -c %a "$cuts/new")" = 640 ] || wrong 'a new file has another mode than the umask gives'
cp "$cuts/new" "$folder/good"
left new
expect 0 '1 0 -0.75 1.75 0' points "$folder/good"
expect 0 "$(written here)" cut "$example" here "${setup[@]}"
same "$cuts/here" "$folder/good" 'a cut to a file of this folder is another'
left here
expect 0 "$(written "$cuts/new")" cut - "$cuts/new" "${setup[@]}" <"$example"
same "$cuts/new" "$folder/good" 'a cut of standard input is another'
left new
expect 0 $'4,000 points of each segment kept, 4,357 bytes written to all\nWFSU SP,0,NP,0,FP,0,SN,0' cut - all 0 0 0 0 lo < <($run "$programs/made" 0 0 1 4000 0)
left all

# a file that is there already, and one that a link leads to
echo before >"$folder/before"
cp "$folder/before" "$cuts/old"
chmod 664 "$cuts/old"
ln -s old "$cuts/link"
for name in old link; do
    expect 3 "trace: $cuts/$name is there already: -f replaces it" cut "$example" "$cuts/$name" "${setup[@]}"
    same "$cuts/old" "$folder/before" "without -f, $name was written to"
done
for name in old link; do
    expect 0 "$(written "$cuts/$name")" cut -f "$example" "$cuts/$name" "${setup[@]}"
    same "$cuts/old" "$folder/good" "with -f, $name does not hold the cut"
    [ "$(stat -c %a "$cuts/old")" = 664 ] || wrong 'a replaced file has another mode'
    [ -L "$cuts/link" ] || wrong 'a link was replaced'
    cp "$folder/before" "$cuts/old"
done
refused 11 'a segment has 2 points, from 0 on, and point 2 was asked for' "a cut of $example" cut -f "$example" "$cuts/old" 1 0 2 0 lo
refused 1 'it is empty' /dev/null cut -f /dev/null "$cuts/old" "${setup[@]}"
usage='trace: cut takes FILE OUT SP NP FP SN hi|lo, or FILE OUT LINE hi|lo with a line in quotes, such as "WFSU SP,4,NP,0,FP,10,SN,0"; trace --help tells how it is called'
expect 2 "$usage" cut -f "$example" "$cuts/old" 1 0 0 0
expect 2 "$usage" cut -f "$example" "$cuts/old" 1 0 0 0 lo more
expect 2 'trace: up is not hi or lo' cut -f "$example" "$cuts/old" 1 0 0 0 up
same "$cuts/old" "$folder/before" 'a refused cut wrote to OUT'
left link old

# a file that is read-only stays, with -f too; options stand anywhere, and behind -- nothing is one
cp "$folder/before" "$cuts/old"
chmod 444 "$cuts/old"
expect 3 "trace: $cuts/old is read-only, and is left as it is" cut -f "$example" "$cuts/old" "${setup[@]}"
same "$cuts/old" "$folder/before" 'a read-only file was written to'
chmod 644 "$cuts/old"
expect 0 "$(written "$cuts/old")" cut "$example" "$cuts/old" -f "${setup[@]}"
same "$cuts/old" "$folder/good" 'with -f in the middle, old does not hold the cut'
expect 2 "$usage" cut "$example" -f "${setup[@]}"
expect 0 "$(written -f)" cut -- "$example" -f "${setup[@]}"
expect 2 'trace: --csv is not known to cut; trace --help tells how it is called' cut --csv "$example" "$cuts/new" "${setup[@]}"
left -f old

# the lines that tell of a cut are no part of it
got=0
"$trace" cut "$example" "$cuts/new" "${setup[@]}" >/dev/full 2>/dev/null || got=$?
[ "$got" = 0 ] || wrong "a cut while standard output is full: $got"
same "$cuts/new" "$folder/good" 'a cut while standard output is full is another'
left new

# OUT that cannot be, or leads nowhere
ln -s nowhere "$cuts/link"
mkdir "$cuts/folder"
for force in '' -f; do
    expect 3 "trace: $cuts/link is a link to a file that is not there" cut $force "$example" "$cuts/link" "${setup[@]}"
    expect 3 "trace: $cuts/folder: Is a directory" cut $force "$example" "$cuts/folder" "${setup[@]}"
    expect 3 "trace: $cuts/none/cut: No such file or directory" cut $force "$example" "$cuts/none/cut" "${setup[@]}"
    expect 3 'trace: : No such file or directory' cut $force "$example" '' "${setup[@]}"
done
left folder link

# OUT that is FILE, by whatever name
cp "$example" "$cuts/file"
ln "$cuts/file" "$cuts/hard"
ln -s file "$cuts/soft"
for force in '' -f; do
    for name in file ./file ../cuts/file hard soft; do
        expect 3 "trace: $cuts/$name is the file that was read, and is left as it is" cut $force "$cuts/file" "$cuts/$name" "${setup[@]}"
    done
    expect 3 "trace: $cuts/file is the file that was read, and is left as it is" cut $force "$cuts/soft" "$cuts/file" "${setup[@]}"
done
got=0
"$trace" cut "$cuts/file" - "${setup[@]}" >>"$cuts/file" 2>"$folder/err" || got=$?
[ "$got $(cat "$folder/err")" = '3 trace: standard output is the file that was read, and is left as it is' ] || wrong "a cut to its own file by standard output: $got, $(cat "$folder/err")"
expect 3 "trace: $cuts/soft is the file that was read, and is left as it is" cut -f - "$cuts/soft" "${setup[@]}" <"$cuts/file"
same "$cuts/file" "$example" 'the file that is cut was written to'
left file hard soft

# what is not a regular file is written to and never removed
mkfifo "$cuts/pipe"
timeout 60 cat "$cuts/pipe" >"$folder/through" 2>/dev/null &
expect 0 "$(written "$cuts/pipe")" cut "$example" "$cuts/pipe" "${setup[@]}"
wait $!
same "$folder/through" "$folder/good" 'another cut came through the pipe'
expect 0 "$(written 'standard output')" cut "$example" - "${setup[@]}"
same "$folder/out" "$folder/good" 'another cut came to standard output'
ln -s /dev/null "$cuts/null"
ln -s /dev/full "$cuts/full"
for force in '' -f; do
    expect 0 "$(written "$cuts/null")" cut $force "$example" "$cuts/null" "${setup[@]}"
    expect 3 "trace: $cuts/full: No space left on device, after 0 of 358 bytes" cut $force "$example" "$cuts/full" "${setup[@]}"
done
[ -p "$cuts/pipe" ] && [ -c "$cuts/null" ] && [ -c "$cuts/full" ] || wrong 'a pipe or a device was removed'
left full null pipe

# a disk holds data, as a file does; only root can make one to try it with
if mknod "$cuts/disk" b 7 255 2>/dev/null; then
    expect 3 "trace: $cuts/disk is there already: -f replaces it" cut "$example" "$cuts/disk" "${setup[@]}"
    left disk
fi

# a full disk: the file may have no more than 1,024 bytes
$run "$programs/made" 1 1 2 1000 1 >"$folder/sequence"
cp "$folder/before" "$cuts/old"
limit=$(ulimit -S -f)
ulimit -S -f 1
for force in '' -f; do
    expect 3 "trace: $cuts/new: File too large" cut $force "$folder/sequence" "$cuts/new" 1 0 0 0 lo
done
expect 3 "trace: $cuts/old: File too large; it is as it was" cut -f "$folder/sequence" "$cuts/old" 1 0 0 0 lo
ulimit -S -f "$limit"
same "$cuts/old" "$folder/before" 'a full disk lost OUT'
left old

# a fault at each step: a new OUT is not there, an old one is as it was
while read -r word why; do
    FAULT=$word expect 3 "trace: $cuts/new: $why" cut "$example" "$cuts/new" "${setup[@]}"
    cp "$folder/before" "$cuts/old"
    FAULT=$word expect 3 "trace: $cuts/old: $why; it is as it was" cut -f "$example" "$cuts/old" "${setup[@]}"
    same "$cuts/old" "$folder/before" "$word lost OUT"
    left old
done <<'FAULTS'
full No space left on device
flush Input/output error
close Input/output error
FAULTS
cp "$folder/before" "$cuts/old"
FAULT=rename expect 3 "trace: $cuts/old: Permission denied; it is as it was" cut -f "$example" "$cuts/old" "${setup[@]}"
same "$cuts/old" "$folder/before" 'rename lost OUT'
left old

# what another program makes meanwhile is not replaced, with -f either; without the safe rename a link serves
for word in meanwhile between; do
    for force in '' -f; do
        FAULT=$word expect 3 "trace: $cuts/new: File exists" cut $force "$example" "$cuts/new" "${setup[@]}"
        same "$cuts/new" /dev/null "$word: OUT was replaced"
        left new
    done
done
for word in links slow; do
    FAULT=$word expect 0 "$(written "$cuts/new")" cut "$example" "$cuts/new" "${setup[@]}"
    same "$cuts/new" "$folder/good" "$word: another cut"
    left new
done
mkfifo "$cuts/pipe"
FAULT=swapped expect 3 "trace: $cuts/pipe: File exists" cut "$example" "$cuts/pipe" "${setup[@]}"
same "$cuts/pipe" /dev/null 'a file that took the place of a pipe was written to'
left pipe
FAULT=interrupt expect 130 '' cut "$example" "$cuts/new" "${setup[@]}"
same "$cuts/new" "$folder/good" 'interrupted: another cut'
left new
cd "$top"
