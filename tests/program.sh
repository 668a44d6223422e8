#!/bin/sh
# Runs the program palmheap as a whole, and looks at what no run of test_program can see: the exit status of the process,
# files, links, pipes, folders and devices after a run, if they can be written and if they can't, and little memory.
#
#   tests/program.sh [PROGRAM]
#
# PROGRAM is the one that `../palmheap --build` builds, if none is given. Each case that fails has a line on standard
# error; the status is 1 then. Cases that need no more than files and a runtime are in crates/test_program.
top=$(cd -- "$(dirname -- "$0")/.." && pwd)
program=${1:-$top/crates/palmheap/out/palmheap}
if [ $# = 0 ]; then
    # proves and builds the program if need be
    "$top/palmheap" --build --keep || exit 125
fi
case $program in /*) ;; *) program=$PWD/$program ;; esac
folder=$(mktemp -d) || exit 1
trap 'rm -rf -- "$folder"' EXIT
cd -- "$folder" || exit 1
failed=0

# is NAME WANTED FOUND
is() {
    if [ "$2" != "$3" ]; then
        printf '%s: wanted\n%s\nand there is\n%s\n' "$1" "$2" "$3" >&2
        failed=1
    fi
}

# says NAME STATUS OUTPUT ERRORS WORDS..: runs the program, and looks at all that it answers.
says() {
    name=$1 status=$2 output=$3 errors=$4
    shift 4
    timeout 60 "$program" "$@" >printed 2>complained
    is "$name, status" "$status" "$?"
    is "$name, standard output" "$output" "$(cat printed)"
    is "$name, standard error" "$errors" "$(cat complained)"
    rm printed complained
}

says 'a blank image' 0 ok '' new 128 4 a.img
printf 'freebytes\n' >calls.txt
printf 'frob\n' >faulty.txt
printf 'no heap, and as long as one must be: 64 bytes at the least......' >bad.img

# statuses of images and scripts that are refused, for which nothing is written
says 'check of a refused image' 1 'bad BadMagic' '' check bad.img
says 'run of a refused image' 1 'bad BadMagic' '' run bad.img calls.txt b.img
says 'run of a refused script' 1 'line 1 UnknownCommand' 'faulty.txt:1: frob is unknown here' run a.img faulty.txt b.img
says 'migration of a refused image' 1 'bad BadMagic' '' migrate bad.img b.img
says 'a size that no image has' 2 'bad BadSize' "'palmheap explain BadSize' says what BadSize means" new 127 4 b.img
is 'nothing is written' 'a.img bad.img calls.txt faulty.txt' "$(echo *)"

# a line that was printed, as it is and in quotes, is explained by its first name
for line in 'bad BadMagic' '3 refused 1 InvalidHandle' 'line 1 UnknownCommand' 'changes busy ids'; do
    is "the words of $line" "$("$program" explain "$line")" "$("$program" explain $line)"
done
is 'a refused image' "$("$program" explain BadMagic)" "$("$program" explain 'bad BadMagic')"
is 'a numbered refusal' "$("$program" explain 1)" "$("$program" explain '3 refused 1 InvalidHandle')"

# each name that the completion of explain gives is explained, and each line of zsh's has the same names
names=$(sed -n "s/^ *local names='\(.*\)'\$/\1/p" "$top/share/palmheap.bash")
is 'the names are found' 62 "$(echo $names | wc -w)"
is 'the names in zsh' "    compadd -- $names --help" "$(grep 'compadd -- Already' "$top/share/_palmheap")"
for name in $names; do
    "$program" explain "$name" >/dev/null 2>&1
    is "explain $name, status" 0 "$?"
done

# a word in other bytes than UTF-8
says 'a path in Windows-1252' 2 '' "error: a word of the command line isn't UTF-8" check "$(printf 'caf\351.img')"

# OUT is no input, and a file is replaced as a whole: what else names the old one has the old bytes
cp faulty.txt b.img
chmod 640 b.img
ln b.img old.img
says 'a run over a file' 0 'ok 96' '' run a.img calls.txt b.img
is 'the image is written' '' "$(cmp a.img b.img 2>&1)"
is 'the old file is as it was' frob "$(cat old.img)"
is 'the permissions are kept' -rw-r----- "$(ls -l b.img | cut -c1-10)"
rm old.img

# IMAGE may be OUT, and an image with a chain of tables is written as it is
cp a.img c.img
says 'a migration to its own file' 0 ok '' migrate c.img c.img
says 'its check' 0 "$(printf 'ok size 136 slots 4 movable 0 fixed 0 free 96\ndatabases 0')" '' check c.img
says 'a second migration' 0 ok '' migrate c.img d.img
is 'it changes nothing' '' "$(cmp c.img d.img 2>&1)"
rm c.img d.img

# a link is followed, and a pipe gets the bytes
cp faulty.txt target.img
ln -s target.img link.img
says 'a run over a link' 0 'ok 96' '' run a.img calls.txt link.img
is 'a link stays' target.img "$(readlink link.img)"
is 'its target is replaced' '' "$(cmp a.img target.img 2>&1)"
mkfifo pipe.img
timeout 60 cat pipe.img >piped.img &
says 'a run to a pipe' 0 'ok 96' '' run a.img calls.txt pipe.img
if [ ! -p pipe.img ]; then
    is 'a pipe' stays 'a file'
    kill "$!"
fi
wait
is 'a pipe gets the image' '' "$(cmp a.img piped.img 2>&1)"
is 'no other file is left' 'a.img b.img bad.img calls.txt faulty.txt link.img pipe.img piped.img target.img' \
    "$(echo *)"

# the first output that fails is named
mkdir folder.img
says 'a folder' 3 '' 'fault write
folder.img: Is a directory (os error 21)' new 128 4 folder.img
says 'a run to a folder' 3 'ok 96' 'fault write
folder.img: Is a directory (os error 21)' run a.img calls.txt folder.img
"$program" new 128 4 none/b.img >/dev/full 2>complained
is 'two outputs that fail, status' 3 "$?"
is 'two outputs that fail' 'fault write
none/b.img: No such file or directory (os error 2)' "$(cat complained)"
"$program" run a.img calls.txt c.img >/dev/full 2>complained
is 'standard output that is full, status' 3 "$?"
is 'standard output that is full' 'fault write
standard output: No space left on device (os error 28)' "$(cat complained)"
[ -e c.img ] && is 'an image behind replies that are not taken' none c.img

# a file of which no more is taken leaves the old one, and none next to it
cp faulty.txt b.img
(trap '' XFSZ && ulimit -f 8 && exec "$program" new 65536 4 b.img) >printed 2>complained
is 'a file that is not taken, status' 3 "$?"
is 'a file that is not taken, standard output' '' "$(cat printed)"
is 'a file that is not taken' 'fault write
b.img: File too large (os error 27)' "$(cat complained)"
is 'the old file is there' frob "$(cat b.img)"
[ -e b.img.palmheap-new ] && is 'a file beside' none b.img.palmheap-new

# FILEs are imported, and exported ones go next to OUT, whole or not at all
{
    printf Empty
    head -c 55 /dev/zero
    printf DATATest
    head -c 10 /dev/zero
} >empty.pdb
"$program" new 1024 16 blank.img >printed
printf 'import d 2\nexport d\nexport e\nimport d 3\nexport d\n' >files.txt
printf 'old' >b.img.1
ln b.img.1 old.pdb
says 'files in and out' 0 'ok
ok 80
refused 10 NoSuchDatabase
refused 25 BadFile Truncated
ok 80' 'line 4: there is no FILE 3' run blank.img files.txt b.img calls.txt empty.pdb
{ cat empty.pdb; printf '\000\000'; } >wanted.pdb
is 'the first exported file' '' "$(cmp wanted.pdb b.img.1 2>&1)"
is 'the second exported file' '' "$(cmp wanted.pdb b.img.2 2>&1)"
is 'the old exported file is as it was' old "$(cat old.pdb)"
is 'the exported files' 'b.img.1 b.img.2' "$(echo b.img.*)"
says 'files of an earlier run' 0 'ok 96' "$(printf '%s is from an earlier run\n' b.img.1 b.img.2)" run a.img calls.txt b.img
rm old.pdb b.img.1 b.img.2
mkdir c.img.2
says 'an exported file to a folder' 3 'ok
ok 80
refused 10 NoSuchDatabase
refused 25 BadFile Truncated
ok 80' 'fault write
c.img.2: Is a directory (os error 21)' run blank.img files.txt c.img calls.txt empty.pdb
is 'the exported file in front of one that is not written' '' "$(cmp wanted.pdb c.img.1 2>&1)"
rm -r c.img c.img.1 c.img.2
printf 'import d 1\nexport d\n' >files.txt
ln -s /dev/full c.img.1
says 'an exported file to a full device' 3 'ok
ok 80' 'fault write
c.img.1: No space left on device (os error 28)' run blank.img files.txt c.img empty.pdb
rm c.img c.img.1

# standard input in place of a file, and a file of that name
a_summary=$(printf 'ok size 128 slots 4 movable 0 fixed 0 free 96\ndatabases 0')
says 'an image on standard input' 0 "$a_summary" '' check - <a.img
says 'a script on standard input' 0 'ok 96' '' run a.img - c.img <calls.txt
says 'a file of that name' 0 ok '' new 128 4 ./-
says 'its check' 0 "$a_summary" '' check ./-
says 'a file on standard input in place of an image' 1 'bad BadMagic' \
    "standard input looks like a PDB or PRC file: 'palmheap list -' lists it" check - <empty.pdb
says 'a refused line, and its number' 5 '1 refused 25 BadFile Truncated
2 refused 10 NoSuchDatabase' 'line 1: there is no FILE 1' run --numbers --strict blank.img files.txt c.img
rm c.img ./-

# a damaged file is salvaged, if it has a header
says 'a salvaged file' 0 'ok 80' '' salvage empty.pdb whole.pdb
is 'it is whole' '' "$(cmp wanted.pdb whole.pdb 2>&1)"
head -c 77 empty.pdb >cut.pdb
says 'a file without a header' 1 'bad Truncated
at 77' 'cut.pdb: 77 bytes, and at least 78 are needed' salvage cut.pdb none.pdb
rm cut.pdb whole.pdb

# one block, with nothing before or after it
says 'a block that is not there' 1 '' 'refused 14 IndexOutOfRange
empty.pdb: it has 0 entries, the first is 0' get empty.pdb 0
says 'words that ask for no block' 2 '' "error: 'first' is no block: it is the index of an entry, 'app', 'sort', or the type and the id of a resource" get none.pdb first

# an exact folder, whose file comes back byte for byte
{ cat empty.pdb; printf 'odd'; } >odd.pdb
says 'a file that is unpacked as it stands' 0 'ok 2' '' unpack --exact odd.pdb exact
says 'a file that is packed as it was' 0 'ok 81' '' pack exact odd.packed
cmp odd.pdb odd.packed >&2 || failed=1
rm -r exact odd.pdb odd.packed

# a long file, of which not all is read, has the report that it has when it is read whole
zeros() { head -c "$1" /dev/zero; }
# long FILE APP: a file of 20,000,000 bytes, with the offset of AppInfo in octal escapes
long() {
    {
        printf Named
        zeros 47
        printf "$2"'\0\0\0\0DATATest'
        zeros 8
        printf '\0\1\0\0\0\130\1\0\0\1\0\0'
    } >"$1"
    truncate -s 20000000 "$1"
}
long last.pdb '\001\061\053\354'
{ zeros 2; printf Unfiled; zeros 9; printf Business; } | dd of=last.pdb bs=1 seek=19999724 conv=notrunc 2>/dev/null
long hollow.pdb '\0\0\0\0'
long beyond.pdb '\001\061\055\001'
for file in last.pdb hollow.pdb beyond.pdb; do
    for words in list 'list --json' 'canonical --check' 'canonical --check --keep order'; do
        found=$("$program" $words $file 2>complained; echo $?)
        is "$words $file" "$("$program" $words - <$file 2>complained; echo $?)" "$found"
    done
done
is 'the category is named' 1 "$("$program" list last.pdb 2>complained | grep -c '^category 1 "Business"$')"
says 'a long file with a fault' 1 'bad BadInfo app
at 52' 'beyond.pdb: found 20000001, and 0 or 86 to 20000000 is allowed' canonical --check beyond.pdb
truncate -s 4294967295 hollow.pdb
(ulimit -v 65536 && exec "$program" list hollow.pdb) >printed 2>complained
is 'list of 4 GB with 64 MB of memory' 0 "$?"
rm last.pdb hollow.pdb beyond.pdb printed complained

# several files: each has its report, whatever becomes of the others
mkdir many
cp empty.pdb many/a.pdb
cp empty.pdb many/b.pdb
printf short >many/short.pdb
truncate -s 4294967296 many/long.pdb
mkdir many/folder
says 'several files' 3 '==> many/a.pdb <==
changes filler
==> many/short.pdb <==
bad Truncated
at 5
==> many/b.pdb <==
changes filler' 'fault read
many/none.pdb: No such file or directory (os error 2)
many/short.pdb: 5 bytes, and at least 78 are needed
fault read
many/folder: Is a directory (os error 21)
fault read
many/long.pdb: longer than 4294967295 bytes' \
    canonical --check many/a.pdb many/none.pdb many/short.pdb many/folder many/long.pdb many/b.pdb
says 'one file of two is refused' 1 '{"path":"many/short.pdb","fault":"Truncated","numbers":[],"at":5}' \
    'many/short.pdb: 5 bytes, and at least 78 are needed' list --json --path many/short.pdb

# calls for single files add up to one call for all of them
for words in list 'list --json' 'canonical --check'; do
    for file in many/a.pdb many/short.pdb many/b.pdb; do
        "$program" $words --path "$file" 2>complained
    done >printed
    is "$words of several files" "$(cat printed)" "$("$program" $words many/a.pdb many/short.pdb many/b.pdb 2>complained)"
done
"$program" list many/a.pdb many/b.pdb >/dev/full 2>complained
is 'several files to a full device, status' 3 "$?"
is 'several files to a full device' 'fault write
standard output: No space left on device (os error 28)' "$(cat complained)"
is 'several files, and a pipe that is closed' '==> many/a.pdb <==' "$("$program" list many/a.pdb many/b.pdb many/none.pdb 2>complained | head -n 1)"
rm -r many printed complained

# the bytes of a file are freed before the next one is read: 64 files of 2 MB in 24 MB of memory
{
    printf Large
    head -c 55 /dev/zero
    printf 'DATATest\000\000\000\000\000\000\000\000\000\001\000\000\000\130\000\000\000\001'
    head -c 2000000 /dev/zero
} >large.pdb
paths=
for file in 1 2 3 4 5 6 7 8; do paths="$paths large.pdb large.pdb large.pdb large.pdb large.pdb large.pdb large.pdb large.pdb"; done
is '64 files in 24 MB' 64 "$( (ulimit -v 24576 && exec "$program" canonical --check $paths) 2>&1 | grep -c '^canonical$')"
rm large.pdb

# folders of parts: what is there stays, a part is a file, and what can't be written whole leaves nothing
says 'a file that is unpacked' 0 'ok 1' '' unpack empty.pdb parts
says 'a folder that is there' 3 '' 'fault write
parts: File exists (os error 17)' unpack empty.pdb parts
ln -s nowhere hanging
says 'a link that is there' 3 '' 'fault write
hanging: File exists (os error 17)' unpack empty.pdb hanging
sed 's/app none/app part/' parts/database >text && mv text parts/database
for kind in 'ln -s ../empty.pdb' mkdir mkfifo; do
    $kind parts/part
    says "a part by $kind" 3 '' 'fault read
parts/part: not a file' pack parts out.pdb
    rm -r parts/part
done
says 'a part that is missing' 3 '' 'fault read
parts/part: No such file or directory (os error 2)' pack parts out.pdb
truncate -s 4294967294 parts/part
says 'a part that is too long' 3 '' 'fault read
parts/part: longer than 4294967293 bytes' pack parts out.pdb
is 'nothing is packed' '' "$(ls out.pdb 2>/dev/null)"
(trap '' XFSZ; ulimit -f 0 && exec "$program" unpack empty.pdb full) >printed 2>complained
is 'an unpacked file over a limit leaves nothing' '' "$(ls full 2>/dev/null)"
rm -r parts hanging

# a block that is replaced: the block that is there gives the file back, and a part over the limit is refused
{
    printf Memo
    head -c 56 /dev/zero
    printf 'DATAmemo'
    head -c 9 /dev/zero
    printf '\002\000\000\000\136\100\000\000\001\000\000\000\141\000\000\000\002firsecond'
} >two.pdb
"$program" get two.pdb 0 >first
says 'the block that is there' 0 'ok 103' '' put two.pdb 0 first out.pdb
is 'the block that is there gives the file back' '' "$(cmp two.pdb out.pdb 2>&1)"
printf longer >part
says 'a longer block' 0 'ok 106' '' put two.pdb 0 part out.pdb
is 'the longer block' longer "$("$program" get out.pdb 0)"
is 'the block after it' second "$("$program" get out.pdb 1)"
is 'a block from standard input to standard output' "$(cksum <out.pdb)" "$("$program" put two.pdb 0 - - <part 2>printed | cksum)"
is 'its reply' 'ok 106' "$(cat printed)"

# a file that keeps some things when it is rewritten: with its filler, which has no bytes, it is the same; other lists are refused
says 'a file that keeps its filler' 0 'ok 103
canonical' '' canonical --keep filler two.pdb out.pdb
is 'a file of which nothing changes' '' "$(cmp two.pdb out.pdb 2>&1)"
says 'a file that keeps other things' 0 'ok 105
changes filler' '' canonical --keep ids,order two.pdb out.pdb
is 'a kept file from standard input to standard output' "$(cksum <out.pdb)" "$("$program" canonical --keep order - - <two.pdb 2>printed | cksum)"
is 'its lines' 'ok 105
changes filler' "$(cat printed)"
says 'a file that would keep its filler' 0 canonical '' canonical --check --keep order,filler two.pdb
for list in '' name ids,ids ids, ' ids'; do
    "$program" canonical --keep "$list" two.pdb kept.pdb >printed 2>complained
    is "the list '$list', status" 2 "$?"
    is "the list '$list', standard output" '' "$(cat printed)"
    is "the list '$list', standard error" "error: invalid value '$list' for '--keep <KEEP>'" "$(sed -n '1s/: it must be .*//p' complained)"
done
is 'no file is made' '' "$(ls kept.pdb 2>/dev/null)"

# a file of 17 MB: only commands on images and scripts refuse it
head -c 17000000 /dev/zero >part
says 'a large file' 0 'ok 17000097' '' put two.pdb 1 part large.pdb
is 'a large block' "$(cksum <part)" "$("$program" get large.pdb 1 | cksum)"
is 'its listing' 'ok 17000097' "$("$program" list large.pdb | sed -n 1p)"
says 'a large file that is checked' 0 'changes filler' '' canonical --check large.pdb
says 'a large file that is rewritten' 0 'ok 17000099
changes filler' '' canonical large.pdb out.pdb
is 'its large block' "$(cksum <part)" "$("$program" get out.pdb 1 | cksum)"
says 'a large file that is salvaged' 0 'ok 17000099' '' salvage large.pdb salvaged.pdb
is 'a large file that is salvaged has all of it' '' "$(cmp out.pdb salvaged.pdb 2>&1)"
says 'a large file that is unpacked' 0 'ok 3' '' unpack --exact large.pdb large
says 'a large file that is packed' 0 'ok 17000097' '' pack large out.pdb
is 'a large file that is packed as it was' '' "$(cmp large.pdb out.pdb 2>&1)"
says 'a large file and an image' 3 '' 'fault read
large.pdb: longer than 16777216 bytes' import new.img large.pdb
is 'no image is made' '' "$(ls new.img 2>/dev/null)"
{
    printf '#'
    head -c 16777215 /dev/zero
} >large.txt
"$program" run a.img large.txt out.img >/dev/null 2>complained
is 'a script of the greatest size, status' 0 "$?"
printf '#' >>large.txt
says 'a script that is too long' 3 '' 'fault read
large.txt: longer than 16777216 bytes' run a.img large.txt out.img
rm large.txt out.img
rm -r two.pdb first part out.pdb large large.pdb salvaged.pdb

# a file that a transfer as text has changed: a byte 0d comes before each 0a
{
    printf Note
    head -c 32 /dev/zero
    printf '\n'
    head -c 23 /dev/zero
    printf 'DATATest\000\000\000\001'
    head -c 8 /dev/zero
} >note.pdb
sed '1s/$/\r/' note.pdb >text.pdb
converted='text.pdb: found 16777216, and only 0 is allowed
text.pdb was transferred as text, with a byte 0d before each 0a: '\''perl -pe "s/\r\n/\n/"'\'' undoes it'
says 'a file that was transferred as text' 1 'bad ChainedList
at 72' "$converted" list text.pdb
says 'an image of it' 1 'refused 25 BadFile ChainedList' "text.pdb: refused
$converted" import d.img text.pdb
says 'the file before that' 0 'ok 80
canonical' '' canonical note.pdb text.pdb
rm note.pdb text.pdb

# images of files, and files of images: what is there stays, and what can't be written whole leaves nothing
says 'an image of a file' 0 'ok 128 2
ok' '' import c.img empty.pdb
ln -s empty.pdb link.pdb
for path in empty.pdb link.pdb; do
    says "an image over $path" 3 '' "fault write
$path: looks like a PDB or PRC file, and an image doesn't replace it" import "$path" calls.txt
done
rm link.pdb
says 'a file over an image' 3 '' "fault write
c.img: looks like a heap image, and a PDB or PRC file doesn't replace it" canonical empty.pdb c.img
for path in c.img empty.pdb; do
    says "a picture over $path" 3 '' "fault write
$path: looks like a heap image, or a PDB or PRC file, and a picture doesn't replace it" map c.img "$path"
done
says 'an image that is too small' 1 'refused 8 NotEnoughSpace' 'empty.pdb: refused' import --size 120 d.img empty.pdb
is 'no image is written' '' "$(ls d.img 2>/dev/null)"
says 'a folder of files' 0 'ok 1' '' export c.img files
{ cat empty.pdb; printf '\000\000'; } >wanted.pdb
is 'the file comes back' '' "$(cmp wanted.pdb files/Empty.pdb 2>&1)"
sed '1s/^Empty/Other/' wanted.pdb >other.pdb
says 'an image of two files' 0 'ok 224 3
ok
ok' '' import c.img empty.pdb other.pdb
rm files/Empty.pdb
echo here >files/Other.pdb
says 'a file that is there' 3 '' 'fault write
files/Other.pdb: there is a file of this name, and '\''export'\'' replaces none' export c.img files
is 'no other file is there' Other.pdb "$(ls files)"
is 'the file that was there' here "$(cat files/Other.pdb)"
rm files/Other.pdb
says 'a folder that is there' 0 'ok 1' '' export c.img files Other
is 'the file of a name' '' "$(cmp other.pdb files/Other.pdb 2>&1)"
rm files/Other.pdb
# two names that differ only in case: here is what a file system shows that takes one of them alone
sed '1s/^Empty/EMPTY/' wanted.pdb >upper.pdb
"$program" import cases.img empty.pdb upper.pdb >/dev/null
echo here >files/EMPTY.pdb
says 'a name that differs only in case' 3 '' 'fault write
files/EMPTY.pdb: there is a file of this name, or Empty.pdb if case makes no difference here' export cases.img files
is 'no other file is there after it' EMPTY.pdb "$(ls files)"
rm files/EMPTY.pdb cases.img upper.pdb
says 'a name that no database has' 1 'refused 10 NoSuchDatabase' 'Full: refused' export c.img files Full
(trap '' XFSZ; ulimit -f 0 && exec "$program" export c.img full) >printed 2>complained
is 'an exported file over a limit leaves nothing' '' "$(ls full files 2>/dev/null | grep -v :)"
rm -r c.img files wanted.pdb other.pdb

# another program drives a script: it sends a line, waits for its reply, and sends the next line
mkfifo lines replies
timeout 60 "$program" run a.img - c.img <lines >replies 2>complained &
exec 3>lines 4<replies
printf 'freebytes\n' >&3
read -r reply <&4
is 'the reply to the first line, before the second is sent' 'ok 96' "$reply"
printf '# no call\nnew a 8 1\nsize a\n' >&3
read -r reply <&4
is 'the reply to a line that binds a label' ok "$reply"
read -r reply <&4
is 'the reply to a line with that label' 'ok 8' "$reply"
is 'no image is written before the end' '' "$(ls c.img 2>/dev/null)"
exec 3>&-
wait $!
is 'the status of a run that was driven' 0 $?
exec 4<&-
is 'the image of a run that was driven' 'ok size 128 slots 4 movable 1 fixed 0 free 80
databases 0' "$("$program" check c.img)"
rm lines replies complained c.img

# the lines before a faulty line were run, and no image is written
printf 'freebytes\nfrob\nfreebytes\n' >late.txt
is 'a faulty line after another' 'ok 96
line 2 UnknownCommand' "$("$program" run a.img - c.img <late.txt 2>complained)"
is 'a faulty line after another, explained' 'standard input:2: frob is unknown here' "$(cat complained)"
rm complained
is 'no image after a faulty line' '' "$(ls c.img 2>/dev/null)"
printf '# no call\nfreebytes\n\nsize a' >late.txt
is 'the numbers of lines that run as they come' '2 ok 96
4 refused 1 InvalidHandle' "$("$program" run --numbers a.img - c.img <late.txt)"
rm late.txt c.img

# memory that is refused is told, and nothing else: the more there is, the further a run gets
"$program" new 16777208 4 large.img >printed
told=0
for megabytes in 8 12 16 20 24 28 32 40 48 64 128; do
    (ulimit -v $((megabytes * 1024)) && exec "$program" run large.img calls.txt c.img) >printed 2>complained
    case $? in
        0) is "$megabytes MB of memory" 'ok 16777176' "$(cat printed complained)" ;;
        3) is "$megabytes MB of memory, status" '0 or 4' 3 ;;
        4)
            is "$megabytes MB of memory" 'fault memory' "$(cat printed complained)"
            told=1
            ;;
    esac
done
is 'memory that is refused is told' 1 "$told"

exit "$failed"
