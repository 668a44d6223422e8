#!/bin/sh
# Files of other programs: each is imported into a blank image, exported again, and read back by the program that
# made it. What it reads has to be the same. docs/FORMAT.md says what may differ byte by byte. Each is also unpacked and
# packed, which gives the same bytes as the export. An exact folder of it gives the file itself back, and `salvage`
# writes its canonical form. Books of calibre are rewritten but not imported.
#
#   tests/peers.sh [PROGRAM]
#
# PROGRAM is the one that `../palmheap --build` builds, if none is given. It needs Debian's packages libpalm-perl and
# libpalm-pdb-perl (Palm::PDB, and modules of it for memos, addresses, dates, tasks and mails), txt2pdbdoc, imgvtopgm
# and calibre. For each file it prints how many bytes there were and are, how many of them differ where both have one,
# and what `palmheap list` says of that. Each case that fails has a line on standard error; the status is 1 then. The
# gate runs none of this.
top=$(cd -- "$(dirname -- "$0")/.." && pwd)
program=${1:-$top/crates/palmheap/out/palmheap}
if [ $# = 0 ]; then
    # proves and builds the program if need be
    "$top/palmheap" --build --keep || exit 125
fi
case $program in /*) ;; *) program=$PWD/$program ;; esac
for needed in perl txt2pdbdoc pgmtoimgv imgvtopnm ebook-convert; do
    command -v "$needed" >/dev/null || { printf '%s is missing\n' "$needed" >&2; exit 2; }
done
perl -MPalm::PDB -MPalm::Memo -MPalm::Address -MPalm::Datebook -MPalm::ToDo -MPalm::Mail -e 1 || exit 2
folder=$(mktemp -d) || exit 1
trap 'rm -rf -- "$folder"' EXIT
cd -- "$folder" || exit 1
failed=0

# is NAME FILE OTHER: two files have the same bytes
is() {
    cmp -s "$2" "$3" && return
    printf '%s: %s and %s differ\n' "$1" "$2" "$3" >&2
    failed=1
}

# rewrite FILE: writes the canonical form. The listing says `canonical` if that has the same bytes as the file
rewrite() {
    "$program" canonical "$1" "$1.form" >printed && "$program" list - <"$1" >listed || failed=1
    case $(tail -n 1 listed) in
        canonical) is "$1" "$1" "$1.form" ;;
        'changes '*) ! cmp -s "$1" "$1.form" || { printf '%s: nothing changes\n' "$1" >&2; failed=1; } ;;
        *) printf '%s: no last line\n' "$1" >&2; failed=1 ;;
    esac
}

# apart FILE: takes a file apart and puts it together again: the same bytes as the export
apart() {
    "$program" unpack "$1" "$1.parts" >printed && "$program" pack "$1.parts" "$1.packed" >printed || failed=1
    is "$1" "$1.packed" "$1.out"
}

# kept FILE: an exact folder gives the file back, and what is salvaged from it is its canonical form
kept() {
    "$program" unpack --exact "$1" "$1.exact" >printed && "$program" pack "$1.exact" "$1.again" >printed || failed=1
    is "$1" "$1" "$1.again"
    "$program" salvage "$1" "$1.salvaged" >printed || failed=1
    is "$1" "$1.form" "$1.salvaged"
}

# tell FILE OTHER: prints how many bytes of a file differ from those of its canonical form
tell() {
    printf '%-12s %8s bytes, %8s written, %s of them others: %s\n' "$1" "$(wc -c <"$1")" "$(wc -c <"$2")" \
        "$(cmp -l "$1" "$2" 2>/dev/null | wc -l)" "$(tail -n 1 listed)"
}

# through FILE: imports a file and exports it, to FILE.out
through() {
    printf 'import d 1\nexport d\n' >calls.txt
    if ! "$program" run blank.img calls.txt after.img "$1" >printed 2>&1 || grep -q refused printed; then
        printf '%s: %s\n' "$1" "$(cat printed)" >&2
        failed=1
    fi
    mv after.img.1 "$1.out" || exit 1
    rewrite "$1"
    is "$1" "$1.out" "$1.form"
    apart "$1"
    kept "$1"
    tell "$1" "$1.out"
}

# Prints all that Palm::PDB reads from a file.
cat >show.pl <<'END'
use strict; use warnings; use Palm::PDB; use Palm::Raw;
Palm::PDB::RegisterPDBHandlers('Palm::Raw', ['', '']);
Palm::PDB::RegisterPRCHandlers('Palm::Raw', ['', '']);
my $pdb = Palm::PDB->new; $pdb->Load($ARGV[0]);
print "$_ ", $pdb->{$_} // '', "\n" for qw(name version ctime mtime baktime modnum type creator);
print "attributes ", join(' ', grep { $pdb->{attributes}{$_} } sort keys %{$pdb->{attributes}}), "\n";
print "$_ ", unpack('H*', $pdb->{$_} // ''), "\n" for qw(appinfo sort);
for my $record (@{$pdb->{records} // []}) {
    my $attributes = join ' ', grep { $record->{attributes}{$_} } sort keys %{$record->{attributes}};
    print "record $record->{id} category ", $record->{category} // '', " $attributes ", unpack('H*', $record->{data} // ''), "\n";
}
print "resource $_->{type} $_->{id} ", unpack('H*', $_->{data}), "\n" for @{$pdb->{resources} // []};
END

# Databases of Palm::PDB's own modules: memos in categories, addresses, dates, tasks, mails, and resources.
cat >make.pl <<'END'
use strict; use warnings; use Palm::PDB; use Palm::Raw;
use Palm::Memo; use Palm::Address; use Palm::Datebook; use Palm::ToDo; use Palm::Mail;
my $memos = Palm::Memo->new; $memos->{name} = 'MemoDB';
for my $number (1 .. 50) {
    my $record = $memos->append_Record;
    $record->{data} = "Memo $number\n" . 'text ' x $number;
    $record->{category} = $number % 5;
}
$memos->Write('memos.pdb');
my $addresses = Palm::Address->new; $addresses->{name} = 'AddressDB';
for my $number (1 .. 20) {
    my $record = $addresses->append_Record;
    $record->{fields}{name} = "Name$number"; $record->{fields}{firstName} = 'First';
    $record->{fields}{phone1} = sprintf '+1 555 %04d', $number;
}
$addresses->Write('people.pdb');
my $dates = Palm::Datebook->new; $dates->{name} = 'DatebookDB';
for my $number (1 .. 30) {
    my $record = $dates->append_Record;
    @$record{qw(year month day description)} = (2026, 1 + $number % 12, 1 + $number % 28, "Date $number");
    @$record{qw(start_hour start_minute end_hour end_minute)} = (9, $number, 10, $number) if $number % 2;
}
$dates->Write('dates.pdb');
my $tasks = Palm::ToDo->new; $tasks->{name} = 'ToDoDB';
for my $number (1 .. 30) {
    my $record = $tasks->append_Record;
    @$record{qw(description priority completed category)} = ("Task $number", 1 + $number % 5, $number % 2, $number % 4);
}
$tasks->Write('tasks.pdb');
my $mails = Palm::Mail->new; $mails->{name} = 'MailDB';
for my $number (1 .. 30) {
    my $record = $mails->append_Record;
    @$record{qw(from to subject body)} = ('anna@example.org', 'ben@example.org', "Mail $number", 'text ' x $number);
}
$mails->Write('mails.pdb');
my $tool = Palm::PDB->new;
$tool->{attributes}{resource} = 1; $tool->{name} = 'Tool'; $tool->{type} = 'appl'; $tool->{creator} = 'Test';
bless $tool, 'Palm::Raw';
for my $number (0 .. 9) {
    my $resource = $tool->append_Resource;
    @$resource{qw(type id data)} = ('code', $number, chr(65 + $number) x (100 * $number));
}
$tool->Write('tool.prc');
END

"$program" new 1048576 1000 blank.img >printed || exit 1
perl make.pl || exit 1
for file in memos.pdb people.pdb dates.pdb tasks.pdb mails.pdb tool.prc; do
    through "$file"
    perl show.pl "$file" >before.txt && perl show.pl "$file.out" >after.txt || failed=1
    grep -Eq '^re(cord|source) ' before.txt || { printf '%s: nothing was read\n' "$file" >&2; failed=1; }
    is "$file" before.txt after.txt
done

# Memos of which one was changed and one is new.
printf 'Buy bread\000' >memos.pdb.parts/00000
printf 'Call Anna\000' >memos.pdb.parts/new
sed 's/^record [0-9a-f]* \([0-9]*\) 00000$/record 03 \1 00000/' memos.pdb.parts/database >text &&
    echo 'record 01 0 new' >>text && mv text memos.pdb.parts/database
"$program" pack memos.pdb.parts changed.pdb >printed || failed=1
perl show.pl changed.pdb | sed -n 's/^record [0-9]* category \([0-9]*\).* \([0-9a-f]*\)$/\1 \2/p' >after.txt || failed=1
perl show.pl memos.pdb | sed -n 's/^record [0-9]* category \([0-9]*\).* \([0-9a-f]*\)$/\1 \2/p' |
    sed '1s/.*/3 42757920627265616400/' >before.txt
echo '1 43616c6c20416e6e6100' >>before.txt
is changed.pdb before.txt after.txt

# A document of compressed text.
perl -e 'print "Line $_ of a text that is long enough for several records.\n" for 1 .. 400' >text.txt
txt2pdbdoc 'A text' text.txt text.pdb || exit 1
through text.pdb
txt2pdbdoc -d text.pdb.out >text.out || failed=1
is text.pdb text.txt text.out

# A picture.
perl -e 'print "P5\n160 160\n255\n"; print chr(85 * (int($_ / 3) % 4)) for 1 .. 160 * 160' >picture.pgm
pgmtoimgv -t Picture picture.pgm picture.pdb 2>complained || { cat complained >&2; exit 1; }
through picture.pdb
imgvtopnm picture.pdb >before.pnm 2>complained || { cat complained >&2; failed=1; }
imgvtopnm picture.pdb.out >after.pnm 2>complained || { cat complained >&2; failed=1; }
is picture.pdb before.pnm after.pnm

# A picture with a note: imgvtopnm can't read it without the bytes before the first block.
echo "A note" >note.txt
pgmtoimgv -t Noted -n note.txt picture.pgm noted.pdb 2>complained || { cat complained >&2; exit 1; }
"$program" unpack --exact noted.pdb noted.parts >printed && "$program" pack noted.parts noted.again >printed || failed=1
is noted.pdb noted.pdb noted.again
imgvtopnm noted.again >after.pnm 2>complained || { cat complained >&2; failed=1; }
is noted.pdb before.pnm after.pnm

# Pictures of noise, which no compression makes shorter, and a text with them.
cat >draw.pl <<'END'
use strict; use warnings; use Compress::Zlib;
sub chunk { my ($kind, $data) = @_; pack 'N a4 a* N', length $data, $kind, $data, crc32($kind . $data) }
srand 1;
for my $number (0 .. 23) {
    my $rows = join '', map { "\0" . join '', map { chr int rand 256 } 1 .. 3 * 520 } 1 .. 520;
    open my $out, '>:raw', "$number.png" or die;
    print $out "\x89PNG\r\n\x1a\n", chunk('IHDR', pack 'NNCCCCC', 520, 520, 8, 2, 0, 0, 0),
        chunk('IDAT', compress($rows)), chunk('IEND', '');
}
print '<html><body>', (map { "<h1>Chapter $_</h1><p>Picture $_</p><img src='$_.png'/>" } 0 .. 23), '</body></html>';
END

# convert MADE: rewrites a book of calibre, which reads the same text from both
convert() {
    rewrite "$1"
    kept "$1"
    tell "$1" "$1.form"
    grep -q '^created .* since 1970$' listed || { printf '%s: no date since 1970\n' "$1" >&2; failed=1; }
    cp "$1.form" "form-$1"
    ebook-convert "$1" before.txt >printed 2>&1 || failed=1
    ebook-convert "form-$1" after.txt >printed 2>&1 || failed=1
    grep -q 'Chapter 12' before.txt || { printf '%s: no text was read\n' "$1" >&2; failed=1; }
    is "$1" before.txt after.txt
}

# Books of calibre: PalmDoc, Mobipocket and KF8, and one of more than 16,777,216 bytes.
perl -e 'print "Chapter $_\n\n", "The quick brown fox jumps over the lazy dog. " x 8, "\n\n" for 1 .. 200' >book.txt
perl draw.pl >pictures.html || exit 1
for made in book.pdb book.mobi book.azw3 pictures.azw3; do
    case $made in book*) from=book.txt ;; *) from=pictures.html ;; esac
    ebook-convert "$from" "$made" >printed 2>&1 || { cat printed >&2; exit 1; }
    convert "$made"
done
[ "$(wc -c <pictures.azw3)" -gt 16777216 ] || { echo 'pictures.azw3: too short to show large files' >&2; failed=1; }

exit "$failed"
