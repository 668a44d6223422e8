#!/bin/sh
# Times the import and the export of a database next to the same in plain C: 60,000 records of 238 bytes, a file of
# 14,760,080 bytes, and an image of 16,777,208 bytes with 65,535 slots. The offsets of the file rise, or all IDs are
# equal, or all records begin at one offset. It prints the processor time in nanoseconds, of both programs, and the
# ratio of the best times, Rattle's over C's.
#
# usage: bench/files.sh [ROUNDS [TURNS]]
#
# bench/turns.sh says what a turn is. The script stops if the two programs end with different sums over the lengths
# of files or over the words of images and files. Where perl has Palm::PDB (Debian's package libpalm-pdb-perl) it
# prints how many milliseconds that takes to load such a file and to write it. It needs rt and gcc. The first run in
# a clone proves the crates that it uses.
set -eu

rounds=${1:-5}
turns=${2:-3}
cd "$(dirname "$0")/.."
. bench/turns.sh

build_both files files
print_table "60000 records" . 16777208 65535 60000 238 "$rounds"
perl -MPalm::PDB -e 1 2>/dev/null || exit 0
perl -MPalm::PDB -MPalm::Raw -MTime::HiRes=time -e '
    Palm::PDB::RegisterPDBHandlers("Palm::Raw", ["", ""]);
    my $name = "$ARGV[0]/perl.pdb";
    my $new = Palm::Raw->new;
    @$new{qw(name type creator)} = ("Files", "DATA", "Test");
    for (1 .. 60000) { my $record = $new->append_Record; $record->{data} = "x" x 238; }
    $new->Write($name);
    my $start = time; my $pdb = Palm::PDB->new; $pdb->Load($name);
    my $middle = time; $pdb->Write($name);
    printf "  Palm::PDB: load %d ms, write %d ms\n", ($middle - $start) * 1000, (time() - $middle) * 1000;
' "$work"
