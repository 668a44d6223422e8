#!/bin/bash
# Shows that code which lets go of a lent part of a region, or of a loan of a heap, does not compile, and that the same
# code compiles and runs if it gives the part or the loan back.
#
#   tests/dropped_loans.sh
#
# Needs rt, proves nothing, and takes some two minutes. The status is 1 if a case fails.
top=$(cd -- "$(dirname -- "$0")/.." && pwd)
folder=$(mktemp -d) || exit 1
trap 'rm -rf -- "$folder"' EXIT
failed=0

cd -- "$folder" || exit 1
for crate in allowance bit_sets heap_model laws_heap laws_store raw_region chunk_format master_table heap_check \
    heap_place heap_compact mem_manager; do
    mkdir -p "crates/$crate"
    cp -r "$top/crates/$crate/src" "crates/$crate/"
    for part in specs proofs; do
        [ ! -d "$top/crates/$crate/$part" ] || cp -r "$top/crates/$crate/$part" "crates/$crate/"
    done
    grep "^$crate:" "$top/crates.txt" >>crates.txt
done
echo 'lends: raw_region chunk_format mem_manager' >>crates.txt
cp "$top/HANDLES" .
mkdir -p crates/lends/src

# part LINE: writes a program that lends a part of a region and then does what LINE says.
part() {
    cat >crates/lends/src/main.rt <<END
//! Lends a part of a region.
#![tactic(auto)]

use raw_region::Region;
use std::alloc::AllocError;

fn main(rt: HostRuntime) -> Result<(), AllocError> {
    let mut region = Region::zeroed(rt.alloc(), 16)?;
    let part = region.lend(8, 3);
    $1
    Ok(())
}
END
}

# loan LINE: writes a program that takes the body of a chunk out and then does what LINE says.
loan() {
    cat >crates/lends/src/main.rt <<END
//! Takes the body of a chunk out.
#![tactic(auto)]

use chunk_format::blank;
use mem_manager::Heap;

fn main(rt: HostRuntime) {
    let Ok(region) = blank(rt.alloc(), 128, 4) else {
        return;
    };
    let Ok(mut heap) = Heap::adopt(region) else {
        return;
    };
    let Ok(name) = heap.ptr_new(8, 1) else {
        return;
    };
    if let Ok(loan) = heap.take_out(name) {
        $1
    }
}
END
}

# tried: runs the program, and keeps what is said.
tried() {
    (cd crates/lends && rt try </dev/null) >said 2>&1
}

# takes WHAT LINE: the program must compile and run.
takes() {
    "$1" "$2"
    if ! tried; then
        echo "a $1 that is given back is refused:"
        cat said
        failed=1
    fi
}

# refuses WHAT TYPE LINE: the program must be refused, because a value of the type is let go.
refuses() {
    "$1" "$3"
    if tried || ! grep -q "error\[linear-value-let-go\]: \`$1\` is let go .* \`$2\` is not \`Drop\`" said; then
        echo "a $1 is let go by: $3"
        cat said
        failed=1
    fi
}

takes part 'region.take_back(8, part);'
refuses part Part 'let _kept = &region;'
refuses part Part 'let _there = part.len();'
takes loan 'heap.put_back(loan);'
refuses loan Loan 'let _there = loan.len();'
refuses loan Loan 'let _name = heap.lent();'
exit $failed
