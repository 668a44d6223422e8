#!/bin/bash
# Times the first call of palmheap in a fresh clone, with nothing kept, and then `palmheap --build`, which proves the
# other commands. Prints their progress with the seconds since the start.
#
# usage: bench/first_call.sh [REVISION]
#
# rt takes over what other copies on the machine have proved, by a folder next to the kit. So this makes a copy of the
# kit by hard links, next to the kit where that is allowed and else in the folder for temporary files, and runs that
# copy's rt. REVISION is what is checked out, HEAD if none is given. Stop all other work on the machine first. It needs
# git, 5 GB of disk, and 20 GB more where the kit can't be linked.
set -eu

cd "$(dirname "$0")/.."
revision=$(git rev-parse --verify "${1:-HEAD}^{commit}")
kit=$(dirname "$(dirname "$(readlink -f "$(command -v rt)")")")
work=$(mktemp -d -p "$(dirname "$kit")" first-call.XXXXXX 2>/dev/null || mktemp -d)
trap 'rm -rf "$work"' EXIT
cp -al "$kit" "$work/rattle" 2>/dev/null || { rm -rf "$work/rattle" && cp -a "$kit" "$work/rattle"; }
git clone -q . "$work/clone"
git -C "$work/clone" checkout -q "$revision"
export PATH="$work/rattle/bin:$PATH"
cd "$work/clone"

echo "$(git log -1 --format='%h %s'), $(rt version), $(nproc) processors"
begin=$SECONDS

# shown WORDS..: runs palmheap, and prints the seconds before each line of it.
shown() {
    ./palmheap "$@" 2>&1 | while IFS= read -r line; do
        printf '%5d s  %s\n' $((SECONDS - begin)) "$line"
    done
}

shown new 128 4 a.img
[ -s a.img ]
echo "the first call took $((SECONDS - begin)) s"
shown --build
[ -x crates/palmheap/out/palmheap ]
echo "the whole program took $((SECONDS - begin)) s"
