#!/bin/bash
# Tests the Python package: builds it, installs it without a network, and tries it on the library for C.
#
#   tests/python.sh
#
# PALMHEAP_LIBRARY names a shared library; without it, tools/library.sh builds one. PYTHON names the interpreter
# (python3). Runs `mypy --strict`, and the tests in python/tests by pytest and hypothesis. Without one of these it leaves
# out what they run, and says so. The status is 1 if something fails. The gate doesn't run this.
top=$(cd -- "$(dirname -- "$0")/.." && pwd)
python=${PYTHON:-python3}
room=$(mktemp -d) || exit 1
trap 'rm -rf -- "$room"' EXIT

fail() {
    echo "python.sh: $1" >&2
    exit 1
}

if [ -z "$PALMHEAP_LIBRARY" ]; then
    "$top/tools/library.sh" "$room/lib" >"$room/log" 2>&1 || { cat "$room/log"; fail 'the library was not built'; }
    PALMHEAP_LIBRARY=$(readlink -f "$room/lib/lib/libpalmheap.so")
fi
export PALMHEAP_LIBRARY PYTHONDONTWRITEBYTECODE=1

# The same wheel twice, with the library in it or not.
cp -r "$top/python" "$room/source"
(
    cd "$room/source" || exit 1
    for name in one two; do
        mkdir "$room/$name" && "$python" -c 'import sys, build; build.build_wheel(sys.argv[1])' "$room/$name" || exit 1
    done
    cmp "$room"/one/*.whl "$room"/two/*.whl || exit 1
    "$python" -m pip -q install --no-index --target "$room/plain" . || exit 1
    cp "$PALMHEAP_LIBRARY" "palmheap/libpalmheap.so.1"
    "$python" -m pip -q install --no-index --target "$room/whole" .
) || fail 'the package was not installed'
memo='import palmheap, sys; palmheap.write(palmheap.Database(b"Memo", b"DATA", b"memo"), sys.argv[1])'
cd "$room" || exit 1
{
    PYTHONPATH=plain "$python" -c "$memo" memo.pdb && PYTHONPATH=plain "$python" -m palmheap list memo.pdb >plain.txt &&
        env -u PALMHEAP_LIBRARY PYTHONPATH=whole "$python" -m palmheap list memo.pdb >whole.txt &&
        cmp plain.txt whole.txt
} || fail 'the installed package does not list a file'
PALMHEAP_LIBRARY=none PYTHONPATH=plain "$python" -m palmheap list memo.pdb 2>"$room/log" &&
    fail 'a library that is not there is found'
grep -q LibraryNotFound "$room/log" || fail 'a library that is not found is not named'

# 9,999 files on all processors: every third is cut.
"$python" - memo.pdb "$room/many" <<'END' || fail 'no files were made'
import os, sys
with open(sys.argv[1], "rb") as it:
    file = it.read()
os.mkdir(sys.argv[2])
for index in range(9999):
    with open(f"{sys.argv[2]}/{index}.pdb", "wb") as it:
        it.write(file if index % 3 else file[:77])
END
PYTHONPATH=plain "$python" "$top/examples/python/count_faults.py" "$room/many" >"$room/counts"
printf '3333 TRUNCATED\n6666 ok\n' | diff - "$room/counts" || fail 'the faults of many files are not counted'

if "$python" -c 'import mypy' 2>/dev/null; then
    (cd "$top/python" && "$python" -m mypy --strict --cache-dir "$room/mypy" palmheap) || fail 'mypy finds an error'
else
    echo 'not run: mypy'
fi
if "$python" -c 'import pytest' 2>/dev/null; then
    cp -r "$top/include" "$top/tools" "$top/docs" "$top/python" "$room/" || exit 1
    PALMHEAP_INSTALLED=1 PYTHONPATH=$room/plain "$python" -m pytest -q -p no:cacheprovider python/tests ||
        fail 'a test failed'
    "$python" -c 'import hypothesis' 2>/dev/null || echo 'not run: hypothesis'
else
    echo 'not run: pytest'
fi
