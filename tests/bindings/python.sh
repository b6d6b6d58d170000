#!/bin/bash
# Tests the package for Python. Arguments: the folder of tests/bindings.sh, which has tags and what the program answers; the program.
shared=$1
folder=$1/python
program=$2
# shellcheck source=tests/bindings/counting.sh
. "$(dirname "$0")/counting.sh"
mkdir "$folder/examples" "$folder/service" "$folder/coverage"
cp "$sample" "$folder/examples/registry.txt"
cp "$registry" "$folder/service/registry.txt"
program_of PYTHON.md python 1 > "$folder/examples/example.py"
program_of PYTHON.md python 2 > "$folder/service/service.py"
passes "pip install" $python -m pip install -q --no-index --root-user-action=ignore --target "$folder/package" bindings/python
export PYTHONPATH=$folder/package
passes "docs/PYTHON.md's example" env -C "$folder/examples" $python example.py
# what stands behind a `#` is what the line gives, and pandas reads `nan` as a tag
mkdir "$folder/guide"
cp "$registry" "$folder/guide/registry.txt"
printf 'id,tag\n1,nan\n2,iw\n3,en_US\n' > "$folder/guide/books.csv"
passes "the programs in Python of README.md and two pages" env -C "$folder/guide" $python - "$root/README.md" "$root/docs/MATCHING.md" "$root/docs/GUIDE.md" << 'END'
import re, sys
from pathlib import Path

for page in sys.argv[1:]:
    names = {}
    for line in re.search(r"^```python\n(.*?)^```$", Path(page).read_text(), re.M | re.S)[1].split("\n"):
        call, _, shown = line.partition("  # ")
        if shown:
            assert repr(eval(call, names)) == shown.strip(), line
        else:
            exec(line, names)
assert list(names["frame"]["canonical"])[:2] == ["nan", "he"] and names["frame"]["fault"][2] == "BadByte 1"
END
printf 'id,tag\n1,zh-yue\n2,eng\n' > "$folder/examples/catalogue.csv"
sed -n '/^## A report about/,$s/^    //p' docs/PYTHON.md > "$folder/examples/report"
passes "docs/PYTHON.md's report" env -C "$folder/examples" bash -e report
passes "it says what to write" grep -q '>en</bdi>' "$folder/examples/report.html"
passes "Python's tests" $python bindings/python/tests/test_bcp47.py "$sample" "$registry"
passes "Python: copies, processes, signals, threads, columns" $python -W error bindings/python/tests/test_habits.py "$sample"
passes "Python: the report and commands" $python -B -W error bindings/python/tests/test_report.py "$sample" "$registry"
passes "Python: headers of browsers, and werkzeug beside it" env -C "$folder/service" $python -B -W error \
    "$root/bindings/python/tests/test_serving.py" "$registry" service.py
# Each line and each branch of what both are made of. What coverage runs ends otherwise, so it is a second run.
mkdir "$folder/counted"
export COVERAGE_FILE=$folder/counted/of
passes "the report and commands for coverage" $python -B bindings/python/tests/test_report.py "$sample" "$registry"
passes "what was run" $python -m coverage combine "$folder/counted"
passes "each line and branch of the report and the commands is run" $python -m coverage report --fail-under=100 --show-missing \
    --omit='*/__init__.py'
unset COVERAGE_FILE
passes "Python: the look of the report" $python -B bindings/python/tests/look.py "$registry" "$folder"
passes "Python: the wheel" $python -B bindings/python/tests/test_wheel.py
passes "Python: types of the package" env -C "$folder/package" MYPYPATH=. mypy --strict --cache-dir="$folder/mypy" -p bcp47
passes "Python: types of a program" env MYPYPATH="$folder/package" mypy --strict --cache-dir="$folder/mypy" "$folder/examples/example.py" \
    bindings/python/tests/typed.py
writes "Python answers as the program" "$shared/wanted" $python bindings/python/tests/answers.py "$registry" "$shared/tags"
writes "Python explains as the program" "$shared/explained" $python bindings/python/tests/answers.py "$registry" "$shared/explained-tags" explain
writes "Python shows as the program" "$shared/shown" $python bindings/python/tests/answers.py "$registry" "$shared/shown-tags" show
passes "a report about 1,000,000 rows" $python -B bindings/python/tests/catalogue.py "$registry" "$program" "$folder"
cat "$folder/out"
# Under sanitizers, which see the extension and what it frees; what the interpreter keeps to its end is no leak of it.
CFLAGS="-O1 -g -fsanitize=address,undefined -fno-sanitize-recover=all" passes "pip install, for sanitizers" $python -m pip install -q \
    --no-index --root-user-action=ignore --target "$folder/package-memory" bindings/python
under="env PYTHONPATH=$folder/package-memory PYTHONMALLOC=malloc ASAN_OPTIONS=detect_leaks=0 LD_PRELOAD=$(gcc -print-file-name=libasan.so):$(gcc -print-file-name=libubsan.so) $python -B"
# shellcheck disable=SC2086
{
    passes "Python's tests under sanitizers" $under bindings/python/tests/test_bcp47.py "$sample" "$registry"
    passes "Python: growths, signals, threads, columns under sanitizers" $under bindings/python/tests/test_habits.py "$sample" Growths \
        Signals Facts Parts Refusals Columns.test_missing_values Columns.test_long_columns Threads.test_a_registry_is_closed_in_the_midst_of_calls
}
# By stand-ins: what Python from 3.12 on is told, which loads no other module for interpreters with a lock of their own; and a library that is busy.
made_over() {
    printf '%b\n' "#include <bcp47.h>" "$3" > "$folder/stand-in.c"
    mkdir "$folder/$1"
    cp bindings/python/bcp47/*.py "$folder/$1"
    passes "the extension over another $2" gcc -shared -std=c11 -fPIC -Ibindings/c "-I$($python -c 'import sysconfig; print(sysconfig.get_paths()["include"])')" \
        bindings/python/_bcp47.c "$folder/stand-in.c" build/libbcp47.a "-Wl,--wrap=$2" -o "$folder/$1/_bcp47.abi3.so"
}
made_over of312 Py_GetVersion 'const char *__wrap_Py_GetVersion(void) { return "3.12.0"; }'
passes "Python 3.12 is told that each interpreter may have its lock" $python -c '
import ctypes, sys
begin, at = ctypes.PyDLL(sys.argv[1]).PyInit__bcp47, ctypes.c_void_p.from_address
begin.restype = ctypes.c_void_p
made = begin()
assert ctypes.cast(at(made + 8).value, ctypes.py_object).value.__name__ == "moduledef"
assert [at(at(made + 72).value + 8 * number).value for number in range(2, 6)] == [3, 2, None, None]' "$folder/of312/_bcp47.abi3.so"
mkdir "$folder/busy"
made_over busy/bcp47 bcp47_canonical,--wrap=bcp47_validate 'bcp47_outcome __wrap_bcp47_canonical(void) { return (bcp47_outcome){.status = BCP47_BUSY}; }
bcp47_outcome __wrap_bcp47_validate(void) { return __wrap_bcp47_canonical(); }'
passes "a busy library is want of memory" env PYTHONPATH="$folder/busy" $python -B -c '
import bcp47, sys
registry = bcp47.Registry.from_file(sys.argv[1])
for call in (registry.canonical, registry.is_valid, lambda tag: registry.canonical_many([tag]), lambda tag: registry.canonical_columns([tag])):
    try:
        sys.exit(f"it answers {call(str())}")
    except MemoryError:
        pass' "$sample"
# Each line of the extension.
passes "compile the extension for gcov" gcc -O0 --coverage -std=c11 -fPIC -fvisibility=hidden -Ibindings/c \
    "-I$($python -c 'import sysconfig; print(sysconfig.get_paths()["include"])')" -c bindings/python/_bcp47.c -o "$folder/coverage/_bcp47.o"
cp -r bindings/python/bcp47 "$folder/coverage/bcp47"
passes "link the extension for gcov" gcc -shared --coverage "$folder/coverage/_bcp47.o" build/libbcp47.a -Wl,--exclude-libs,ALL \
    -o "$folder/coverage/bcp47/_bcp47.abi3.so"
for test in "test_bcp47.py $sample $registry" "test_habits.py $sample Growths Copies Parts Refusals Columns Threads Facts"; do
    # shellcheck disable=SC2086
    passes "Python for gcov: ${test%% *}" env PYTHONPATH="$folder/coverage" $python -B bindings/python/tests/$test
done
(cd "$folder/coverage" && gcov -o . _bcp47.o > report 2>&1)
passes "each line of the extension is run" test "$(grep -c '#####' "$folder/coverage/_bcp47.c.gcov")" = 0
counted python
