#!/usr/bin/env bash
# Tests the Python package.
#
#     tests/python.sh          tests it with each static library that can be built, the kit's and rustc's
#     tests/python.sh kit      tests it only with the kit's library
#     tests/python.sh cargo    tests everything else
#
# For each library it builds the wheel, installs it into a new environment of python3, without the kit, and runs
# python/tests there, the long tests once. The system's Python runs those that need NumPy, or all if it is another one.
# The wheel is also built in another folder, from the source distribution, with an older rustc, and for an editable
# installation. What does not depend on how rustc compiles the library has it compiled once. The last line is N passed,
# M failed.
# shellcheck source=tests/lib.sh
source "$(dirname "${BASH_SOURCE[0]}")/lib.sh"
unset NANORAND_LIBRARY PYTHONPATH RUSTC
export PYTHONDONTWRITEBYTECODE=1
# Without its cache, pip builds a wheel each time.
pip=(--quiet --no-index --no-cache-dir --disable-pip-version-check)

# Copies what the tests read, so that they run outside this repository.
copy_of_tests() {
    mkdir "$work/tests"
    git ls-files -z --cached --others --exclude-standard README.md python/README.md python/tests tests/answers/answers.tsv |
        xargs -0 cp --parents -t "$work/tests"
}

# Copies what the wheel is built from into another folder, whose path has another length.
another_place() {
    local place="$work/another place/of the same/sources"
    [ ! -e "$place" ] || return 0
    mkdir -p "$place"
    git ls-files -z --cached --others --exclude-standard LICENSE pyproject.toml c python rust |
        xargs -0 cp --parents -t "$place"
}

# Builds the wheel in that folder, for the folder $1.
build_in_another_place() {
    (cd "$work/another place/of the same/sources" && python/build.py "$1")
}

# The file of the Python $1.
file_of() {
    realpath "$(command -v "$1")"
}

# Makes a new environment of the Python $1 in the folder $2. Further arguments go to venv. Its pip is that of the first
# environment of this Python, as making one takes seconds. A pip before 22.3 serves its own environment alone.
new_environment() {
    local first
    first=$work/pips/$(file_of "$1" | tr / .)
    if [ ! -e "$first" ]; then
        "$1" -m venv "$first" || return
        "$first/bin/pip" --python "$first/bin/python" --version || rm "$first/bin/pip"
    fi
    if [ ! -e "$first/bin/pip" ]; then
        "$1" -m venv "${@:3}" "$2"
        return
    fi
    "$1" -m venv --without-pip "${@:3}" "$2" || return
    printf '#!/bin/sh\nexec "%s" --python "%s" "$@"\n' "$first/bin/pip" "$2/bin/python" >"$2/bin/pip"
    chmod +x "$2/bin/pip"
}

# Makes a new environment of the Python $1 in the folder $2, with the wheel in the folder $3. Further arguments go to
# venv.
environment() {
    new_environment "$1" "$2" "${@:4}" && "$2/bin/pip" install "${pip[@]}" "$3"/*.whl
}

# The wheel's module runs on every processor that the wheel's tag names. The objects of chacha20 and of keystream both
# have one of the functions for AVX2.
runs_everywhere() {
    python3 -m zipfile -e "$1"/*.whl "$1/files" && runs_on_every_processor "$1"/files/nanorand/_native*.so 5
}

same_bytes() {
    [ "$(ls "$1")" = "$(ls "$2")" ] && cmp "$1"/*.whl "$2"/*.whl
}

# Builds the wheel with the library of $1, which NANORAND_LIBRARY names or rustc compiles, and runs its tests, or those
# that follow. Another folder gives the same wheel, which one library is enough to show.
over() {
    local room=$work/$1
    step python/build.py "$room/one"
    if [ "$1" = cargo ] || ! has_rustc; then
        step another_place
        step build_in_another_place "$room/two"
        step same_bytes "$room/one" "$room/two"
    fi
    WHEEL=$(echo "$room"/one/*.whl) unit_tests 'python/tests/wheel.py' in_repository wheel
    [ "$1" = kit ] || step runs_everywhere "$room/one"
    step environment python3 "$room/env" "$room/one"
    unit_tests "python/tests over $1's library" in_tests "$room/env/bin/python" "${@:2}"
}

# Options of unittest that choose the tests for which it matters what the library computes.
of_the_library() {
    (cd python/tests && printf '%s\n' test_*.py) | grep -vE '_(memory|signals|surface|documents)\.py$' |
        sed 's/\(.*\)\.py$/-k\n\1.*/'
}

# Whether rustc can build the library.
has_rustc() {
    command -v rustc >/dev/null && [ -e rust/nanorand-c ]
}

# Runs unittest with the Python $1 in the copy of the tests.
in_tests() {
    (cd "$work/tests/python/tests" && "$1" -m unittest "${@:2}")
}

# Runs unittest with python3 in this repository, for what the wheel does not have.
in_repository() {
    (cd python/tests && PYTHONPATH=.. python3 -m unittest "$@")
}

# Runs NumPy's own tests with the system's Python, in the environment $1. pytest's last line says how many passed.
numpys_own() {
    local status passes
    echo "== NumPy's own tests"
    if ! available /usr/lib/python3/dist-packages/pytest python3-pytest ||
        [ ! -e /usr/lib/python3/dist-packages/numpy/random/tests ]; then
        skip "NumPy's own tests" "there is no NumPy or no pytest"
        return
    fi
    (cd "$work/tests/python/tests" && "$1/bin/python" -m pytest -q -p no:cacheprovider numpy_own.py) >"$work/log" 2>&1
    status=$?
    passes=$(sed -n '$s/^\([0-9]*\) passed.*/\1/p' "$work/log")
    passed=$((passed + ${passes:-0}))
    if [ "$status" -ne 0 ] || [ "${passes:-0}" -eq 0 ]; then
        cat "$work/log"
        failed=$((failed + 1))
    fi
}

# Gets CPython's tests of random.Random for the Python $1, if it can. Debian packages them separately.
with_its_tests() {
    "$1" -c 'import test.test_random' 2>/dev/null && return
    local version
    version=$("$1" -c 'import sys; print("%d.%d" % sys.version_info[:2])')
    available "/usr/lib/python$version/test/test_random.py" "libpython$version-testsuite" || true
}

# Compiles refusing.c as a library.
refusing() {
    mkdir -p "$work/refusing"
    cc -std=c11 -Wall -Wextra -pedantic -Werror -O2 -fPIC -Ic/include -c -o "$work/refusing/refusing.o" \
        python/tests/refusing.c && ar rcs "$work/refusing/refusing.a" "$work/refusing/refusing.o"
}

# Tests what the package does with the error statuses of that library.
refused_statuses() {
    local room=$work/refusing
    step env NANORAND_LIBRARY="$room/refusing.a" python/build.py "$room/one"
    step environment python3 "$room/env" "$room/one"
    unit_tests 'python/tests/refusals.py' in_tests "$room/env/bin/python" refusals
}

# The package of another release, whose numbers all have two digits, says its version.
another_version() {
    local place="$work/another place/of the same/sources" room=$work/version
    step another_place
    mkdir "$room"
    sed -i 's/^#define NANORAND_VERSION .*/#define NANORAND_VERSION 123456/' "$place/c/include/nanorand.h"
    cc -std=c11 -O2 -fPIC "-I$place/c/include" -c -o "$room/refusing.o" python/tests/refusing.c
    ar rcs "$room/refusing.a" "$room/refusing.o"
    step env CC="$work/quick" NANORAND_LIBRARY="$room/refusing.a" "$place/python/build.py" "$room/one"
    expect 'the version of its wheel' nanorand-12.34.56 "$(cd "$room/one" && echo *.whl | grep -o '^[^-]*-[^-]*')"
    step environment python3 "$room/env" "$room/one"
    expect 'its version' 12.34.56 "$("$room/env/bin/python" -c 'import nanorand; print(nanorand.__version__)')"
}

# Runs the tests with the system's Python again, over an extension module that counts what they run. They must run every
# line and branch of the package's Python and C code. If an allocation fails, Python's own tracer fails too, so those
# tests run once more without it. For branches on a null pointer or a failed call it is enough that the lines between
# them run.
counted() {
    local room=$work/counted
    if ! { available /usr/lib/python3/dist-packages/coverage python3-coverage gcovr gcovr &&
        command -v gcc gcov; } >/dev/null; then
        skip 'whether the tests run all code of the Python package' 'there is no coverage, gcovr or gcov'
        return
    fi
    mkdir -p "$room/own" "$room/refusing"
    printf '#!/bin/sh\nexec gcc --coverage -dumpdir "$COUNTS/" "$@" -O0\n' >"$room/cc"
    chmod +x "$room/cc"
    step counting own python/build.py "$room/own/wheel"
    step environment "$system" "$room/own/env" "$room/own/wheel" --system-site-packages
    step in_python own -m coverage run --rcfile "$PWD/pyproject.toml" -m unittest
    step without_memory
    NANORAND_LIBRARY=$work/refusing/refusing.a \
        step counting refusing python/build.py "$room/refusing/wheel"
    step environment "$system" "$room/refusing/env" "$room/refusing/wheel" --system-site-packages
    step in_python refusing -m unittest refusals
    step all_python_counted
    step gcovr --root . --filter python/native/ "$room/own" "$room/refusing" \
        --exclude-branches-by-pattern '.*(== NULL|!= NULL|< 0|Py_CLEAR|PyErr_Occurred).*' \
        --fail-under-line 100 --fail-under-branch 100 --branches
}

# Builds with the command after $1, so that the compiled module writes its counts to the folder $1.
counting() {
    COUNTS=$work/counted/$1 CC=$work/counted/cc "$system" "${@:2}"
}

# Runs the Python of the environment in the folder $1, in the copy of the tests.
in_python() {
    (cd "$work/tests/python/tests" && COVERAGE_FILE=$work/counted/data "$work/counted/$1/env/bin/python" "${@:2}")
}

# Runs the tests in which allocations fail, also the long one.
without_memory() {
    (unset NANORAND_SHORT && in_python own -m unittest test_memory.NoMemory test_numpy.Memory)
}

all_python_counted() {
    in_python own -m coverage combine --rcfile "$PWD/pyproject.toml" &&
        in_python own -m coverage report --rcfile "$PWD/pyproject.toml"
}

# The compiler $1, with the options that follow, has no warnings about the C files. Some of gcc's need -O2, and none of
# clang's.
without_warnings() {
    local source headers
    headers=$(python3 -c 'import sysconfig; print(sysconfig.get_path("include"))')
    for source in python/native/*.c; do
        "$@" -std=c11 -fPIC -Wall -Wextra -pedantic -Werror -Ic/include -isystem "$headers" -c -o /dev/null "$source" ||
            return
    done
}

# The types in the stubs are those of the extension module. mypy's own Python has to be able to load it.
stubs_are_right() {
    local site
    site=$("$1/bin/python" -c 'import sysconfig; print(sysconfig.get_path("platlib"))')
    PYTHONPATH=$site stubtest nanorand._native
}

# Writes a C compiler that does not optimize, for modules that only have to work. The last -O option applies.
quick_compiler() {
    printf '#!/bin/sh\nexec cc "$@" -O0\n' >"$work/quick"
    chmod +x "$work/quick"
}

# Has pip, with the Python $1, install $2 into the new environment $3. Further arguments are options of pip.
pip_installs() {
    local -x CC=$work/quick
    new_environment "$1" "$3" && "$3/bin/pip" install "${pip[@]}" "${@:4}" "$2" &&
        [ "$("$3/bin/python" -I -c 'import nanorand; print(nanorand.WyRand(42).range(1, 100))')" = 69 ]
}

# Builds with an older rustc, if there is one, and then again with the first one, in this same folder. Neither build
# finds files of the other, and the first rustc makes the same wheel as before.
by_two_compilers() {
    local room=$work/cargo
    if ! [ -x "$oldest_bin/rustc" ]; then
        skip 'the package by an older rustc' "there is no $oldest_bin/rustc"
        return
    fi
    [ "$("$oldest_bin/rustc" --version)" != "$(rustc --version)" ] || return
    step env RUSTC="$oldest_bin/rustc" python/build.py "$room/older"
    step environment python3 "$room/env_of_older" "$room/older"
    unit_tests 'python/tests/test_answers.py by an older rustc' in_tests "$room/env_of_older/bin/python" test_answers
    step python/build.py "$room/three"
    step same_bytes "$room/two" "$room/three"
}

# Builds the source distribution into $1 with the Python $2.
build_sdist() {
    mkdir -p "$1" && PYTHONPATH=python "$2" -c 'import sys, backend; backend.build_sdist(sys.argv[1])' "$1"
}

# The examples of the README, with the Python $1.
readme_examples() {
    "$1" -I -m doctest python/README.md
}

# Builds the source distribution, and from it, in another folder and by rustc, the wheel that the repository makes. pip
# also installs it without isolation, with the library that c/install built.
by_source_distribution() {
    local room=$work/sdist archive other=/usr/bin/python3
    [ -x "$other" ] || other=python3
    step build_sdist "$room/one" python3
    archive=$(echo "$room"/one/*.tar.gz)
    step build_sdist "$room/two" "$other"
    step cmp "$archive" "$room/two/${archive##*/}"
    step "$work/cargo/env/bin/pip" wheel "${pip[@]}" --wheel-dir "$room/wheel" "$archive"
    step same_bytes "$room/wheel" "$work/cargo/two"
    step pip_installs python3 "$(echo "$room"/wheel/*.whl)" "$room/env"
    step readme_examples "$room/env/bin/python"
    NANORAND_LIBRARY=$library step pip_installs python3 "$archive" "$room/env_of_same" --no-build-isolation
}

# The command of the package `build` makes the same source distribution, and from it the wheel in the folder $1, with
# the library that NANORAND_LIBRARY names. pip builds it in isolation.
by_build() {
    local room=$work/build
    if ! [ -e "$work/sdist/one" ] || ! available /usr/lib/python3/dist-packages/build python3-build; then
        skip 'python -m build' 'it or the source distribution is not there'
        return
    fi
    step "$system" -m build --no-isolation --outdir "$room" .
    step cmp "$(echo "$work"/sdist/one/*.tar.gz)" "$room"/*.tar.gz
    step cmp "$1"/*.whl "$room"/*.whl
}

# An editable installation, with that library, takes up a change to a Python file at once.
by_editable() {
    local sources="$work/another place/of the same/sources" room=$work/editable
    step another_place
    NANORAND_LIBRARY=$library step pip_installs python3 "$sources" "$room" --editable
    step in_tests "$room/bin/python" test_numbers test_surface
    echo 'changed = 6' >>"$sources/python/nanorand/errors.py"
    step "$room/bin/python" -I -c 'import nanorand; assert nanorand.errors.changed == 6'
    step "$room/bin/pip" uninstall --quiet --yes nanorand
    step fails "$room/bin/python" -I -c 'import nanorand'
}

fails() {
    ! "$@"
}

# A Python before 3.9 and PyPy, if they are there, have to say in one line that they cannot build the package.
by_other_pythons() {
    local python this wanted='python/build.py: nanorand requires CPython 3.9 or later, not free-threaded, and this is'
    local name_of_python='import platform, sys; print(platform.python_implementation(), "%d.%d" % sys.version_info[:2])'
    for python in python3.8 ~/.pyenv/versions/3.8.*/bin/python3 pypy3; do
        this=$("$python" -c "$name_of_python" 2>/dev/null) || continue
        expect "$python" "$wanted $this" "$("$python" python/build.py "$work/none" 2>&1)"
    done
}

# Tests subinterpreters with the Pythons from 3.12 on that are there.
by_newer_pythons() {
    local python room found=
    for python in python3.12 python3.13 ~/.pyenv/versions/3.1[23].*/bin/python3; do
        "$python" -c 'import ensurepip, venv' 2>/dev/null || continue
        room=$work/newer/$("$python" -c 'import sys; print("%d.%d" % sys.version_info[:2])')
        [ ! -e "$room" ] || continue
        found=1
        step "$python" python/build.py "$room/one"
        step environment "$python" "$room/env" "$room/one"
        unit_tests "python/tests/test_interpreters.py by $python" in_tests "$room/env/bin/python" test_interpreters
    done
    [ -n "$found" ] || skip 'subinterpreters with a GIL of their own' 'there is no Python 3.12 or later'
}

# Makes a folder like the unpacked archive: the package, the header, and the library $1.
archive() {
    mkdir -p "$work/archive/lib" "$work/archive/python"
    cp -r pyproject.toml LICENSE c/include "$work/archive/"
    cp -r python/backend.py python/README.md python/native python/nanorand "$work/archive/python/"
    cp "$1" "$work/archive/lib/libnanorand.a"
}

without_rustc() {
    mkdir -p "$work/none"
    printf '#!/bin/sh\nexit 1\n' >"$work/none/rustc"
    chmod +x "$work/none/rustc"
    PATH=$work/none:$PATH "$@"
}

package='the tests of the Python package'
command -v python3 >/dev/null || skip_all "$package" 'there is no python3'
can_build python3 || skip_all "$package" 'python3 has no venv or no Python.h'
available cc gcc || skip_all "$package" 'there is no C compiler'
available nm binutils || skip_all "$package" 'there is no nm'

# Without the kit, an archive built from an earlier source would be packed.
kit=
if asked_for kit && command -v rt >/dev/null; then
    kit=$PWD/crates/nanorand_c/out/libnanorand_c.a
    step tests/build.sh library || finish
fi
PATH=$(path_without_kit)
export PATH
if [ -z "$kit" ] && ! has_rustc; then
    skip_all "$package" 'there is neither a kit nor rustc to build the static library'
fi
copy_of_tests
with_its_tests python3
quick_compiler
tests=()
if [ -n "$kit" ]; then
    # The long tests are run over rustc's library, if there is rustc, and so are those of the package alone.
    if has_rustc; then
        mapfile -t tests < <(of_the_library)
        export NANORAND_SHORT=1
    fi
    NANORAND_LIBRARY=$kit over kit "${tests[@]}"
    unset NANORAND_SHORT
elif asked_for kit; then
    skip 'the package over the library of the kit' 'there is no kit'
fi
asked_for cargo || finish
if has_rustc; then
    rustc_once "$work/once"
    step env RUSTC="$work/once" PREFIX="$work/installed" c/install
    library=$work/installed/lib/libnanorand.a
    RUSTC=$work/once over cargo
    RUSTC=$work/once step pip_installs python3 . "$work/env_of_cargo"
    by_two_compilers
    by_source_distribution
    by_editable
    first=$work/cargo
    archive "$library"
else
    skip 'the package over the library of rustc' 'there is no rustc'
    first=$work/kit
    archive "$kit"
fi
by_other_pythons
step without_rustc pip_installs python3 "$work/archive" "$work/env_of_archive"
NANORAND_LIBRARY=$work/archive/lib/libnanorand.a
export NANORAND_LIBRARY
step refusing
system=/usr/bin/python3
if [ -x "$system" ] && can_build "$system"; then
    with_its_tests "$system"
    available '/usr/lib/python3/dist-packages/numpy' python3-numpy || true
    wheel=$first/one tests=(-k 'test_numpy.*' -k 'test_fills.NumPy.*')
    if [ "$(file_of python3)" != "$(file_of "$system")" ]; then
        wheel=$work/system/one tests=()
        step "$system" python/build.py "$wheel"
    fi
    step environment "$system" "$work/system/env" "$wheel" --system-site-packages
    by_build "$wheel"
    export NANORAND_SHORT=1
    unit_tests "python/tests by the system's Python" in_tests "$work/system/env/bin/python" "${tests[@]}"
    numpys_own "$work/system/env"
    counted
    unset NANORAND_SHORT
else
    skip "the package by the system's Python" "it has no venv or no Python.h"
fi
by_newer_pythons
refused_statuses
another_version
unit_tests 'python/tests/packaging.py' in_repository packaging
step without_warnings cc -O2
if available clang clang; then
    step without_warnings clang -fsyntax-only
else
    skip 'the warnings of clang' 'there is no clang'
fi
if available mypy mypy; then
    step stubs_are_right "$first/env"
else
    skip 'the types of the extension module' 'there is no mypy'
fi
finish
