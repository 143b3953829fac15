#!/usr/bin/env bash
# Lints the scripts and the Python code, as .flake8, .shellcheckrc and pyproject.toml configure it: tests/lint.sh. The
# last line is N passed, M failed. The tests of the Rust packages lint Rust (clippy.toml, rustfmt.toml), and compiler
# warnings lint C.
# shellcheck source=tests/lib.sh
source "$(dirname "${BASH_SOURCE[0]}")/lib.sh"

# The committed and new files whose first line names bash or sh, or says so to shellcheck.
shell_scripts() {
    git grep --untracked -lE '^#!.*[/ ](ba)?sh$|^# shellcheck shell=' | while read -r file; do
        ! head -n 1 "$file" 2>/dev/null | grep -qaE '^#!.*[/ ](ba)?sh$|^# shellcheck shell=' || echo "$file"
    done
}

# The places where a test compares a value with itself, which proves nothing.
compared_with_itself() {
    git grep --untracked -nP '\b(?:assert_eq|assert_ne|equal|equal_at)!?\((?:&?rt, )?([^(),]+), &?\1[,)]' -- \
        'crates/*_tests/*' 'rust/*/tests/*' tests/against_c
    git grep --untracked -nP '\.(?:assertEqual|same)\((?:[^(),]+, )?([^(),]+), \1[,)]' -- '*.py'
}

# The scripts that go to their own folder and do not unset CDPATH first, which may lead them elsewhere.
misled_by_cdpath() {
    git grep --untracked -lE 'cd "\$\(dirname ' -- ':!*.md' | xargs git grep --untracked -L '^unset CDPATH' --
}

check 'CDPATH' "$(misled_by_cdpath)"
check 'comparisons of a value with itself' "$(compared_with_itself)"
if available flake8 flake8; then
    step flake8
else
    skip 'flake8' 'it is not there'
fi
if available shellcheck shellcheck; then
    mapfile -t scripts < <(shell_scripts)
    check 'scripts are found' "$([ "${#scripts[@]}" -gt 20 ] || echo "${#scripts[@]}")"
    step shellcheck --severity=warning "${scripts[@]}"
else
    skip 'shellcheck' 'it is not there'
fi
# The types of python/nanorand/numpy.py are those of NumPy.
if available mypy mypy /usr/lib/python3/dist-packages/numpy python3-numpy; then
    step mypy --cache-dir "$work/mypy"
else
    skip 'the types of Python code' 'there is no mypy, or no NumPy'
fi
finish
