#!/usr/bin/env bash
# Tests the web page: tests/web.sh. The last line is N passed, M failed.
#
# It compares the record in docs/PAGE.md with the page docs/nanorand.html, proves the module, builds the page again,
# compares the bytes, and tests the page in Chromium and Firefox, compared with the program `lots` (see
# web/tests/run.py). A browser that is not there and cannot be installed is skipped.
# shellcheck source=tests/lib.sh
source "$(dirname "${BASH_SOURCE[0]}")/lib.sh"
unset RT_BACKEND

part tools/record.py --check
if ! command -v rt >/dev/null; then
    skip_all 'the page' 'there is no kit to prove and build it'
fi
browsers=()
if available chromium chromium chromedriver chromium-driver; then
    browsers+=(chromium)
else
    skip 'the page in Chromium' 'there is no chromium or no chromedriver'
fi
if available firefox-esr firefox-esr; then
    browsers+=(firefox)
else
    skip 'the page in Firefox' 'there is no firefox-esr'
fi
[ ${#browsers[@]} -gt 0 ] || finish
available pdftotext poppler-utils || skip 'what the page prints on paper' 'there is no pdftotext'
# These compile the module for 32-bit memory.
available /usr/bin/rustc rustc "/usr/lib/rustlib/wasm32-unknown-unknown/lib/libstd-*.rlib" libstd-rust-dev-wasm32

# The same sources make the same page again, and it equals the committed page.
reproducible() {
    cp web/dist/nanorand.html "$work/first.html"
    web/build.py web/dist/nanorand_c.wasm >"$work/built" && cmp web/dist/nanorand.html "$work/first.html" &&
        cmp web/dist/nanorand.html docs/nanorand.html
}

step tests/build.sh lots page && step reproducible || finish
grep '^skipped' "$work/built"
part web/tests/run.py crates/lots/out/lots "${browsers[@]}"
finish
