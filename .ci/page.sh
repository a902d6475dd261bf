# shellcheck shell=bash disable=SC2154
# The page of web/: its parts, its module under node, and itself in Chromium and Firefox. `.ci/checks` reads this file once `check_program` has
# written the rows to `room`; it sets `tree` if there is one in which `rt ci` proved these sources, and counts by its function `check`.

# has COMMAND PACKAGE: whether the command is here; as root the gate installs it where Debian's packages are at hand
has() {
    command -v "$1" >/dev/null && return
    [ -z "${CODES_PROGRAM:-}" ] && [ "$(id -u)" -eq 0 ] && command -v apt-get >/dev/null || return 1
    { apt-get update && DEBIAN_FRONTEND=noninteractive apt-get install -y --no-install-recommends "$2"; } >"$room/apt" 2>&1 </dev/null
    command -v "$1" >/dev/null
}

cannot_be_tried() { echo "$1 is not here and can't be installed: $2 is not tried"; tail -n 3 "$room/apt" 2>/dev/null; return 1; }

# without COMMAND TEXT: what can't be tried fails in the gate; `./codes test` says it
without() {
    if [ -n "${CODES_PROGRAM:-}" ]; then echo "not tried: $2: there is no $1"; else check "$2" cannot_be_tried "$1" "$2"; fi
}

page_is_made_of_its_parts() { python3 -B web/build.py --check; }

# the module is built anew only for the sources that release/ names: with other ones `check_released` has failed already
module_is_built_of_the_proved_sources() {
    cmp "$room/codes.wasm" web/codes.wasm && return
    echo "run tools/release, and commit web/"
    return 1
}

module_under_node() { node web/test_module.mjs web/codes.wasm "$room/rows" examples; }
page_explains() { python3 -B web/build.py --texts >"$room/texts.json" && node web/test_explain.mjs web/codes.wasm "$room/texts.json" "$1"; }
page_explains_much() { python3 -B web/test_explain.py "$program" "$room/explained" && page_explains "$room/explained"; }
page_knows_plans() { python3 -B web/test_plans.py | node web/test_plans.mjs; }
page_in_chromium() { timeout 900 node web/drive.mjs "$(command -v chromium)"; }
page_in_firefox() { timeout 900 python3 -B web/drive_firefox.py "$(command -v firefox-esr)"; }

check_page() {
    check 'web/index.html is made of its parts' page_is_made_of_its_parts
    check 'web/retarget.py rewrites what it knows, and refuses all else' python3 -B web/test_retarget.py
    if [ -n "${tree:-}" ] && names_the_sources >/dev/null; then
        build_module "$tree" "$room/codes.wasm"
        check 'web/codes.wasm is what is built of the proved sources' module_is_built_of_the_proved_sources
    fi
    if has node nodejs; then
        check 'the module of the page, on each row and example' module_under_node
        check 'the page explains what tests/explain does' page_explains tests/explain
        check '1,700 faults and certificates: the page and tools/explain.py say the same' page_explains_much
        check 'the page knows the plans of searches' page_knows_plans
        if has chromium chromium; then check 'the page in Chromium' page_in_chromium; else without chromium 'the page in Chromium'; fi
    else
        without node 'the module of the page, what it explains, its plans, and the page in Chromium'
    fi
    if has firefox-esr firefox-esr; then check 'the page in Firefox' page_in_firefox; else without firefox-esr 'the page in Firefox'; fi
}
