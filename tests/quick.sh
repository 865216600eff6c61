#!/bin/sh
# The checks that take seconds and need no proof: tests/all runs them before the long one.
# A check whose tool is not there (shellcheck, tools/house, tools/believed) is passed over, and said so. All are run, whatever the first says.
. "$(dirname "$0")/head.sh"
said=$(mktemp)
trap 'rm -f "$said"' EXIT
failed=0

check() { # NAME COMMAND WORD ..
    name=$1
    shift
    if "$@" >"$said" 2>&1; then
        echo "  $name: passed"
    else
        echo "  $name: FAILED"
        sed 's/^/    /' "$said"
        failed=$((failed + 1))
    fi
}

passed_over() { echo "  $1: passed over, $2"; }

# every script of tests/ is run by this file or by tests/all, or is there for others
scripts_run() {
    for script in tests/*.sh tests/*/*.sh; do
        grep -q "$script" tests/all tests/quick.sh || case $script in
        tests/head.sh | tests/programs/asked.sh | tests/prove.sh | tests/native.sh | tests/shared.sh | tests/callers/wheel.sh) ;;
        *) echo "$script is run by nothing" && return 1 ;;
        esac
    done
}

if command -v shellcheck >/dev/null; then
    check shellcheck shellcheck -x -P SCRIPTDIR yelmuzard .ci/run make/built.sh make/dist make/install make/man make/prove make/release make/shared tests/all tests/*.sh tests/*/*.sh harness/*.sh
else
    passed_over shellcheck "it is not installed"
fi
if [ -f tools/house ]; then check tools/house python3 tools/house; else passed_over tools/house "it is not there"; fi
if [ -f tools/believed ]; then check tools/believed python3 tools/believed --check; else passed_over tools/believed "it is not there"; fi
check "scripts are run" scripts_run
check "the Rust to compare with, where it is a must" sh harness/run.sh missing
check tests/papers/papers.sh sh tests/papers/papers.sh
check tests/missing.sh sh tests/missing.sh
check tests/papers/texts.sh sh tests/papers/texts.sh
check tests/papers/forms.sh sh tests/papers/forms.sh
check tests/callers/dist.sh sh tests/callers/dist.sh words
[ $failed = 0 ] || {
    echo "quick checks: $failed failed"
    exit 1
}
