#!/bin/sh
# Installs from Debian what the tests of bindings/ and examples/ need and is not there, if it may,
# and says in one line what is missing all the same.
set -u
look() {
    lacking=
    need gcc "${CC:-cc}" --version
    need binutils objcopy --version
    need pkg-config pkg-config --version
    need valgrind valgrind --version
    need cargo cargo --version
    need python3 python3 -c 'import ctypes'
    need python3-venv /usr/bin/python3 -c 'import ensurepip'
    need python3-numpy /usr/bin/python3 -c 'import numpy'
    need python3-distributed /usr/bin/python3 -c 'import distributed'
    need python3-ahocorasick /usr/bin/python3 -c 'import ahocorasick'
}

# need PACKAGE COMMAND..: the package is lacking if the command fails.
need() {
    package=$1
    shift
    "$@" >/dev/null 2>&1 || lacking="$lacking $package"
}

look
if [ -n "$lacking" ] && [ "$(id -u)" = 0 ] && command -v apt-get >/dev/null; then
    export DEBIAN_FRONTEND=noninteractive
    # shellcheck disable=SC2086
    { timeout 300 apt-get update && apt-get -o DPkg::Lock::Timeout=300 install -y --no-install-recommends $lacking; } >/dev/null 2>&1
    look
fi
[ -z "$lacking" ] || echo "debian.sh: these packages are missing, and their tests are not run:$lacking"
