#!/usr/bin/env bash
# What the scripts of checks need of the machine, or the tools that are named. What lacks is installed where the machine lets it, by apt-get
# and as root, and one line says what could not be got. A script whose tool lacks then says so, and fails where CI is set.
#   checks/tools.sh [TOOL..]
set -u
[ $# -gt 0 ] || set -- python3 cc curl wrk chromium

# Those of the tools that lack.
lacking() {
    local tool
    for tool in "$@"; do
        command -v "$tool" > /dev/null || echo "$tool"
    done
}

if [ -n "$(lacking "$@")" ] && [ "$(id -u)" = 0 ] && command -v apt-get > /dev/null; then
    export DEBIAN_FRONTEND=noninteractive
    timeout 300 apt-get update > /dev/null 2>&1 < /dev/null
    for tool in $(lacking "$@"); do
        packages=$tool
        [ "$tool" != cc ] || packages="gcc libc6-dev"
        timeout 300 apt-get install -y --no-install-recommends $packages > /dev/null 2>&1 < /dev/null
    done
fi
left=$(lacking "$@" | paste -sd ' ')
[ -z "$left" ] || echo "could not get: $left"
