#!/usr/bin/env bash
# Fetches the source of a Debian package by apt-get, and prints the folder where it stands.
#   scripts/debian_source.sh PACKAGE FOLDER
# The list of sources is made below FOLDER, with the address that the system's own names: nothing of
# the system is changed. A source that stands in FOLDER already isn't fetched again. It needs dpkg-dev.
set -euo pipefail
[ $# -eq 2 ] || {
  echo "usage: scripts/debian_source.sh PACKAGE FOLDER" >&2
  exit 2
}
package=$1
mkdir -p "$2"
folder=$(cd "$2" && pwd)
fail() {
  echo "debian_source.sh: $1" >&2
  exit 1
}
command -v dpkg-source > /dev/null || fail 'there is no dpkg-source here: install dpkg-dev'

# the last one of the package's folders
there() { find "$folder" -mindepth 1 -maxdepth 1 -type d -name "$package-[0-9]*" | sort -V | tail -n 1; }

# Debian's sources, where the system has its programs from
sources() {
  local release address
  # shellcheck source=/dev/null
  release=$(. /etc/os-release && echo "$VERSION_CODENAME")
  address=$(cat /etc/apt/sources.list /etc/apt/sources.list.d/* 2> /dev/null | grep -oE '^[^#]*https?://[^ ]*/debian/?( |$)' |
    grep -oE 'https?://[^ ]*' | head -n 1) || true
  echo "deb-src [signed-by=/usr/share/keyrings/debian-archive-keyring.gpg] ${address:-http://deb.debian.org/debian} $release main"
}

apt() {
  apt-get -q -o Dir::Etc::sourcelist="$folder/sources.list" -o Dir::Etc::sourceparts=/dev/null -o Dir::State="$folder/state" \
    -o Dir::State::status=/var/lib/dpkg/status -o Dir::Cache="$folder/cache" -o APT::Sandbox::User= "$@" >> "$folder/apt.log" 2>&1
}

if [ -z "$(there)" ]; then
  mkdir -p "$folder"/{state/lists/partial,cache/archives/partial}
  if [ ! -s "$folder/sources.list" ]; then
    sources > "$folder/sources.list"
    apt update || fail "apt-get can't read the lists: $(grep -m 1 '^E: ' "$folder/apt.log")"
  fi
  (cd "$folder" && apt source "$package") || fail "apt-get can't fetch $package: $(grep -m 1 '^E: ' "$folder/apt.log")"
fi
there
