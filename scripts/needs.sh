#!/usr/bin/env bash
# Installs by apt-get what the tests need and isn't there: Debian's pytest, hypothesis, pexpect and
# pytest-xdist, for /usr/bin/python3. Where that can't be done it says so in one line, with status 1.
#   scripts/needs.sh
set -euo pipefail
python=/usr/bin/python3

# the packages whose modules this Python can't load
missing() {
  local package module
  for package in pytest hypothesis pexpect pytest-xdist; do
    module=${package#pytest-}
    "$python" -c "import $module" 2> /dev/null || printf '%s ' "python3-$package"
  done
}

fail() {
  echo "needs.sh: $1" >&2
  exit 1
}

packages=$(missing)
[ -n "$packages" ] || exit 0
packages=${packages% }
command -v apt-get > /dev/null || fail "there is no apt-get here: install $packages for $python"
as_root=()
if [ "$(id -u)" -ne 0 ]; then
  command -v sudo > /dev/null || fail "only root can install these: apt-get install $packages"
  as_root=(sudo)
fi
log=$(mktemp)
trap 'rm -f "$log"' EXIT
export DEBIAN_FRONTEND=noninteractive
install() {
  # shellcheck disable=SC2086  # a word for each package
  "${as_root[@]}" apt-get install -y --no-install-recommends $packages >> "$log" 2>&1
}
# the lists of packages may be missing, or too old
install || { "${as_root[@]}" apt-get update >> "$log" 2>&1 && install; } ||
  fail "apt-get can't install $packages: $(grep -m 1 '^E: ' "$log" || tail -n 1 "$log")"
left=$(missing)
[ -z "$left" ] || fail "$python still can't load what ${left% } should bring"
echo "needs.sh: installed $packages" >&2
