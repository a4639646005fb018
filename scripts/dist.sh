#!/usr/bin/env bash
# Makes a release of the proved program and library: FOLDER/ginlarch-VERSION-linux-x86_64.tar.xz, with its SHA-256 sum in a file beside it.
#   scripts/dist.sh [FOLDER]
# FOLDER is out/dist by itself. It is made of a checkout without changes, whose gx and library are built, and two runs make the same
# bytes: each time in it is that of the commit. What stands in bin, lib, include and share goes below a prefix.
set -euo pipefail
root=$(cd "$(dirname "$0")/.." && pwd)
program=${GX:-$root/crates/gx/out/gx}
version=1.0.0
folder=${1:-$root/out/dist}

fail() {
  echo "dist.sh: $1" >&2
  exit 1
}

[ $# -le 1 ] || { echo 'usage: scripts/dist.sh [FOLDER]' >&2 && exit 2; }
[ -f "$program" ] || fail "$program isn't there; build it: (cd crates/gx && rt run -- blobs < stdin)"
/usr/bin/python3 -c 'import setuptools, wheel' 2> /dev/null || fail 'python3-setuptools and python3-wheel of Debian are missing'
commit=${COMMIT:-$(git -C "$root" rev-parse HEAD)}
[ -n "${COMMIT:-}" ] || [ -z "$(git -C "$root" status --porcelain)" ] || fail 'the checkout has changes, so it is of no commit'
export SOURCE_DATE_EPOCH
SOURCE_DATE_EPOCH=$(git -C "$root" show -s --format=%ct "$commit")

work=$(mktemp -d)
trap 'rm -rf "$work"' EXIT
name=ginlarch-$version
umask 022

# the files as they are installed; pkg-config finds them wherever their folder stands
make_prefix() {
  local to=$work/$name
  export DESTDIR=$to PREFIX=/ COMMIT=$commit GX=$program
  "$root/scripts/install.sh"
  PYTHONDIR=/python "$root/scripts/install.sh" --library
  # shellcheck disable=SC2016
  sed -i -e '1,2s|=/*|=${pcfiledir}/../../|' "$to/lib/pkgconfig/ginlarch.pc"
}

# the Python module with the library in it, as one wheel
make_wheel() {
  local source=$work/wheel
  mkdir "$source"
  mv "$work/$name/python/ginlarch" "$source/ginlarch"
  rmdir "$work/$name/python"
  cp "$work/$name/lib/libginlarch.so" "$source/ginlarch/"
  cp "$root/python/setup.py" "$source/"
  (cd "$source" && VERSION=$version /usr/bin/python3 setup.py --quiet bdist_wheel --dist-dir "$work/$name")
}

# what the files are of, and their sums
tell() {
  local file
  cd "$work/$name"
  printf 'commit %s\nproved by %s\n' "$commit" "$(rt version)" > MADE
  find . -type f ! -name SHA256SUMS -printf '%P\n' | LC_ALL=C sort | while read -r file; do
    sha256sum "$file"
  done > "$work/sums"
  mv "$work/sums" SHA256SUMS
}

{ make_prefix && make_wheel && (tell); } > "$work/said" 2>&1 || { cat "$work/said" >&2 && fail 'no release came of it'; }
mkdir -p "$folder"
cd "$folder"
tar -C "$work" --sort=name --mtime="@$SOURCE_DATE_EPOCH" --owner=0 --group=0 --numeric-owner --format=ustar -c "$name" |
  xz -T1 > "$name-linux-x86_64.tar.xz.new"
mv "$name-linux-x86_64.tar.xz.new" "$name-linux-x86_64.tar.xz"
sha256sum "$name-linux-x86_64.tar.xz" | tee "$name-linux-x86_64.tar.xz.sha256"
