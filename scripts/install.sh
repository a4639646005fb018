#!/usr/bin/env bash
# Installs the built program, git-remote-gx, gx-mirror, git-objects, their manuals and the completions of bash and zsh, or removes these nine files again;
# or the built library with its header and the Python module.
#   scripts/install.sh [--library] [--uninstall]
# Variables of the environment say where, as `scripts/install.sh --help` tells.
set -euo pipefail
root=$(cd "$(dirname "$0")/.." && pwd)
prefix=${PREFIX:-/usr/local}
program=${GX:-$root/crates/gx/out/gx}
stamped=''
made=''

usage() {
  cat << 'END'
usage: scripts/install.sh [--library] [--uninstall]
       scripts/install.sh --help

Installs the built program gx, the script git-remote-gx by which git has stores as
remotes, the script gx-mirror by which stores follow repositories, the script git-objects
whose text `gx import --objects` takes, their manuals and the completions of bash and zsh.
With --library it installs libginlarch in place of these: the static and the shared
library, the header, the file for pkg-config and the Python module. --uninstall
removes what was installed so, and leaves all folders.

Variables of the environment that say where, each with what it is by itself:
  PREFIX             /usr/local
  BINDIR             PREFIX/bin
  MANDIR             PREFIX/share/man, with the manuals in its folder man1
  BASHCOMPLETIONDIR  PREFIX/share/bash-completion/completions
  ZSHCOMPLETIONDIR   PREFIX/share/zsh/site-functions
  LIBDIR             PREFIX/lib, with the libraries and pkgconfig/ginlarch.pc
  INCLUDEDIR         PREFIX/include
  PYTHONDIR          PREFIX/lib/python3/dist-packages, with the folder ginlarch
  DESTDIR            empty; put in front of all of these, to make a package
  GX                 the program to install, crates/gx/out/gx
  COMMIT             the commit that gx --version tells, in 40 digits; that of
                     this folder, where it is a checkout without changes
END
}

fail() {
  echo "install.sh: $1" >&2
  exit 1
}

# runs a command on each file: its mode, where it is, and where it goes
for_each_file() {
  "$1" 755 "${stamped:-$program}" "${BINDIR:-$prefix/bin}/gx"
  for script in git-remote-gx gx-mirror git-objects; do
    "$1" 755 "$root/scripts/$script" "${BINDIR:-$prefix/bin}/$script"
  done
  for manual in gx git-remote-gx gx-mirror; do
    "$1" 644 "$root/docs/$manual.1" "${MANDIR:-$prefix/share/man}/man1/$manual.1"
  done
  "$1" 644 "$root/completions/gx.bash" "${BASHCOMPLETIONDIR:-$prefix/share/bash-completion/completions}/gx"
  "$1" 644 "$root/completions/_gx" "${ZSHCOMPLETIONDIR:-$prefix/share/zsh/site-functions}/_gx"
}

# the same of the files of the library, which were made in a folder
for_each_library_file() {
  local library=${LIBDIR:-$prefix/lib} python=${PYTHONDIR:-$prefix/lib/python3/dist-packages}
  "$1" 644 "$made/libginlarch.a" "$library/libginlarch.a"
  "$1" 755 "$made/libginlarch.so" "$library/libginlarch.so.1"
  "$1" 755 "$made/libginlarch.so" "$library/libginlarch.so"
  "$1" 644 "$made/ginlarch.pc" "$library/pkgconfig/ginlarch.pc"
  "$1" 644 "$root/include/ginlarch.h" "${INCLUDEDIR:-$prefix/include}/ginlarch.h"
  for module in __init__ calls faults files; do
    "$1" 644 "$root/python/ginlarch/$module.py" "$python/ginlarch/$module.py"
  done
}

make_library() {
  "$root/scripts/library.sh" "$made" > /dev/null
  cat > "$made/ginlarch.pc" << END
libdir=${LIBDIR:-$prefix/lib}
includedir=${INCLUDEDIR:-$prefix/include}

Name: ginlarch
Description: The proved core of a Git repository
Version: 1.0.0
Libs: -L\${libdir} -lginlarch
Cflags: -I\${includedir}
END
}

# before anything is done: DESTDIR stands in front of whole paths alone
want_whole_path() { [[ $3 = /* ]] || fail "not a path from /: $3"; }

# The commit's name, or nothing. A checkout with changes is of no commit.
commit_name() {
  if [ -n "${COMMIT:-}" ]; then
    echo "$COMMIT"
  elif [ -z "$(git -C "$root" status --porcelain 2>&1)" ]; then
    git -C "$root" rev-parse HEAD
  fi
}

# The program has forty bytes for a commit's name, which are replaced in its copy.
copy_stamped() {
  local commit
  commit=$(commit_name)
  if [[ $commit =~ ^[0-9a-f]{40}$ ]]; then
    LC_ALL=C sed "s/not installed: a commit's name goes here/$commit/" "$program" > "$1"
  else
    cat "$program" > "$1"
  fi
}

install_file() {
  install -D -T -m "$1" "$2" "${DESTDIR:-}$3"
  echo "installed ${DESTDIR:-}$3" >&2
}

remove_file() {
  local file=${DESTDIR:-}$3
  if [ -e "$file" ] || [ -L "$file" ]; then
    rm -f "$file"
    echo "removed $file" >&2
  fi
}

if [ "${1:-}" = --library ]; then
  made=$(mktemp -d)
  trap 'rm -rf "$made"' EXIT
  for_each_library_file want_whole_path
  case $#:${2:-} in
    1:) make_library && for_each_library_file install_file ;;
    2:--uninstall) for_each_library_file remove_file ;;
    *) usage >&2 && exit 2 ;;
  esac
  exit
fi

case $#:${1:-} in
  0:)
    [[ ${COMMIT:-0000000000000000000000000000000000000000} =~ ^[0-9a-f]{40}$ ]] || fail "no commit: $COMMIT"
    [ -f "$program" ] || fail "$program isn't there; build it: (cd crates/gx && rt run -- blobs < stdin)"
    for_each_file want_whole_path
    stamped=$(mktemp)
    trap 'rm -f "$stamped"' EXIT
    copy_stamped "$stamped"
    for_each_file install_file
    ;;
  1:--uninstall)
    for_each_file want_whole_path
    for_each_file remove_file
    ;;
  1:--help) usage ;;
  *)
    usage >&2
    exit 2
    ;;
esac
