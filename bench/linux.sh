#!/usr/bin/env bash
# Writes the sources of Linux 6.1 to standard output as a stream: the tar of Debian's package linux-source-6.1, through Git's own import-tars.perl. It is one
# commit of 78,635 files, 1.3 GB, and a tag. The same version of the package gives the same stream.
#   bench/linux.sh > STREAM
# PACKAGE: another package with sources, linux-source-6.1 if it isn't set. It is downloaded by apt-get and not installed, which needs no rights and the lists
# of `apt-get update`. It needs git's own package, for import-tars.perl, and perl, xz and 300 MB of disk.
set -euo pipefail
package=${PACKAGE:-linux-source-6.1}
import_tars=/usr/share/doc/git/contrib/fast-import/import-tars.perl
[ -f "$import_tars" ] || {
  echo "$import_tars isn't there, which is in Debian's package git" >&2
  exit 2
}
folder=$(mktemp -d)
trap 'rm -rf "$folder"' EXIT
cd "$folder"
DEBIAN_FRONTEND=noninteractive apt-get -qq -o DPkg::Lock::Timeout=60 -o APT::Sandbox::User=root download "$package" >&2
ls "$package"_*.deb >&2
dpkg-deb --fsys-tarfile "$package"_*.deb | tar -xO "./usr/src/$package.tar.xz" > "$package.tar.xz"

# import-tars.perl starts `git fast-import`: here a `git` that hands on what that one is given. Each run has the same clock, and lists files in the same order.
mkdir bin
printf '#!/bin/sh\nexec cat\n' > bin/git
chmod +x bin/git
PATH=$folder/bin:$PATH PERL_HASH_SEED=0 GIT_COMMITTER_NAME=Tar GIT_COMMITTER_EMAIL=tar@example.com \
  perl -e 'BEGIN { *CORE::GLOBAL::time = sub () { 1700000000 } } do shift or die $@ || $!' "$import_tars" "$package.tar.xz"
