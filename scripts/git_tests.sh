#!/usr/bin/env bash
# Runs test scripts of git's source over the installed git, and keeps what each leaves in OUT/trash directory.NAME
# with its output in OUT/NAME.log. A test that fails is no fault here: what it leaves is looked at. Status 1 tells, with
# a line each, that a script didn't come to its end within an hour, or LIMIT seconds.
#   scripts/git_tests.sh SOURCE OUT SCRIPT..      SOURCE: the folder of git's source; SCRIPT: as t9300-fast-import
# GIT_BIN names a folder whose `git` is run in place of the installed one. Two run at a time, or JOBS.
set -euo pipefail
[ $# -gt 2 ] || {
  echo "usage: scripts/git_tests.sh SOURCE OUT SCRIPT.." >&2
  exit 2
}
here=$(cd "$(dirname "$0")" && pwd)
source=$(cd "$1" && pwd)
mkdir -p "$2"
out=$(cd "$2" && pwd)
shift 2

# What the tests want of a build that isn't there. `git_test_tool.py` has few of the commands of git's helper.
printf "%s=''\n" X NO_PERL NO_PTHREADS NO_REGEX NO_UNIX_SOCKETS SANITIZE_LEAK SANITIZE_ADDRESS > "$source/GIT-BUILD-OPTIONS"
printf "%s='%s'\n" SHELL_PATH /bin/sh TEST_SHELL_PATH /bin/sh PERL_PATH /usr/bin/perl PYTHON_PATH /usr/bin/python3 DIFF diff TAR tar \
  NO_CURL YesPlease NO_EXPAT YesPlease NO_PYTHON YesPlease USE_LIBPCRE2 YesPlease NO_GETTEXT YesPlease PAGER_ENV LESS=FRX >> "$source/GIT-BUILD-OPTIONS"
ln -sfn /usr/share/git-core/templates "$source/templates/blt"
ln -sf "$here/git_test_tool.py" "$source/t/helper/test-tool"

GIT_TEST_INSTALLED=${GIT_BIN:-$(dirname "$(command -v git)")}
export GIT_TEST_INSTALLED OUT=$out
# shellcheck disable=SC2016  # $0 is the inner shell's
printf '%s\0' "$@" | (cd "$source/t" && xargs -0 -n 1 -P "${JOBS:-2}" \
  sh -c 'TEST_LOG=$OUT/$0.log; export TEST_LOG; exec timeout "${LIMIT:-3600}" sh "./$0.sh" -d -v --root="$OUT" > "$TEST_LOG" 2>&1 < /dev/null') || true

# signed tests leave agents of gpg
for home in "$out"/*/gpghome; do
  [ ! -d "$home" ] || gpgconf --homedir "$home" --kill gpg-agent || true
done

# a script that comes to its end, or is left out as a whole, says how many tests it has
cut=0
for script in "$@"; do
  grep -qaE '^1\.\.[0-9]+' "$out/$script.log" || {
    echo "git_tests.sh: $script didn't come to its end" >&2
    cut=1
  }
done
exit $cut
