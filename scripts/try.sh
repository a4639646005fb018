#!/usr/bin/env bash
# Tries the program on a repository of git: brings it into a store, looks at it, writes it back into a
# new repository, and compares each time. The repository stays as it is. Status 1 tells a difference.
#   scripts/try.sh GX [REPOSITORY]     REPOSITORY: this one, where none is named
set -euo pipefail
usage() {
  echo "usage: scripts/try.sh GX [REPOSITORY]" >&2
  exit 2
}
[ $# -eq 1 ] || [ $# -eq 2 ] || usage
gx=$(realpath "$1")
repository=${2:-$(dirname "$0")/..}
export LC_ALL=C.UTF-8

fail() {
  echo "try.sh: $1" >&2
  exit 1
}

git -C "$repository" rev-parse --git-dir > /dev/null 2>&1 || fail "$repository is no repository of git"
repository=$(realpath "$repository")
[ -n "$(git -C "$repository" for-each-ref --count=1)" ] || fail "$repository has no commit yet"
folder=$(mktemp -d)
trap 'rm -rf "$folder"' EXIT
ln -s "$repository" "$folder/project"
store=$folder/store.gx
differ=0

step() { printf '\n%s\n' "$1"; }

# runs a command as a reader types it, with the program in PATH, and shows both
shown() {
  printf '  $ %s\n' "${1//$'\n'/$'\n  > '}"
  (cd "$folder" && PATH=$(dirname "$gx"):$PATH bash -o pipefail -c "$1" 2>&1) | sed 's/^/  /'
}

# the refs of a repository, as `gx refs` prints them; of one that names another ref, as origin/HEAD does,
# git's stream may have a ref or none
refs_of() { git -C "$1" for-each-ref --format='%(objectname) %(refname) %(symref)' | sed -n 's/ $//p' | sort; }

symbolic_refs_of() {
  echo HEAD
  git -C "$1" for-each-ref --format='%(refname) %(symref)' | sed -n 's/ ..*//p'
}

# tells whether two lists are the same, or how they begin to differ: compare WHAT FOUND WANTED
compare() {
  if cmp -s "$2" "$3"; then
    echo "  $1: the same, all $(wc -l < "$3")"
  else
    differ=1
    echo "  $1: not the same. What stands here, and what should:"
    diff "$2" "$3" | sed -n '2,9s/^/    /p' || true
  fi
}

step "1. All refs of $repository go into a store"
shown 'gx init --growing store.gx'
shown 'git -C project fast-export --use-done-feature --signed-tags=verbatim --reencode=no --all |
  gx import --done store.gx'
echo "  store.gx has $(wc -c < "$store") bytes"

step '2. The names of its refs, which tell all files and all history, are compared with git'"'"'s'
refs_of "$repository" > "$folder/wanted"
symbolic_refs_of "$repository" > "$folder/symbolic"
"$gx" refs "$store" | awk 'NR == FNR { left[$0] = 1; next } !left[$2]' "$folder/symbolic" - | sort > "$folder/refs"
compare refs "$folder/refs" "$folder/wanted"

ref=$(git -C "$repository" symbolic-ref -q HEAD || true)
grep -q " $ref\$" "$folder/refs" || ref=$(sed 's/^[^ ]* //;q' "$folder/refs")
step "3. $ref is listed, and a file of it is shown"
shown "gx log --format=subject -n 3 store.gx $ref"
shown "gx ls -r store.gx $ref > files; head -n 5 files"
# a plain name that a shell takes as it is, a README if there is one
path=$(awk -F '\t' '/^100/ && $2 ~ /^[A-Za-z0-9._\/-]+$/ { if (!any) any = $2; if (!readme && $2 ~ /README/) readme = $2 }
  END { print readme ? readme : any }' "$folder/files")
[ -z "$path" ] || shown "gx show store.gx $ref:$path > file; head -n 3 file"

step '4. The store goes back into a new repository of git, whose names and files are compared'
shown 'git init -q --bare again.git'
shown 'gx export --changes store.gx | git -C again.git fast-import --quiet'
refs_of "$folder/again.git" > "$folder/again"
compare refs "$folder/again" "$folder/refs"
git -C "$folder/again.git" ls-tree -r "$ref" > "$folder/again.files"
compare "files of $ref" "$folder/again.files" "$folder/files"

if [ "$differ" = 0 ]; then
  step "All is the same. The program stays at $gx"
else
  step 'docs/CONVERTING.md, "From git", tells what git leaves out of a stream'
fi
exit "$differ"
