#!/usr/bin/env bash
# Takes repositories that Debian's source packages have into stores, by `gx import --objects`, and back by `gx bundle`, and compares refs and objects with
# git's. The repositories: fixtures of go-git (packs and directories), resources of libgit2's tests, and what test scripts of git leave. Tells of each set how
# many `git fsck` accepts, and how many of these come back equal; and of each other one the cause.
#   bench/objects.sh [FOLDER [SET..]]      SET: packs, directories, libgit2, tests; FOLDER: where sources and repositories stay; one of its own, dropped at the
#                                          end, if it is left out
# GX names the program, crates/gx/out/gx if it isn't set; OBJECTS what prints a repository's objects, scripts/git-objects if it isn't set; SCRIPTS the test
# scripts of git, by their names. It needs git, python3 and dpkg-dev, and some minutes for git's tests. Status 1 tells that one came back with a difference.
set -euo pipefail
cd "$(dirname "$0")/.."
if [ $# -gt 0 ]; then
  folder=$1
  shift
  mkdir -p "$folder"
else
  folder=$(mktemp -d)
  trap 'rm -rf "$folder"' EXIT
fi
sets=("$@")
[ ${#sets[@]} -gt 0 ] || sets=(packs directories libgit2 tests)
folder=$(cd "$folder" && pwd)
gx=$(realpath -m "${GX:-crates/gx/out/gx}")
objects=$(realpath -m "${OBJECTS:-scripts/git-objects}")
for program in "$gx" "$objects"; do
  [ -x "$program" ] || {
    echo "objects.sh: there is no $program" >&2
    exit 2
  }
done
# those of commits, tags, refs, merges, packs, submodules, shallow and damaged repositories
read -ra scripts <<< "${SCRIPTS:-t1450-fsck t3070-wildmatch t3200-branch t3301-notes t3400-rebase t3501-revert-cherry-pick t3900-i18n-commit t4013-diff-various
  t4150-am t4202-log t5300-pack-object t5304-prune t5400-send-pack t5500-fetch-pack t5510-fetch t5515-fetch-merge-logic t5516-fetch-push t5537-fetch-shallow
  t5601-clone t6000-rev-list-misc t6012-rev-list-simplify t6050-replace t6120-describe t6300-for-each-ref t6302-for-each-ref-filter t7004-tag t7030-verify-tag
  t7400-submodule-basic t7501-commit-basic-functionality t7510-signed-commit t7600-merge t7700-repack t9300-fast-import t9301-fast-import-notes
  t9350-fast-export t9351-fast-export-anonymize}"
export HOME=$folder/home TZ=UTC LC_ALL=C.UTF-8 GIT_CONFIG_NOSYSTEM=1 GIT_NO_REPLACE_OBJECTS=1
mkdir -p "$HOME" "$folder/sources"
git config --global safe.directory '*'
git config --global init.defaultBranch main

top=$PWD
source_of() { "$top/scripts/debian_source.sh" "$1" "$folder/sources"; }

# The sets: each leaves its repositories below the current folder

# a pack alone has no refs: its tips get them
make_packs() {
  local pack name
  for pack in "$(source_of golang-github-go-git-go-git-fixtures)"/data/*.pack; do
    name=$(basename "$pack" .pack)
    git init -q --bare "$name" && cp "$pack" "$name/objects/pack/"
    git -C "$name" index-pack "objects/pack/$name.pack" > "$name/told" 2>&1 || continue
    git -C "$name" fsck --full --no-progress 2> /dev/null | awk '
      $1 == "dangling" { printf "create refs/%s/tip%d %s\n", $2 == "tag" ? "tags" : $2 == "commit" ? "heads" : "others", ++count, $3 }' |
      git -C "$name" update-ref --stdin
  done
}

make_directories() {
  local archive
  for archive in "$(source_of golang-github-go-git-go-git-fixtures)"/data/*.tgz; do
    mkdir -p "$(basename "$archive" .tgz)" && tar -xzf "$archive" -C "$(basename "$archive" .tgz)"
  done
}

make_libgit2() { cp -a "$(source_of libgit2)/tests/resources/." .; }

# a script that is cut off is told, and leaves repositories, too
make_tests() { "$top/scripts/git_tests.sh" "$(source_of git)" "$PWD" "${scripts[@]}" || true; }

# the directories of repositories below the current folder: git wants `refs` in each, and archives leave out empty folders
repositories() {
  local head
  find . -name HEAD \( -type f -o -type l \) -print0 | sort -z | while IFS= read -r -d '' head; do
    [ -d "${head%/HEAD}/objects" ] || continue
    mkdir -p "${head%/HEAD}/refs"
    git --git-dir="${head%/HEAD}" rev-parse --git-dir > /dev/null 2>&1 && printf '%s\0' "${head%/HEAD}"
  done || true
}

refs_in() { git --git-dir="$1" for-each-ref --format='%(objectname) %(refname)'; }
# a HEAD of its own isn't asked, so `--all` doesn't do
objects_in() {
  git --git-dir="$1" for-each-ref --format='%(objectname)' | git --git-dir="$1" rev-list --objects --no-object-names --stdin |
    git --git-dir="$1" cat-file --batch-check | sort
}

# how it went: `equal`, `differs: WHAT`, or what refused it, without its numbers and names
went() {
  local here=$1
  rm -rf "$folder/store" "$folder/back"
  "$gx" init "$folder/store"
  if ! "$objects" "$here" 2> "$folder/told" | "$gx" --explain import --objects "$folder/store" 2> "$folder/fault"; then
    cat "$folder/fault" "$folder/told" | head -n 3 > "$folder/cause"
    head -n 1 "$folder/cause" | sed -E 's/object [0-9]+: //; s/[0-9a-f]{40}/NAME/g; s/^gx: //'
    return
  fi
  git init -q --bare "$folder/back"
  if ! "$gx" bundle "$folder/store" > "$folder/bundle" 2> "$folder/cause"; then
    sed 's/^gx: //; q' "$folder/cause"
  elif ! git -C "$folder/back" fetch -q --no-write-fetch-head "$folder/bundle" '+refs/*:refs/*' 2> "$folder/cause"; then
    echo 'differs: git refuses the bundle'
  elif ! cmp -s <(refs_in "$here") <(refs_in "$folder/back"); then
    echo 'differs: refs'
  elif ! cmp -s <(objects_in "$here") <(objects_in "$folder/back"); then
    echo 'differs: objects'
  else
    echo equal
  fi
}

failed=0
try_set() {
  local how here name
  local -A ended=([repositories]=0 [fsck]=0 [empty]=0 [equal]=0)
  local -a causes=()
  while IFS= read -r -d '' here <&3; do
    ended[repositories]=$((ended[repositories] + 1))
    git --git-dir="$here" fsck --full --no-dangling --no-progress > "$folder/fsck" 2>&1 || continue
    ended[fsck]=$((ended[fsck] + 1))
    name=${here#./}
    if [ -z "$(refs_in "$here")" ]; then
      ended[empty]=$((ended[empty] + 1))
      continue
    fi
    how=$(went "$here")
    if [ "$how" = equal ]; then
      ended[equal]=$((ended[equal] + 1))
    else
      causes+=("$how")
      echo "  $name: $how"
      [[ $how != differs* ]] || failed=1
    fi
  done 3< <(repositories)
  echo "$1: repositories ${ended[repositories]}, fsck takes ${ended[fsck]}, without refs ${ended[empty]}, back equal ${ended[equal]}, not ${#causes[@]}"
  [ ${#causes[@]} -eq 0 ] || printf '%s\n' "${causes[@]}" | sort | uniq -c | sort -rn | sed 's/^ */  /'
}

for set in "${sets[@]}"; do
  if [ ! -d "$folder/$set" ]; then
    mkdir -p "$folder/$set.new"
    (cd "$folder/$set.new" && "make_$set")
    mv "$folder/$set.new" "$folder/$set"
  fi
  (cd "$folder/$set" && try_set "$set" && exit $failed) || failed=1
done
exit $failed
