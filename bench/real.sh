#!/usr/bin/env bash
# Has small repositories of several systems converted by the converters of the table below, runs each stream through `gx adapt`, and compares what
# `gx import` makes of what comes out with what `git fast-import` makes of it: all refs, all commits with their parents, the name of each path of each ref,
# the files of each commit, and the bytes of each object. Tells what was adapted, what gx makes of the stream as it was, and whether git gives its refs
# the same names as those of the adapted one. At the end it says which converters ran, and which were left out.
#   bench/real.sh [FOLDER [CONVERTER..]]      CONVERTER: also rounds, of a repository that grows; FOLDER: where to keep repositories and streams; one of its own, dropped at the end, if it is left out
# GX names the program; without it crates/gx is built, which needs rt. A converter is left out, and named, where one of its programs is missing. Debian's
# packages have the programs' names, but for hg (mercurial), hggit (mercurial-git), svn and svnadmin (subversion), src (simple-revision-control),
# fastimport (python3-fastimport), public-inbox-mda (public-inbox), and import-tars.perl, which is in git's package.
# Status 1 says that a converter failed; that an adapted stream is refused or differs from git's import of it, or has other names than git gives the stream as it
# was; or that gx makes something else of that one than the table tells.
set -euo pipefail
cd "$(dirname "$0")/.."
. bench/story.bash

# Each converter, its programs, and its stories (bench/story.bash). Behind `=` stands what gx makes of the stream as it is: the fault, or `names` where an
# identity begins with `<`, so that commits get other names than git's.
table='
git-fast-export     git                              plain quote people=names gone=Unsupported
git-filter-repo     git-filter-repo                  plain quote gone=Unsupported
hg-fastexport       hg                               plain quote=BadPath people=names gone
breezy              brz                              plain quote=BadPath people=names
fossil              fossil                           plain quote=BadPath people gone
darcs               darcs                            plain quote people
cvs-fast-export     cvs,cvs-fast-export              plain quote=BadPath gone
reposurgeon-hg      hg,reposurgeon                   plain quote=BadPath people gone
reposurgeon-svn     svn,svnadmin,reposurgeon         plain quote=BadPath people gone
reposurgeon-src     src,reposurgeon                  plain
svn-all-fast-export svn,svnadmin,svn-all-fast-export plain quote=BadPath people gone=Unsupported
git-svn             svn,svnadmin,git-svn             plain quote people gone
svn2git             svn,svnadmin,git-svn,svn2git     plain quote people
hg-git              hg,hggit                         plain quote people gone
python3-fastimport  fastimport                       plain quote=BadPath people=names
public-inbox        public-inbox-mda                 plain people
import-tars         import-tars.perl                 plain quote=BadPath
'

if [ $# -gt 0 ]; then
  folder=$1
  shift
  mkdir -p "$folder"
else
  folder=$(mktemp -d)
  trap 'rm -rf "$folder"' EXIT
fi
chosen=("$@")
folder=$(cd "$folder" && pwd)
gx=${GX:-crates/gx/out/gx}
[ -x "$gx" ] || (cd crates/gx && rt run -- blobs < /dev/null)
gx=$(realpath "$gx")

# no settings of the user
export HOME=$folder/home TZ=UTC LC_ALL=C.UTF-8 GIT_CONFIG_NOSYSTEM=1 HGRCPATH=
ann='Ann <ann@example.com>'
rm -rf "$HOME"
mkdir -p "$HOME"
git config --global user.name Ann
git config --global user.email ann@example.com
import_tars=/usr/share/doc/git/contrib/fast-import/import-tars.perl

# The converters. Each makes its repository in the current folder, and writes the stream to the descriptor 3.

run_git_fast_export() {
  local -a wanted=(--all)
  (git_repository repo)
  [ "$story" != gone ] || wanted=(--all --tag-of-filtered-object=rewrite -- src)
  git -C repo fast-export --full-tree "${wanted[@]}" >&3
}

run_git_filter_repo() {
  local -a wanted=()
  (git_repository repo)
  [ "$story" != gone ] || wanted=(--path src)
  echo 'one==>eins' > words
  git -C repo filter-repo --force --dry-run --replace-text "$PWD/words" "${wanted[@]}"
  cat repo/.git/filter-repo/fast-export.filtered >&3
}

run_hg_fastexport() {
  (hg_repository repo)
  hg -R repo --config extensions.fastexport= fastexport >&3
}

run_breezy() {
  (brz_repository repo)
  brz fast-export --plain repo/trunk >&3
}

run_fossil() {
  (fossil_repository repo)
  fossil export --git repo >&3
}

run_darcs() {
  (darcs_repository repo)
  darcs convert export -q --repodir repo >&3
}

run_cvs_fast_export() {
  (LOGNAME=ann cvs_repository cvsroot)
  find cvsroot/module -name '*,v' | cvs-fast-export >&3
}

run_reposurgeon_hg() {
  (hg_repository repo)
  reposurgeon 'read repo' 'prefer git' 'write -' >&3
}

run_reposurgeon_svn() {
  (svn_repository repo)
  svnadmin dump -q repo > repo.dump
  reposurgeon 'read <repo.dump' 'prefer git' 'write -' >&3
}

run_reposurgeon_src() {
  (src_repository repo)
  cd repo && reposurgeon 'read .' 'prefer git' 'write -' >&3
}

run_svn_all_fast_export() {
  (svn_repository repo)
  printf '%s\n' 'create repository out' 'end repository' 'match /trunk/' 'repository out' 'branch master' 'end match' 'match /branches/([^/]+)/' \
    'repository out' 'branch \1' 'end match' 'match /tags/([^/]+)/' 'repository out' 'branch refs/tags/\1' 'annotated true' 'end match' \
    'match /' 'end match' > rules
  svn-all-fast-export --create-dump --rules rules --identity-domain example.com --empty-dirs repo
  cat out.fi >&3
}

run_git_svn() {
  (svn_repository repo)
  git svn clone -q --stdlayout "file://$PWD/repo" clone
  git -C clone fast-export --all --full-tree >&3
}

run_svn2git() {
  (svn_repository repo)
  mkdir clone && cd clone && svn2git --nobranches "file://${PWD%/*}/repo"
  git fast-export --all --full-tree >&3
}

run_hg_git() {
  (hg_repository repo)
  git init -q --bare clone && cd repo && hg bookmark -r default main && hg bookmark -r topic side
  hg -q --config extensions.hggit= push ../clone
  git -C ../clone fast-export --all --full-tree >&3
}

# `python3` may be another one, which doesn't see Debian's modules
run_python3_fastimport() {
  (git_repository repo)
  git -C repo fast-export --all | /usr/bin/python3 -c 'import sys
from fastimport.parser import ImportParser
from fastimport.processors.filter_processor import FilterProcessor
FilterProcessor(params={b"exclude_paths": [b"doc/", b"module"]}, outf=sys.stdout.buffer).process(ImportParser(sys.stdin.buffer).iter_commands)' >&3
}

run_public_inbox() {
  (inbox_repository repo)
  git -C repo/git/0.git fast-export --all --full-tree >&3
}

# it starts `git fast-import`; here a `git` that hands on what that one is given
run_import_tars() {
  mkdir p-1 bin && (cd p-1 && first_files && with_link && with_tab) && tar -cf p-1.tar p-1
  mv p-1 p-2 && echo two >> p-2/README && tar -czf p-2.tar.gz p-2
  printf '#!/bin/sh\ncat\n' > bin/git && chmod +x bin/git
  PATH=$PWD/bin:$PATH perl "$import_tars" p-1.tar p-2.tar.gz >&3
}

there() {
  case $1 in
    git-svn) [ -x "$(git --exec-path)/git-svn" ] ;;
    hggit) ! hg --config extensions.hggit= version 2>&1 | grep -q 'failed to import' ;;
    fastimport) /usr/bin/python3 -c 'import fastimport' ;;
    import-tars.perl) [ -f "$import_tars" ] ;;
    *) command -v "$1" ;;
  esac > "$folder/found" 2>&1
}

# The two importers: each makes its repository of a stream, anew

by_git() {
  rm -rf git && git init -q --bare git
  git -C git fast-import --quiet < "$1" > git.progress 2> git.fault
}

by_gx() {
  rm -f store && "$gx" init store
  "$gx" import store < "$1" > gx.progress 2> gx.fault
}

# what to ask both: their refs, each ref's commit and tree, and each path of it; and git's commits and objects
ask() {
  local -a paths
  local ref
  words=()
  mapfile -t refs < <(git -C git for-each-ref --format='%(refname)')
  for ref in "${refs[@]}"; do
    mapfile -d '' -t paths < <(git -C git ls-tree -r -t -z --name-only "$ref")
    words+=("$ref" "$ref^{commit}" "$ref^{tree}" "${paths[@]/#/"$ref:"}")
  done
  mapfile -t commits < <(git -C git rev-list --all)
  mapfile -t objects < <(git -C git cat-file --batch-all-objects --batch-check='%(objectname)')
}

git_answers() {
  local word
  git -C git show-ref
  git -C git rev-list --parents --all | sort
  git -C git rev-parse "${words[@]}"
  for word in "${commits[@]}"; do git -C git ls-tree -r "$word"; done
  for word in "${objects[@]}"; do git -C git cat-file -p "$word"; done
}

gx_answers() {
  local word
  "$gx" refs store
  "$gx" log --parents store "${refs[@]}" | sort
  "$gx" rev-parse store "${words[@]}"
  for word in "${commits[@]}"; do "$gx" ls -r store "$word"; done
  for word in "${objects[@]}"; do "$gx" show store "$word"; done
}

same() {
  ask
  [ ${#commits[@]} -gt 0 ] && git_answers > git.answers && gx_answers > gx.answers 2>&1 && cmp git.answers gx.answers > difference
}

counted() {
  git -C git cat-file --batch-all-objects --batch-check='%(objecttype)' | sort | uniq -c | awk '{ printf ", %s %ss", $1, $2 }'
  echo ", ${#words[@]} revisions"
}

# what gx makes of the stream as it is: `same`, `names`, or its fault
met_by_gx() {
  if ! by_gx stream; then
    sed 's/.*: //' gx.fault
  elif same; then
    echo same
  else
    echo names
  fi
}

# what git says of the stream as it is, beside the adapted one
git_says() {
  if ! by_git stream; then
    echo "git refuses it as it was ($(head -n 1 git.fault))"
  elif git -C git show-ref | cmp -s - adapted.refs; then
    echo 'git gives it the same names as it was'
  else
    echo 'git gives it other names as it was'
  fi
}

# how one story came out: in `met` what gx makes of the stream as it was, in `wrong` what is wrong with the adapted one, and in `told` what is said of both
compare() {
  local said
  met=$expected
  wrong=
  told="$(stat -c %s stream) bytes"
  "$gx" adapt < stream > adapted 2> adapt.told || {
    wrong="it isn't adapted: $(tail -n 1 adapt.told)"
    return 0
  }
  [ ! -s adapt.told ] || told+=", adapted ($(sed 's/^gx: //' adapt.told | paste -s -d ','))"
  by_git adapted || wrong="git refuses it adapted: $(head -n 1 git.fault)"
  by_gx adapted || wrong+="gx refuses it adapted: $(< gx.fault)"
  [ -z "$wrong" ] || return 0
  git -C git show-ref > adapted.refs || true
  same || wrong='gx and git differ adapted'
  told+=$(counted)
  said=$(git_says)
  [[ $said != *' other names '* ]] || wrong+=" $said"
  told+="; $said"
  met=$(met_by_gx)
  [ "$met" = same ] || told+="; gx as it was: $met"
}

failed=0
try_story() {
  local name=$1 story=$2 expected=$3 here=$folder/$1-$2 status=0 bob='Bob <bob@example.com>' cas='Cas <cas@example.com>'
  if [ "$story" = people ]; then
    bob='<bob@example.com>'
    cas=cas
  fi
  rm -rf "$here"
  mkdir -p "$here/home"
  set +e
  (
    set -e
    cd "$here"
    "run_${name//-/_}"
  ) 3> "$here/stream" > "$here/log" 2>&1
  status=$?
  set -e
  cd "$here"
  if [ $status -ne 0 ]; then
    met=$expected
    wrong='the converter failed'
    told=$(tail -n 1 log)
  else
    compare
  fi
  [ "$met" = "$expected" ] || wrong+=" $met instead of $expected as it was"
  [ -z "$wrong" ] || {
    failed=$((failed + 1))
    told="FAIL $wrong, $told"
  }
  printf '%-20s %-7s %s\n' "$name" "$story" "$told"
}

# A repository that grows is followed in rounds: each import brings what the store's refs don't reach. Light tags and new branches come,
# also on old commits; git's export drops an annotated tag of a commit that it leaves out.
bring() {
  local -a known
  mapfile -t known < <("$gx" refs store | sed 's/ .*//; s/^/^/')
  git -C repo fast-export --use-done-feature --reference-excluded-parents --tag-of-filtered-object=drop \
    --signed-tags=verbatim --reencode=no --all "${known[@]}" | "$gx" import --done store
}

grow() {
  cd repo
  case $1 in
    0)
      first_files
      for name in One Two Three; do
        echo $name >> README
        git add -A
        git commit -q -m $name
      done
      git tag light
      git tag -a v1 -m 'The first version'
      ;;
    1) echo three >> README; git commit -q -am More; git tag -a v2 -m 'The second version'; git branch old HEAD~2 ;;
    2) git checkout -q old; echo old > old; git add old; git commit -q -m Old; git tag earlier HEAD~1 ;;
    3) git checkout -q main; git merge -q --no-ff -m 'Merge old' old; git rm -q -r src; git commit -q -m 'No sources' ;;
    4) ;;
  esac
}

follow() {
  local round story=plain
  git init -q -b main repo
  rm -f store && "$gx" init store
  for round in 0 1 2 3 4; do
    (set -e; grow $round)
    bring
    rm -rf git && git clone -q --mirror repo git
    same
  done
}

try_rounds() {
  local here=$folder/rounds status
  rm -rf "$here" && mkdir -p "$here" && cd "$here"
  set +e
  (
    set -e
    follow
  ) > log 2>&1
  status=$?
  set -e
  if [ $status -eq 0 ]; then
    echo 'rounds of a repository that grows: same'
  else
    failed=$((failed + 1))
    echo "FAIL rounds of a repository that grows: $(tail -n 1 log)"
  fi
}

ran=()
left_out=()
while read -r name programs stories; do
  [ ${#chosen[@]} -eq 0 ] || [[ " ${chosen[*]} " == *" $name "* ]] || continue
  missing=
  for program in ${programs//,/ }; do there "$program" || missing+=" $program"; done
  if [ -n "$missing" ]; then
    left_out+=("$name")
    echo "$name is left out, since it needs$missing"
    continue
  fi
  ran+=("$name")
  for word in $stories; do
    expected=same
    [[ $word != *=* ]] || expected=${word#*=}
    try_story "$name" "${word%%=*}" "$expected" < /dev/null
  done
done < <(sed '/^$/d' <<< "$table")
[[ ${#chosen[@]} -gt 0 && " ${chosen[*]} " != *' rounds '* ]] || try_rounds
echo "ran: ${ran[*]-}"
echo "left out: ${left_out[*]-}"
[ $failed -eq 0 ]
