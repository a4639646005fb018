# One small history in the repositories of several systems, as far as each has such things: branches, a merge, tags, renames, modes and odd names. It is
# sourced by bench/real.sh, and each function makes a repository of the name that it is given in the current folder. The variables: `story`, which is
# `plain`, `quote` (with a file whose name begins with a double quote), `people` (by one without a name and one without an email) or `gone` (with a branch
# that is no more); and `ann`, `bob` and `cas`, who they are.
# shellcheck shell=bash disable=SC2103,SC2154,SC2164

first_files() {
  mkdir -p src/deep
  echo one > README
  echo deep > src/deep/file
  echo odd > 'a name.txt'
  echo odd > 'naïve.txt'
  printf '#!/bin/sh\n' > run
  chmod +x run
  [ "$story" != quote ] || echo quoted > '"quoted'
}

with_link() { ln -s README link; }
with_tab() { echo tab > $'a\ttab'; }

# what git does for somebody, as by 'Bob <bob@example.com>' commit
tick=1700000000
by() {
  local who=$1 email
  shift
  tick=$((tick + 60))
  [[ $who == *'<'* ]] || who="$who <>"
  email=${who#*<}
  GIT_AUTHOR_NAME=${who% <*} GIT_AUTHOR_EMAIL=${email%>} GIT_AUTHOR_DATE="$tick +0100" GIT_COMMITTER_DATE="$tick +0000" git "$@"
}

git_repository() {
  git init -q -b main "$1"; cd "$1"
  first_files; with_link; with_tab; mkdir doc; echo guide > doc/guide
  git add -A; by "$ann" commit -q -m First
  git tag light; by "$ann" tag -a v1 -m 'The first version'
  git checkout -q -b topic; echo topic > doc/topic; chmod +x README
  git add -A; by 'Bob <bob@example.com>' commit -q -m Topic
  if [ "$story" = people ]; then
    git reset -q --soft "$(git cat-file commit HEAD | sed 's/^author Bob </author </' | git hash-object --literally -t commit -w --stdin)"
  fi
  git checkout -q main; git mv src/deep src/moved; echo two >> README
  git update-index --add --cacheinfo 160000,d670460b4b4aece5915caf5c68d12f560a9fe3e4,module
  git add README; by "$cas" commit -q -m 'Move a folder, add a module'
  by "$ann" merge -q --no-ff -m 'Merge topic' topic; by "$ann" tag -a v2 -m 'The second version'
  git rm -q -r doc; echo file > doc; git add doc; by "$ann" commit -q -m 'A file in the place of a folder'
  git rm -q doc; mkdir doc; echo guide > doc/guide; git add doc; by "$ann" commit -q -m 'A folder in the place of a file'
  git checkout -q --orphan gone; git rm -q -r -f .; echo gone > gone; git add gone; by "$ann" commit -q -m Gone
  git checkout -q main
}

svn_by() {
  local who=$1
  shift
  svn -q --no-auth-cache --username "$who" "$@"
}

svn_repository() {
  local url=file://$PWD/$1
  svnadmin create "$1"
  svn_by Ann mkdir -m Layout "$url/trunk" "$url/branches" "$url/tags"; svn_by Ann checkout "$url/trunk" work; cd work
  first_files; with_link; mkdir empty; svn_by Ann add --force .; svn_by Ann commit -m First
  svn_by Ann copy -m Tag "$url/trunk" "$url/tags/v1"; svn_by Ann copy -m Branch "$url/trunk" "$url/branches/topic"
  svn_by Ann switch "$url/branches/topic"; echo topic > news; svn_by Ann add news; svn_by Bob commit -m Topic
  svn_by Ann switch "$url/trunk"; svn_by Ann move src/deep src/moved; echo two >> README; svn_by Cas commit -m 'Move a folder'
  svn_by Ann update; svn_by Ann merge "$url/branches/topic"; svn_by Ann commit -m 'Merge topic'; svn_by Ann copy -m Tag "$url/trunk" "$url/tags/v2"
  if [ "$story" = gone ]; then
    svn_by Ann copy -m Branch "$url/trunk" "$url/branches/gone"; svn_by Ann delete -m 'Drop it' "$url/branches/gone"
  fi
  if [ "$story" = people ]; then
    printf '#!/bin/sh\n' > "../$1/hooks/pre-revprop-change"; chmod +x "../$1/hooks/pre-revprop-change"
    svn -q propdel svn:author --revprop -r 5 "$url"
  fi
}

hg_repository() {
  hg -q init "$1"; cd "$1"
  first_files; with_link; with_tab; hg -q commit -A -u "$ann" -d '1700000000 0' -m First
  hg tag -u "$ann" -d '1700000060 0' v1
  hg -q branch topic; echo topic > topic; hg -q commit -A -u "$bob" -d '1700000120 -3600' -m Topic
  hg -q update default; hg -q move src/deep src/moved; echo two >> README; hg -q commit -u "$cas" -d '1700000180 0' -m 'Move a folder'
  hg -q merge topic; hg -q commit -u "$ann" -d '1700000240 0' -m 'Merge topic'
  if [ "$story" = gone ]; then
    hg -q update topic; hg -q commit --close-branch -u "$ann" -d '1700000300 0' -m 'Close it'; hg -q update default
  fi
}

cvs_repository() {
  cvs -Q -d "$PWD/$1" init; mkdir "$1/module"; cvs -Q -d "$PWD/$1" checkout module; cd module
  first_files; with_tab; cvs -Q add src; cvs -Q add src/deep; find . -type f ! -path '*/CVS/*' -print0 | xargs -0 cvs -Q add
  cvs -Q commit -m First; cvs -Q tag v1; cvs -Q tag -b topic; cvs -Q tag -b gone; sleep 1
  mkdir moved; cvs -Q add moved; mv src/deep/file moved; cvs -Q remove src/deep/file; cvs -Q add moved/file; cvs -Q commit -m 'Move a file'
  cvs -Q update -r topic; echo topic >> README; cvs -Q commit -m Topic; sleep 1
  cvs -Q update -r gone; echo gone >> README; cvs -Q commit -m Gone; cvs -Q update -A
  [ "$story" != gone ] || cvs -Q rtag -d -B gone module
}

brz_repository() {
  export BRZ_EMAIL=$ann
  brz init-shared-repo -q "$1"; cd "$1"; brz init -q trunk; cd trunk
  first_files; with_link; with_tab; brz add -q; brz commit -q -m First; brz tag -q v1; cd ..
  brz branch -q trunk topic; cd topic; echo topic > topic; brz add -q; BRZ_EMAIL=$bob brz commit -q -m Topic; cd ../trunk
  brz move -q src/deep/file src/moved; echo two >> README; BRZ_EMAIL=$cas brz commit -q -m 'Move a file'
  brz merge -q ../topic; brz commit -q -m 'Merge topic' --author "$bob"; brz tag -q v2
}

fossil_repository() {
  export FOSSIL_USER=Ann USER=Ann
  fossil init -A Ann "$1"; mkdir work; cd work; fossil open "../$1"; fossil settings allow-symlinks on
  first_files; with_link; fossil add .; fossil commit --no-warnings -m First; fossil tag add v1 trunk; sleep 1
  echo topic > topic; fossil add topic; fossil commit --no-warnings --branch topic --user-override "${bob% <*}" -m Topic
  fossil update trunk; fossil mv --hard src/deep/file src/moved; echo two >> README; fossil commit --no-warnings -m 'Move a file'
  fossil merge topic; fossil commit --no-warnings -m 'Merge topic'; fossil tag add 'two words' trunk
  [ "$story" != gone ] || fossil tag add --raw closed topic
}

darcs_repository() {
  darcs init -q "$1"; cd "$1"
  first_files; with_tab; darcs add -q --reserved-ok -r [!_]*; darcs record -q -a -A "$ann" -m First; darcs tag -q -A "$ann" v1
  darcs move -q src/deep src/moved; echo two >> README; darcs record -q -a -A "$bob" -m 'Move a folder'
  echo three >> README; darcs record -q -a -A "$cas" -m Three; darcs tag -q -A "$cas" 'two words'
}

src_repository() {
  mkdir "$1"; cd "$1"; echo one > file; src commit -m First file; src tag create v1 file
  echo two >> file; src commit -m Second file; src checkout 1 file; echo three >> file; src commit -m Third file
}

inbox_repository() {
  local who number=0
  public-inbox-init -V2 -L basic list "$PWD/$1" http://example.com/list list@example.com
  git config -f "$HOME/.public-inbox/config" publicinboxmda.spamcheck none
  for who in "$ann" "$bob" 'Zoë <zoe@example.com>'; do
    number=$((number + 1))
    printf 'From: %s\nTo: list@example.com\nSubject: A letter\nMessage-ID: <%s@example.com>\nDate: Thu, 1 Jan 2024 00:00:00 +0000\n\nHello\n' "$who" $number |
      ORIGINAL_RECIPIENT=list@example.com public-inbox-mda --no-precheck
  done
}
