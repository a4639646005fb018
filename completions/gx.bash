# Completion of gx's command lines for bash 4.3 and later. Source this file, or put it where bash-completion looks, as `gx`.
# shellcheck shell=bash

# Sets `words` to the words of the line up to the cursor. bash cuts words also at : and the like, which a revision may hold.
__gx_words() {
  local rest=$COMP_LINE blanks word
  words=()
  for word in "${COMP_WORDS[@]:0:COMP_CWORD+1}"; do
    blanks=${rest%%[![:blank:]]*}
    rest=${rest#"$blanks"}
    if [[ -n $blanks || ${#words[@]} -eq 0 ]]; then
      words+=("$word")
    else
      words[-1]+=$word
    fi
    rest=${rest#"$word"}
  done
}

# Sets `operands` to the words before the last that are no options, and no option's value.
__gx_operands() {
  local i
  operands=()
  for ((i = 2; i < ${#words[@]} - 1; i++)); do
    case ${words[i]} in
      --max-count | -n | --since | --until | --skip | --prefix | --format | --head | --keep | --push | --expect-stamp | --wait)
        i=$((i + 1))
        ;;
      --points-at | --contains | --no-contains | --merged | --no-merged) i=$((i + 1)) ;;
      -?*) ;;
      *) operands+=("${words[i]}") ;;
    esac
  done
}

# Answers the given words that begin as the last one does, each behind a front that is kept. They are quoted, since a ref's name
# may hold what a shell takes for a command.
__gx_answer() {
  local front=$1 last=$2 word quoted
  shift 2
  for word in "$@"; do
    if [[ $word == "$last"* ]]; then
      printf -v quoted %q "$word"
      COMPREPLY+=("$front$quoted")
    fi
  done
}

# Sets `file` to a word as the shell would give it, without its quotes.
__gx_unquote() {
  file=${1//[\\\"\']/}
  # shellcheck disable=SC2088  # a tilde that was typed
  [[ $file != '~/'* ]] || file=$HOME/${file#'~/'}
}

__gx_files() {
  local file
  __gx_unquote "$1"
  mapfile -t COMPREPLY < <(compgen -f -- "$file")
  compopt -o filenames 2> /dev/null
}

# Answers the refs of the store, by their whole names and by the shorter ones that find them, which `drop` and
# `set-ref` don't take. After ^ or .. a new revision begins.
__gx_revisions() {
  local file last=$1 front='' name
  local -a names=()
  __gx_unquote "${operands[0]}"
  [[ -f $file ]] || return 0
  if [[ ${words[1]} =~ ^(log|export|bundle)$ && $last =~ ^(\^|.*\.\.\.?)(.*)$ ]]; then
    front=${BASH_REMATCH[1]}
    last=${BASH_REMATCH[2]}
  fi
  while read -r _ name; do
    names+=("$name")
    [[ ! ${words[1]} =~ ^(drop|set-ref)$ ]] || continue
    case $name in
      refs/heads/* | refs/tags/* | refs/remotes/*) names+=("${name#refs/*/}") ;;
    esac
  done < <("${words[0]}" refs "$file" 2> /dev/null < /dev/null)
  __gx_answer "$front" "$last" "${names[@]}"
}

# What bash puts a word in place of may be less than the word: its part behind a : and the like.
__gx_cut() {
  local last=$1 part=${COMP_WORDS[COMP_CWORD]} i
  [[ $part != [:=@]* ]] || part=''
  [[ $part != "$last" ]] || return 0
  for i in "${!COMPREPLY[@]}"; do
    COMPREPLY[i]=${COMPREPLY[i]#"${last%"$part"}"}
  done
}

__gx_options() {
  case ${words[1]} in
    ls) __gx_answer '' "$1" -r --recursive --help ;;
    archive) __gx_answer '' "$1" --prefix --help ;;
    where) __gx_answer '' "$1" --fault --done --force --help ;;
    drop) __gx_answer '' "$1" --stdin --wait --help ;;
    set-ref) __gx_answer '' "$1" --force --stdin --wait --help ;;
    put) __gx_answer '' "$1" --expect-stamp --wait --help ;;
    init) __gx_answer '' "$1" --growing --wait --help ;;
    grow) __gx_answer '' "$1" --wait --help ;;
    batch) __gx_answer '' "$1" --check --command --format -z --help ;;
    adapt) __gx_answer '' "$1" --drop-signatures --help ;;
    import) __gx_answer '' "$1" --objects --done --force --push --report --explain --wait --help ;;
    try | check) __gx_answer '' "$1" --done --force --explain --help ;;
    verify) __gx_answer '' "$1" --salvage --help ;;
    bundle) __gx_answer '' "$1" --all --head --pack --help ;;
    gc) __gx_answer '' "$1" --keep --report --wait --help ;;
    refs) __gx_answer '' "$1" --points-at --contains --no-contains --merged --no-merged --help ;;
    export) __gx_answer '' "$1" --changes --no-done --help ;;
    log) __gx_answer '' "$1" --all --stdin --merges --no-merges --since --until --skip --max-count -n --format --reverse --count --parents --help ;;
    diff) __gx_answer '' "$1" --name-status --name-only --raw --count --patch -p -u --quiet --exit-code -z --help ;;
    merge-base) __gx_answer '' "$1" --all --octopus --is-ancestor --help ;;
    *) __gx_answer '' "$1" --help ;;
  esac
}

# Answers what may stand behind an option that takes a value: a list's format is one of a few, and what is to be kept or pushed is in
# a file.
__gx_value() {
  if [[ ${words[1]}:${words[-2]} == log:--format ]]; then
    __gx_answer '' "$1" oneline raw subject author dates
  elif [[ ${words[1]}:${words[-2]} =~ ^(gc:--keep|import:--push|verify:--salvage)$ ]]; then
    __gx_files "$1"
  fi
}

__gx_words_of_command() {
  local last=$1
  local -a operands
  __gx_operands
  case ${words[1]}:${#operands[@]} in
    init:0 | grow:0 | verify:0 | import:0 | drop:0 | set-ref:0 | put:0 | gc:0 | export:0 | bundle:0 | show:0 | ls:0 | archive:0 | batch:0 | refs:0 | log:0 | rev-parse:0 | diff:0 | merge-base:0) __gx_files "$last" ;;
    show:1 | ls:1 | archive:1 | drop:[1-9]* | set-ref:1 | export:[1-9]* | bundle:[1-9]* | log:[1-9]* | rev-parse:[1-9]* | diff:[12] | merge-base:[1-9]*) __gx_revisions "$last" ;;
  esac
}

_gx() {
  local -a words commands=(blobs try check adapt where init grow verify import drop set-ref put gc export bundle show ls archive batch refs log rev-parse diff merge-base)
  COMPREPLY=()
  # behind < and > bash completes files by itself
  [[ ${COMP_WORDS[COMP_CWORD - 1]} != *[\<\>]* ]] || return 0
  __gx_words
  [[ ${words[1]} != --explain || ${#words[@]} -eq 2 ]] || words=("${words[0]}" "${words[@]:2}")
  local last=${words[-1]}
  if [[ ${#words[@]} -eq 2 && $last == -* ]]; then
    __gx_answer '' "$last" --help --explain --version
  elif [[ ${#words[@]} -eq 2 ]]; then
    __gx_answer '' "$last" "${commands[@]}" help --help
  elif [[ ${words[1]} == help ]]; then
    __gx_answer '' "$last" "${commands[@]}"
  elif [[ ${words[-2]} =~ ^(-n|--(max-count|since|until|skip|prefix|format|keep|push|wait|expect-stamp))$ ]]; then
    __gx_value "$last"
  elif [[ ${words[1]} == log && $last == --format=* ]]; then
    __gx_answer '' "$last" --format={oneline,raw,subject,author,dates}
  elif [[ $last == -* ]]; then
    __gx_options "$last"
  else
    __gx_words_of_command "$last"
  fi
  __gx_cut "$last"
}

complete -o default -F _gx gx
