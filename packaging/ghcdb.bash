# Completion of ghcdb's command line for bash: source packaging/ghcdb.bash. The query is the one of the program's
# comment. What stands in a file or in its name is quoted, so that nothing of it is run.

# Offers the files that compgen names, as readline quotes them. Of a name with a line feed compgen gives pieces; where
# nothing else is there, readline offers it itself.
_ghcdb_files() {
  local name
  compopt -o filenames -o default 2> /dev/null
  while IFS= read -r name; do
    [[ $name != '~'* && ! -e $name ]] || COMPREPLY+=("$name")
  done < <(compgen "$@")
}

# The name that a word stands for, without the quotes and backslashes that the shell takes off, as `plain`.
_ghcdb_plain() {
  local word=$1
  plain=
  case $word in
    \'* | \"*) plain=${word:1:${#word}-2} && return ;;
  esac
  while [[ $word == *\\* ]]; do
    plain+=${word%%\\*}
    word=${word#*\\}
    plain+=${word:0:1}
    word=${word:1}
  done
  plain+=$word
}

# Offers the query of the program's comment, if ghcdb could take it: none has a letter past ASCII, or a control.
_ghcdb_query() {
  local word file='' plain='' query LC_ALL=C
  for word in "${COMP_WORDS[@]}"; do
    [[ $word != *.ghc && $word != *.ghc[\'\"] ]] || file=$word
  done
  _ghcdb_plain "$file"
  [ -f "$plain" ] || return
  query=$(sed -n 's/^%[[:blank:]]*Query:[[:blank:]]*//p' < "$plain" | head -n 1)
  [[ -z $query || $query == *[!\ -~]* ]] || COMPREPLY=("${query@Q}")
}

_ghcdb() {
  local current=${COMP_WORDS[COMP_CWORD]} before=${COMP_WORDS[COMP_CWORD - 1]} words
  COMPREPLY=()
  case $before in
    --load | --schedule) _ghcdb_files -f -- "$current" ;;
    --workers) mapfile -t COMPREPLY < <(compgen -W 'auto 1 2 4 8 16 32 64' -- "$current") ;;
    --query) [ -n "$current" ] || _ghcdb_query ;;
    --example) mapfile -t COMPREPLY < <(compgen -W "$(ghcdb --example 2> /dev/null < /dev/null)" -- "$current") ;;
    *)
      if [[ $current == -* ]]; then
        words='--query --load --schedule --workers --run --expect --steps --check --json --lesson --help --version'
        [[ $1 == */* ]] || words+=' --dap --lsp --picture --example'
        mapfile -t COMPREPLY < <(compgen -W "$words" -- "$current")
      else
        _ghcdb_files -f -X '!*.ghc' -- "$current"
        _ghcdb_files -d -- "$current"
      fi
      ;;
  esac
}
complete -o nospace -F _ghcdb ghcdb ./ghcdb
