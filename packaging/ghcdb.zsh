#compdef ghcdb
# Completion of ghcdb's command line for zsh, by the name _ghcdb in a folder of fpath. The query is the one of the
# program's comment. It is quoted, so that nothing of it is run.

# Offers the query of the program's comment, if ghcdb could take it: none has a letter past ASCII, or a control.
_ghcdb_query() {
  local word file='' query LC_ALL=C
  for word in "${(@Q)words}"; do
    [[ $word != *.ghc ]] || file=$word
  done
  [[ -f $file ]] || return 1
  query=$(sed -n 's/^%[[:blank:]]*Query:[[:blank:]]*//p' < "$file" | head -n 1)
  [[ -n $query && $query != *[^\ -~]* ]] && compadd -- "$query"
}

_ghcdb() {
  case ${words[CURRENT-1]} in
    --load|--schedule) _files ;;
    --workers) compadd auto 1 2 4 8 16 32 64 ;;
    --example) compadd -- ${(f)"$(ghcdb --example 2> /dev/null < /dev/null)"} ;;
    --query) [[ -n $PREFIX$SUFFIX ]] || _ghcdb_query ;;
    *)
      if [[ $PREFIX == -* ]]; then
        compadd -- --query --load --schedule --workers --run --expect --steps --check --json --lesson --dap --lsp --picture --example \
          --help --version
      else
        _files -g '*.ghc'
      fi
      ;;
  esac
}
_ghcdb "$@"
