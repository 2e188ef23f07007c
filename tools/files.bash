# What the launcher and tools/ ask of files, for them to read: by bash alone, since no find, sed or awk need be there.

# files_below 'NAME ..' PLACE ..: the files among the places and below them, a line each, but those of these names and
# those in folders of these names.
files_below() {
  local left_out=$1 place
  for place in "${@:2}"; do
    [[ " $left_out " != *" ${place##*/} "* ]] || continue
    if [ -d "$place" ] && [ ! -L "$place" ]; then
      files_below "$left_out" "$place"/*
    elif [ -f "$place" ]; then
      printf '%s\n' "$place"
    fi
  done
}

# told_in FILE NAME: the value in the file's first line `NAME VALUE`; nothing where there is none.
told_in() {
  local name value
  [ -f "$1" ] || return 0
  while read -r name value || [ -n "$name" ]; do
    [ "$name" = "$2" ] || continue
    printf '%s' "$value"
    return
  done < "$1"
}
