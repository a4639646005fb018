# Sourced by the benchmarks of growing stores. They set `folder`, where stores are made unless they stand there, and `gx`.

# makes MEGABYTES.v2 and MEGABYTES.gx: stored MEGABYTES
stored() {
  local store=$folder/$1
  [ -e "$store.v2" ] || { python3 bench/store.py "${1}000000" deep > "$store.part" && mv "$store.part" "$store.v2"; }
  [ -e "$store.gx" ] || grown "$store.v2" "$store.gx"
}

# grown PLAIN GROWN
grown() {
  cp "$1" "$2.part"
  "$gx" grow "$2.part"
  mv "$2.part" "$2"
}

# makes the bare repository MEGABYTES.git of the same history: beside MEGABYTES
beside() {
  [ ! -e "$folder/$1.git" ] || return 0
  git init -q --bare "$folder/part.git"
  "$gx" export --changes "$folder/$1.v2" | git -C "$folder/part.git" fast-import --quiet
  git -C "$folder/part.git" gc --quiet
  mv "$folder/part.git" "$folder/$1.git"
}

# makes a larger store with the tip of another one: padded MEGABYTES MORE
padded() {
  [ ! -e "$folder/$1-in-$2.gx" ] || return 0
  python3 bench/looks.py pad "$folder/$1.v2" "$(($2 - $1))000000" > "$folder/padded"
  grown "$folder/padded" "$folder/$1-in-$2.gx"
  rm "$folder/padded"
}
