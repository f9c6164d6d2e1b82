# Read by tools/test-edits and tools/test-times: a copy of the repository's crates to try things on. It is kept from one call to the next,
# so that the libraries below a crate are not proved each time; to remove it costs time alone.
# The reader has set top, the repository's folder.
: "${top:?}"
scratch="${XDG_CACHE_HOME:-$HOME/.cache}/portal-scratch/$(sha256sum <<<"$top" | cut -c 1-16)"

# The names of the crates, as crates.txt lists them.
names_of_crates() {
  local row words
  while IFS= read -r row || [[ -n $row ]]; do
    row=${row%%#*}
    read -r -a words <<<"${row%%:*}"
    [[ ${#words[@]} -eq 0 ]] || echo "${words[0]}"
  done <"$top/crates.txt"
}

# Stops where a word names no crate.
stop_on_unknown() {
  local name
  for name; do
    [[ $'\n'$(names_of_crates)$'\n' == *$'\n'"$name"$'\n'* ]] || {
      echo "crates.txt lists no crate $name" >&2
      exit 2
    }
  done
}

# Copies the sources of a crate, and the library that rt has built of it, where that is newer.
copy_crate() {
  local from="$top/crates/$1" to="$scratch/crates/$1" part
  mkdir -p "$to/out"
  for part in src specs proofs must-fail must-fail-more data args stdin stdout status; do
    rm -rf "${to:?}/$part"
    [[ ! -e $from/$part ]] || cp -r "$from/$part" "$to/$part"
  done
  if [[ $from/out/rlib/stamp -nt $to/out/rlib/stamp ]]; then
    rm -rf "$to/out/rlib"
    cp -r "$from/out/rlib" "$to/out/rlib"
  fi
}

# Makes the copy what the repository is. One call at a time has it, until the script ends.
fill_scratch() {
  local name folder names
  command -v rt >/dev/null || { echo 'needs the command rt of the Rattle kit' >&2 && exit 3; }
  mkdir -p "$scratch/crates"
  exec 9>"$scratch/lock"
  flock -n 9 || { echo 'waiting for another trial ..' >&2 && flock 9; }
  names=$(names_of_crates)
  for folder in "$scratch"/crates/*/; do
    name=$(basename "$folder")
    [[ $'\n'$names$'\n' == *$'\n'"$name"$'\n'* ]] || rm -rf "$folder"
  done
  for name in $names; do
    copy_crate "$name"
  done
  cp "$top/crates.txt" "$top/HANDLES" "$scratch/"
}
