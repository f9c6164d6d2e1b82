# Read by portal, tools/portal_runner, tools/ship and tests/shipped: the sum of the sources, the shipped program, and the
# one that was built here.
# The reader has set top, the repository's folder.
: "${top:?}"
me=${me:-portal}
dist="$top/dist/x86_64-linux"
built="$top/out/portal"
record="$top/out/portal.from"
lowest_glibc=2.34

say() {
  echo "$me: $1" >&2
}

# The crates that the program stands on, each after those below it, and their lines of crates.txt.
declare -A line=() seen=()
order=()

visit() {
  local name
  [[ -n ${line[$1]-} && -z ${seen[$1]-} ]] || return 0
  seen[$1]=1
  for name in ${line[$1]#"$1"}; do
    visit "$name"
  done
  order+=("$1")
}

read_crates() {
  local row words
  while IFS= read -r row || [[ -n $row ]]; do
    row=${row%%#*}
    read -r -a words <<<"${row//[:,]/ }"
    [[ ${#words[@]} -eq 0 ]] || line[${words[0]}]=${words[*]}
  done <"$top/crates.txt"
  visit portal
}

# One sum over the names and the contents of the sources, and over the lines of crates.txt.
sum_of_sources() (
  export LC_ALL=C
  shopt -s globstar nullglob
  cd "$top" || exit
  local name path files=()
  for name in "${order[@]}"; do
    for path in "crates/$name"/{src,specs,proofs}/**; do
      [[ ! -f $path ]] || files+=("$path")
    done
  done
  {
    for name in "${order[@]}"; do
      echo "${line[$name]}"
    done
    sha256sum -- "${files[@]}" </dev/null
  } | sha256sum | cut -d ' ' -f 1
)

# The line of `rt version`, or nothing without rt.
kit_here() {
  rt version 2>/dev/null || true
}

sha256_of() {
  local sum
  sum=$(sha256sum <"$1")
  echo "${sum%% *}"
}

# Whether out/portal was built from these sources by this kit. Without rt any kit will do: none could build it
# again.
is_current() {
  local sources='' kit=''
  [[ -x $built && -f $record ]] || return 1
  { read -r sources && read -r kit; } <"$record" || return 1
  [[ ${sources%% *} == "$1" && (-z $2 || $kit == "$2") ]]
}

# What dist/x86_64-linux/portal.txt says: sha256, sources and kit. Nothing where it is missing.
declare -A shipped=()

read_shipped() {
  local row
  shipped=()
  [[ -f $dist/portal.txt ]] || return 0
  while IFS= read -r row || [[ -n $row ]]; do
    [[ $row != *': '* ]] || shipped[${row%%: *}]=${row#*: }
  done <"$dist/portal.txt"
}

# Whether this file is the shipped program, and may be run.
is_shipped() {
  [[ -x $1 && -r $1 && $(sha256_of "$1") == "${shipped[sha256]-}" ]]
}

# Unpacks the shipped program to this path, if it is not there already. The file takes its name when it is whole
# and has the right sum.
unpack_shipped() {
  local new said sum
  ! is_shipped "$1" || return 0
  [[ $1 != /portal-shipped ]] || {
    say "the program cannot be unpacked: neither $top/out nor a folder of the user's cache can be written"
    exit 3
  }
  new=$(mktemp "$1.XXXXXX") || exit 3
  said=$(gzip -dc "$dist/portal.gz" 2>&1 >"$new") || {
    rm -f "$new"
    say "$dist/portal.gz cannot be unpacked: ${said//$'\n'/ }"
    exit 3
  }
  sum=$(sha256_of "$new")
  [[ $sum == "${shipped[sha256]-}" ]] || {
    rm -f "$new"
    say "$dist/portal.gz does not match portal.txt: its SHA-256 is $sum, and portal.txt says ${shipped[sha256]-nothing}"
    exit 3
  }
  chmod 755 "$new"
  mv -f "$new" "$1"
}

# Sets obstacle to what keeps the shipped program from running on this machine, or to nothing.
find_obstacle() {
  local machine libc='' needs="the shipped program is for Linux on x86-64 with glibc $lowest_glibc or newer"
  obstacle=''
  machine=$(uname -sm)
  if [[ $machine != 'Linux x86_64' ]]; then
    obstacle="$needs, and this is $machine"
  elif command -v getconf >/dev/null; then
    libc=$(getconf GNU_LIBC_VERSION 2>/dev/null) || true
    # shellcheck disable=SC2034
    is_new_enough "${libc#glibc }" || obstacle="$needs, and this has ${libc:-another C library}"
  fi
}

# Whether this version of glibc is the lowest that the program runs with, or a later one.
is_new_enough() {
  [[ $1 =~ ^([0-9]+)\.([0-9]+) ]] || return 1
  ((BASH_REMATCH[1] > ${lowest_glibc%.*} ||
    (BASH_REMATCH[1] == ${lowest_glibc%.*} && BASH_REMATCH[2] >= ${lowest_glibc#*.})))
}

# Whether this is what `portal --version` prints, with the version that the file VERSION holds.
is_version() {
  local version
  version=$(cat "$top/VERSION" 2>/dev/null) || return 1
  [[ $1 =~ ^"portal $version (database schema version "[0-9]+")"$ ]]
}
