# shellcheck shell=bash disable=SC2034
# What ./gdmoa and ./prove share: where the two programs stand, which sources they are made of, whether one of these is newer,
# and how a program comes to its place. The script that reads this file has set top, the top of the repository.
out=${top:?}/out
proved=$out/gdmoa
unproved=$out/gdmoa-unproved
parts=(src specs proofs)
order=()
sources=("$top/crates.txt")
declare -A libraries=() listed=()

# Says something on standard error.
say() { printf '%s: %s\n' "${0##*/}" "$*" >&2; }

# Reads which libraries each crate names.
read_crates() {
  local line name
  while IFS= read -r line || [ -n "$line" ]; do
    line=${line%%#*}
    case $line in *:*) ;; *) continue ;; esac
    name=${line%%:*}
    libraries[${name%% *}]=${line#*:}
  done <"$top/crates.txt"
}

# Lists the crates on which a crate stands, each behind those below it, and then the crate.
list_crates() {
  local library
  if [ -n "${listed[$1]-}" ]; then return; fi
  listed[$1]=yes
  for library in ${libraries[$1]-}; do
    if [ -d "$top/crates/$library" ]; then list_crates "$library"; fi
  done
  order+=("$1")
}

# Lists the files and folders that the program is made of.
list_sources() {
  local name part
  read_crates
  list_crates gdmoa
  for name in "${order[@]}"; do
    for part in "${parts[@]}"; do
      if [ -d "$top/crates/$name/$part" ]; then sources+=("$top/crates/$name/$part"); fi
    done
  done
}

# Whether a file is not there or a source is newer. A folder is newer once a file came into it or left it.
is_stale() {
  [ ! -e "$1" ] || [ -n "$(find "${sources[@]}" -newer "$1" -print -quit)" ]
}

# Whether a program gives the answer that is stored with the crate gdmoa.
answers_as_stored() {
  local crate=$top/crates/gdmoa words=()
  mapfile -t words <"$crate/args"
  (cd "$crate/data" && "$1" "${words[@]}" </dev/null 2>/dev/null) | cmp -s - "$crate/stdout"
}

# Copies a program to its place, with the time of the file that stands for its beginning: a source that changed while it was
# made is newer. Other calls meet the old program or the new one, and never a part of it.
put_in_place() {
  local made=$1 begun=$2 place=$3 new=$3.$$
  mkdir -p "$out" && cp "$made" "$new" && chmod 755 "$new" && touch -r "$begun" "$new" && mv -f "$new" "$place" && return
  rm -f "$new"
  return 1
}

# Takes over what the gate proved and built in this checkout, if no source is newer than the gate's beginning, the time of its
# lock file, and the gate has ended.
take_from_gate() {
  local built=$top/crates/gdmoa/out/gdmoa begun=$top/.git/rt-ci.lock
  [ -x "$built" ] && [ -e "$begun" ] && [ "$built" -nt "$begun" ] && ! is_stale "$begun" || return 1
  flock -n "$begun" true && answers_as_stored "$built" && put_in_place "$built" "$begun" "$proved" || return 1
  say "the program is the one that the gate proved in this checkout"
}

# Waits until no other call holds a lock file, and holds it as file 9.
hold_lock() {
  mkdir -p "$out" && exec 9>"$1" || return 1
  if flock -n 9; then return 0; fi
  say "another call is at it; waiting until it has ended"
  flock 9
}

# Whether the toolchain is there.
has_toolchain() {
  command -v rt >/dev/null && return 0
  say "the toolchain's command rt is not on the path"
  return 1
}
