# To be sourced by the commands beside it: where the program stands, whether it is older than its sources, what is
# answered without it, and how much is done side by side.
here=$(CDPATH= cd "$(dirname "$(readlink -f "${BASH_SOURCE[0]}")")/.." && pwd) || exit 21
app="$here/crates/kilnlime"
proved="$app/out/kilnlime"
trial="$app/trial/kilnlime"
. "$here/ops/guard" || exit 21

# tell WORDS..: one line on standard error, under the name of the command
tell() {
  echo "${0##*/}: $*" >&2
}

# has_kit: whether the kit's command can be called; if not, says what is missing
has_kit() {
  command -v rt >/dev/null && return
  tell "the Rattle kit is missing: there is no command \`rt\` on the path (README.md, section \"Two commands\")"
  return 1
}

# the version, and the kit that README names
version() {
  echo "kilnlime $(sed -n 's/^## \([0-9][^ ,]*\).*/\1/p' "$here/CHANGELOG.md" | head -n 1) ($(sed -n 's/.*`\(rattle-kit[^`]*\)`.*/\1/p' "$here/README.md" | head -n 1))"
}

# answer_without_program WORDS..: ends here if these words ask for the manual or the version, or if `init` or `migrate`
# would overwrite a file that is no store
answer_without_program() {
  case "${1-}" in
    --help | -h | help)
      cat "$here/ops/manual"
      exit
      ;;
    --version)
      version
      exit
      ;;
  esac
  if refuses_foreign_file "$@"; then exit 2; fi
}

# run PROGRAM WORDS..: becomes the program
run() {
  # The C library then keeps 8,000 freed blocks of each size for each worker, in place of 7. A batch frees as many.
  export GLIBC_TUNABLES=${GLIBC_TUNABLES-glibc.malloc.tcache_count=8000}
  # A write past the system's limit on the size of files then fails, in place of ending the program.
  trap '' XFSZ
  exec "$@"
}

# crates_under CRATE: the crate and those that it stands on, by crates.txt
crates_under() {
  awk -F: -v top="$1" '
    /^[a-z]/ { split($1, words, " "); below[words[1]] = $2 }
    END {
      list[n = 1] = top
      for (i = 1; i <= n; i++) {
        print list[i]
        split(below[list[i]], names, " ")
        for (k in names) if (names[k] in below && !seen[names[k]]++) list[++n] = names[k]
      }
    }' "$here/crates.txt"
}

# is_stale FILE: whether it is missing, or older than a source of the program
is_stale() {
  [ -e "$1" ] || return 0
  local crates folders
  mapfile -t crates < <(crates_under kilnlime)
  folders=("${crates[@]/#/$here/crates/}")
  [ -n "$(find "${folders[@]}" "$here/crates.txt" "$here/HANDLES" \( -name out -o -name trial \) -prune -o \
    -type f \( -name '*.rt' -o -name '*.antt' -o -name crates.txt -o -name HANDLES \) -newer "$1" -print -quit)" ]
}

# kilobytes_free: the memory that can be had, under the limit of the control group, too
kilobytes_free() {
  local group=/sys/fs/cgroup
  cat /proc/meminfo "$group/memory.max" "$group/memory.stat" 2>/dev/null | awk '
    $1 == "MemAvailable:" { free = $2 }
    NF == 1 && $1 ~ /^[0-9]+$/ { limit = $1 / 1024 }
    $1 == "anon" { held = $2 / 1024 }
    END { print int(limit && limit - held < free ? limit - held : free) }'
}

# side_by_side MEGABYTES: how many tasks that take so much memory are done at once, at most one on each processor
side_by_side() {
  local number=$(($(kilobytes_free) / 1000 / $1)) processors
  processors=$(nproc)
  ((number < processors)) || number=$processors
  ((number > 0)) || number=1
  echo "$number"
}

# minutes SECONDS: such as 1:05
minutes() {
  printf '%d:%02d' $(($1 / 60)) $(($1 % 60))
}
