# Proves a crate's library, or its program, with all that it stands on, in a copy of the sources, and says how far it is. What is kept of an
# earlier try counts. To be sourced, where `top` is the repository's folder, `title` stands before each line, and `log` is a file for all that is said.

# The lines of crates.txt of a crate and of all that it stands on.
lines() {
  awk -v goal="$1" '
    function want(name, words, count, i) {
      if (!(name in line) || name in wanted) return
      wanted[name]
      count = split(uses[name], words, " ")
      for (i = 1; i <= count; i++) want(words[i])
    }
    /^[a-z]/ {
      split($0, halves, ":")
      split(halves[1], head, " ")
      line[head[1]] = $0
      uses[head[1]] = halves[2]
      order[NR] = head[1]
    }
    END { want(goal); for (i = 1; i <= NR; i++) if (order[i] in wanted) print line[order[i]] }' "$top/crates.txt"
}

names() { lines "$1" | sed 's/[: ].*//'; }

# Whether a file is missing, or older than the sources of a crate and of what it stands on, or than further files.
is_old() (
  file=$1 goal=$2
  shift 2
  [ -e "$file" ] || exit 0
  cd "$top/crates" || exit 0
  for part in $(names "$goal" | sed 's|.*|&/src &/specs &/proofs &/data|'); do
    [ ! -d "$part" ] || set -- "$@" "$part"
  done
  [ -n "$(find "$top/crates.txt" "$top/HANDLES" "$@" -newer "$file" -print -quit)" ]
)

# Copies a crate, without its wrong bodies and what was built of it, to the crates of `room`.
copy_crate() {
  mkdir "$room/crates/$1"
  for part in "$top/crates/$1"/*; do
    case "${part##*/}" in out | must-fail) ;; *) cp -R "$part" "$room/crates/$1" ;; esac
  done
}

# The signals that end a build, which leaves nothing behind then.
ending="HUP INT QUIT PIPE ALRM TERM USR1 USR2 XCPU VTALRM PROF"

# Begins a build in a folder, once no other is under way there. Makes the folder `room`, with a file of the time of now.
begin() {
  proof="" reporter="" fresh="" waits="" lock=$1/.building me=$$-$(start_of $$)
  # In other folders too it is to be found.
  case ${TMPDIR:-/} in /*) ;; *) export TMPDIR="$PWD/$TMPDIR" ;; esac
  room=$(mktemp -d)
  trap end EXIT
  trap 'exit 1' $ending
  mkdir -p "$1"
  hold
  began=$(date +%s)
  touch "$room/began"
  mkdir "$room/crates"
  : > "$log"
}

# Ends what was begun, and removes the folder.
end() {
  trap - EXIT $ending
  kill $proof $reporter 2> /dev/null || true
  rm -rf "$room" "$lock.$$" ${fresh:+"$fresh"}
  rm -f "$lock/$me"
  rmdir "$lock" 2> /dev/null || true
}

# When a process began, which tells it from another that has its number later; nothing where it has ended.
start_of() { sed -n 's/.*) [^XZ] //p' "/proc/$1/stat" 2> /dev/null | cut -d ' ' -f 19; }

# Waits until no other build is under way. One that is has the folder `lock`, which comes with a file whose name tells its process. Where that is
# gone, the file is given the name of this one, which one process alone can do.
hold() {
  while :; do
    rm -rf "$lock.$$"
    mkdir "$lock.$$"
    : > "$lock.$$/$me"
    ! mv -fT "$lock.$$" "$lock" 2> /dev/null || return 0
    rm -rf "$lock.$$"
    for holder in "$lock"/*; do
      holder=${holder##*/}
      number=${holder%%-*}
      [ "$holder" != "$number-$(start_of "$number")" ] || continue
      mv -f "$lock/$holder" "$lock/$me" 2> /dev/null || continue
      rm -f "${lock%/*}"/*.new."$number"
      return
    done
    [ -n "$waits" ] || say "waiting for another build ($lock/$holder)"
    waits=1
    sleep 1
  done
}

# Puts a file at a place, whole or not at all, as old as what it is made of.
place() {
  fresh=$2.new.$$
  cp -p "$1" "$fresh"
  touch -r "$room/began" "$fresh"
  mv -f "$fresh" "$2"
}

say() { printf '%s: %s\n' "$title" "$*" >&2; }

# The minutes that a proof of a crate and of all that it stands on takes at least, where nothing of it is proved yet: those of the last one here,
# else those of a quiet machine, by the seconds that one of its processors takes for ten lines.
least() {
  if [ -f "$top/build/minutes-$1" ]; then
    cat "$top/build/minutes-$1"
  else
    for name in $(names "$1"); do find "$top/crates/$name" -name out -prune -o \( -name '*.rt' -o -name '*.antt' \) -exec cat {} +; done |
      awk -v processors="$(nproc)" '{ lines++ } END { printf "%d", lines / 10 * 0.35 / 60 / processors + 1 }'
  fi
}

# Notes how long a proof took of which nothing was kept.
note() {
  grep -q '^rt: .* is kept:' "$log" && return
  mkdir -p "$top/build"
  echo "$((($(date +%s) - began) / 60 + 1))" > "$top/build/minutes-$1"
}

# Says that it ends here, and why.
stop() {
  tail -n 20 "$log" >&2
  say "it was not built"
  exit 1
}

# Copies and proves the crates of these lines of crates.txt.
prove() {
  printf '%s\n' "$1" > "$room/crates.txt"
  cp "$top/HANDLES" "$room"
  for name in $(sed 's/[: ].*//' "$room/crates.txt"); do
    copy_crate "$name"
    echo "$name $(find "$room/crates/$name" \( -name '*.rt' -o -name '*.antt' \) -exec cat {} + | wc -l)" >> "$room/sizes"
  done
  (cd "$room" && exec rt ci) >> "$log" 2>&1 &
  proof=$!
  report &
  reporter=$!
  wait $proof || stop
  kill $reporter 2> /dev/null || true
  proof="" reporter=""
}

# Says, after each crate, how many are proved, and about how long the others may take, once a tenth is done of the longest
# chain of crates that stand on one another, by their lines.
report() {
  before=
  while sleep 2 > /dev/null 2>&1; do
    now=$(awk -v minutes="$((($(date +%s) - began) / 60))" '
      function chain(name, without, words, count, i, most, other) {
        if (!(name in size)) return 0
        if (name in known) return known[name]
        count = split(uses[name], words, " ")
        for (i = 1; i <= count; i++) if ((other = chain(words[i], without)) > most) most = other
        return known[name] = most + (without[name] ? 0 : size[name])
      }
      function longest(without, name, most, other) {
        split("", known)
        for (name in size) if ((other = chain(name, without)) > most) most = other
        return most
      }
      FILENAME ~ /sizes$/ { size[$1] = $2; crates++; next }
      FILENAME ~ /crates.txt$/ { split($0, halves, ":"); split(halves[1], head, " "); uses[head[1]] = halves[2]; next }
      $1 == "rt:" && $2 in size && $3 == "is" && $4 == "kept:" { proved++; kept[$2] = done[$2] = 1 }
      $1 == "rt:" && $2 in size && $3 == "proved" { proved++; done[$2] = 1 }
      END {
        printf "%d of %d crates proved, %d minutes spent", proved, crates, minutes
        all = longest(kept)
        left = longest(done)
        if (left < all && 10 * left <= 9 * all) printf ", about %d left", minutes * left / (all - left) + 0.5
      }' "$room/sizes" "$room/crates.txt" "$log")
    [ "${now%%,*}" = "$before" ] || say "$now"
    before=${now%%,*}
  done
}
