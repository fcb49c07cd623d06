# What the launcher needs in a checkout: checksums of sources, and proving. It is sourced by `sdhring`.

# The folder of the user's cache, which the environment names by a path from / on; nothing where it names none.
cache() {
  case ${XDG_CACHE_HOME-} in
    /*) echo "$XDG_CACHE_HOME" ;;
    *) case ${HOME-} in /*) echo "$HOME/.cache" ;; esac ;;
  esac
}

# Where programs are built, and put where the checkout can't be written; nothing where the user has no cache.
apart=$(cache)
[ -z "$apart" ] || apart+=/sdhring/$(printf '%s' "$top" | sha256sum | cut -c1-16)
child='' is_line_open=''

say() {
  [ -z "$is_line_open" ] || echo >&2
  is_line_open=
  printf '%s: %s\n' "$name" "$1" >&2
}

# The lines of a folder's crates.txt that these programs are made of, each after those that it stands on.
crates() {
  local folder=$1
  shift
  awk -v programs="$*" '
    function visit(crate, number, names, i) {
      if (!(crate in line) || crate in seen) return
      seen[crate]
      number = split(below[crate], names, " ")
      for (i = 1; i <= number; i++) visit(names[i])
      print line[crate]
    }
    { sub(/#.*/, ""); if (split($0, half, ":") == 2) { split(half[1], word, " "); line[word[1]] = $0; below[word[1]] = half[2] } }
    END { number = split(programs, names, " "); for (i = 1; i <= number; i++) visit(names[i]) }' "$folder/crates.txt"
}

# A checksum of all that the program is made of, as it stands below a folder: HANDLES, its lines of crates.txt, and the
# src, specs and proofs of the crates that these name.
sources() {
  local crate list parts=()
  list=$(crates "$1" "$name")
  while IFS=': ' read -r crate _; do parts+=(crates/"$crate"/{src,specs,proofs}); done <<<"$list"
  cd -- "$1" || return
  { cat HANDLES; printf '%s\n' "$list"; find "${parts[@]}" -type f -print0 2>/dev/null | LC_ALL=C sort -z | xargs -0r sha256sum; } | sha256sum | cut -c1-64
}

# Ends after a signal, and says what is left where.
interrupted() {
  local kept=
  trap '' HUP INT TERM
  [ -z "$child" ] || { kill "$child" && wait "$child"; } 2>/dev/null
  [ ! -d "$apart/build" ] ||
    kept=". Until then $(du -sh "$apart" | cut -f1) are kept: rm -r '$apart' removes them"
  stop $((128 + $1)) "interrupted; the same command takes it up again$kept"
}

hear_signals() {
  trap 'interrupted 1' HUP
  trap 'interrupted 2' INT
  trap 'interrupted 15' TERM
}

# Runs a command beside this shell, which hears of an interrupt meanwhile.
beside() {
  local status
  "$@" &
  child=$!
  wait "$child"
  status=$?
  child=
  return $status
}

# Whether nobody but this user and root can have changed what stands here: it and each folder on the way to it belong to
# one of them, and nobody else may write there, or there each may take away his own alone.
is_own() {
  local path owner mode
  path=$(readlink -e -- "$1") || return
  while read -r owner mode; do
    [ "$owner" = 0 ] || [ "$owner" = "$EUID" ] || return
    (((8#$mode & 8#22) == 0 || (8#$mode & 8#1000) != 0)) || return
  done < <(while stat -c '%u %a' -- "$path" && [ "$path" != / ]; do path=$(dirname -- "$path"); done)
}

# Chooses where the program is put, and makes that folder and the one to build in.
make_places() {
  command -v rt >/dev/null || stop $no_kit "the command rt of the Rattle kit isn't on the PATH"
  [ -n "$apart" ] || stop $no_room "no place to build in: neither XDG_CACHE_HOME nor HOME names a folder by a path from / on"
  out=$top/out
  { mkdir -p "$out" && [ -w "$out" ]; } 2>/dev/null || out=$apart
  { (umask 077 && mkdir -p "$apart") && [ -w "$apart" ]; } 2>/dev/null || stop $no_room "no place to build in: $apart can't be written, and XDG_CACHE_HOME names no other"
  is_own "$apart" || stop $no_room "no place to build in: others than you can write to $apart, or to a folder on the way to it"
}

# Waits until no other start of this checkout builds.
hold() {
  { exec 9>"$1.lock"; } 2>/dev/null || stop $no_room "$1.lock can't be written"
  flock -n 9 || { say "another start is building; waiting for it" && beside flock 9; }
}

# Copies all that these programs are made of to a folder.
copy_sources() {
  local to=$1 crate part
  shift
  mkdir -p "$to/crates" && crates "$top" "$@" >"$to/crates.txt" && cp "$top/HANDLES" "$to" || return
  while IFS=': ' read -r crate _; do
    mkdir -p "$to/crates/$crate" || return
    for part in src specs proofs; do
      rm -rf "$to/crates/$crate/$part"
      [ ! -d "$top/crates/$crate/$part" ] || cp -R "$top/crates/$crate/$part" "$to/crates/$crate" || return
    done
  done <"$to/crates.txt"
  chmod -R u+w "$to"
}

# Puts a program in place, with what is known of it; one that runs meanwhile goes on as it was.
put() {
  local sum commit
  sum=$(sha256sum <"$1")
  commit=$(git -C "$top" rev-parse HEAD 2>/dev/null) || commit=none
  [ -z "$(git -C "$top" status --porcelain -- crates crates.txt HANDLES 2>/dev/null)" ] || commit+=' changed'
  rm -f "$2.BUILD"
  { cat "$1" >"$2.new" && chmod +x "$2.new" && mv -f "$2.new" "$2" &&
    printf '%s\n' "version $(<"$top/VERSION")" "commit $commit" "kit $(rt version)" "program $name ${sum%% *} $3" >"$2.BUILD"; } 2>/dev/null ||
    stop $no_room "$2 can't be written"
}

# As many processors as there are, but no more than have 2 GB of memory each.
processors() {
  local all fit
  all=$(nproc)
  fit=$(awk '/^MemAvailable/ { print int($2 / 2000000) }' /proc/meminfo)
  echo $((fit < 1 ? 1 : fit < all ? fit : all))
}

# How long ago that was.
lasted() {
  local seconds=$((SECONDS - $1))
  if [ $seconds -lt 60 ]; then echo "$seconds s"; else echo "$(((seconds + 30) / 60)) min"; fi
}

# Waits until the child has ended, and calls a command before each look. A dot every ten seconds is a sign of life.
await() {
  local status next=$((SECONDS + 10))
  is_line_open=yes
  while "$@" && kill -0 "$child" 2>/dev/null; do
    sleep 0.5
    [ $SECONDS -lt $next ] || { printf . >&2 && next=$((SECONDS + 10)); }
  done
  wait "$child"
  status=$?
  child=
  "$@"
  echo >&2
  is_line_open=
  return $status
}

# Runs rt with these words in a crate of a copy, on the program's stored input. What it says goes to a log.
rt_in() {
  local folder=$1 log=$2
  shift 2
  cd -- "$folder" && exec rt "$@" <"$top/crates/$name/stdin" 2>>"$log"
}

# Tells of the crates that have ended since the last time. What a check of theirs would begin with isn't needed any more.
tell_ended() {
  local crate
  while read -r _ crate; do
    ended=$((ended + 1))
    printf '\n%s: %d of %d %s, after %s ' "$name" $ended "$total" "$crate" "$(lasted "$start")" >&2
    [ -e "$top/crates/$crate/src/main.rt" ] || rm -rf "$build/crates/$crate/out/incremental"
  done < <(grep '^== [a-z0-9_]*$' "$log" | grep -vx '== summary' | tail -n "+$((ended + 1))")
}

# Proves all crates of a copy, several at a time, each once those that it stands on are proved.
prove_crates() {
  local build=$1 log=$2 start=$SECONDS ended=0 total failed
  total=$(wc -l <"$build/crates.txt")
  printf '%s: 0 of %d ' "$name" "$total" >&2
  : >"$log"
  # A crate that waits for others needs no processor, so more are begun than there are processors.
  (cd -- "$build" && exec rt all check --jobs $(($(processors) * 3 / 2)) >>"$log" 2>&1 9>&-) &
  child=$!
  if ! await tell_ended; then
    failed=$(sed -n 's/^\([a-z0-9_]*\): failed .*/\1/p' "$log" | head -n 1)
    stop $not_built "${failed:-a crate} isn't proved; $log says why"
  fi
}

# Proves the program and all that it stands on in a copy, and builds it. An interrupted build goes on from the crates
# that it was at; a finished one leaves nothing, but for several programs, whose crates are proved together by then.
prove() {
  local build=$apart/build sum words
  hear_signals
  make_places
  hold "$out/build"
  ! is_proved || return 0
  copy_sources "$build" "$name" && sum=$(sources "$build") || stop $no_room "the sources can't be copied to $apart"
  rm -f "$build/text"
  [ -n "${SDHRING_TOGETHER-}" ] || prove_crates "$build" "$out/build.log"
  printf '%s: building it ' "$name" >&2
  mapfile -t words <"$top/crates/$name/args"
  rt_in "$build/crates/$name" "$out/build.log" run --jobs "$(processors)" -- "${words[@]}" >"$build/text" 9>&- &
  child=$!
  await true || stop $not_built "it couldn't be built; $out/build.log says why"
  cmp -s "$build/text" "$top/crates/$name/stdout" || stop $not_built "the proved program doesn't write what its stored run wants, but what is in $build/text"
  put "$build/crates/$name/out/$name" "$out/$name" "$sum"
  [ -n "${SDHRING_TOGETHER-}" ] || rm -rf "$build"
  rmdir "$apart" 2>/dev/null
  now=$sum
}

# Proves the programs of which --version says this, all their crates together, and builds each.
prove_together() {
  local launcher programs=()
  for launcher in $(table | cut -d '|' -f 1 | uniq); do
    ! "$top/$launcher" --version | grep -Eq "$1" || programs+=("$launcher")
  done
  [ ${#programs[@]} != 0 ] || return 0
  hear_signals
  make_places
  hold "$out/build"
  copy_sources "$apart/build" "${programs[@]}" || stop $no_room "the sources can't be copied to $apart"
  prove_crates "$apart/build" "$out/build.log"
  exec 9>&-
  for launcher in "${programs[@]}"; do
    SDHRING_TOGETHER=yes beside "$top/$launcher" --prove || exit
  done
  rm -rf "$apart/build"
  rmdir "$apart" 2>/dev/null
}
