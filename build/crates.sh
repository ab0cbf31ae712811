# Read in, with build/jobs.sh, by what proves crates of this repository: their names, what they use, and proofs of several at a time.
# shellcheck shell=bash

# The names of crates.txt, in its order: no crate is before one that it uses.
crates() { sed -n 's/^\([a-z_0-9]*\)[^:#]*:.*/\1/p' crates.txt; }

# What CRATES use, themselves and by way of others, in that order, and CRATES.
below() { # CRATE..
  awk -v crates="$*" '
    BEGIN { m = split(crates, use); for (j = 1; j <= m; j++) wanted[use[j]] = 1 }
    { sub(/#.*/, "") }
    /:/ { name = $1; sub(/:.*/, "", name); line[++n] = name; sub(/^[^:]*:/, ""); of[name] = $0 }
    END {
      for (i = n; i; i--) if (wanted[line[i]]) { m = split(of[line[i]], use); for (j = 1; j <= m; j++) wanted[use[j]] = 1 }
      for (i = 1; i <= n; i++) if (wanted[line[i]]) print line[i]
    }' crates.txt
}

# Proves CRATES and what they use, where that isn't done, several at a time: what comes after begins with what is kept of it in their folders out/.
# Nothing where CHECKED says that it is done. What a check that fails said is printed; with TELLING each crate that is proved. Its caller has a $room.
prepared() { # CRATE..
  local crate
  [ -z "${CHECKED:-}" ] || return 0
  proved() {
    if (cd "crates/$1" && rt check --jobs 1) >"$room/said-$1" 2>&1; then
      [ -z "${TELLING:-}" ] || echo "$TELLING: $1 is proved"
    else
      grep -v '^statements ' "$room/said-$1" | tail -n 20
      return 1
    fi
  }
  for crate in $(below "$@"); do started proved "$crate"; done
  ended
  [ "$state" = 0 ]
}
