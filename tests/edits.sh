# What tests/wrong, tests/enemies and tests/refused share, and read in: edits, put into a copy of the repository, and one check of it.
# In an edit '#' says what is wrong; 'file:' names a file, 'old:' a line of it, which stands there once, 'new:' the line in its place (both whatever
# their indentation), each 'line:' behind it one more; 'function:' names the functions whose proofs must refuse it. A line that stands several times
# in its file is looked for in the body of the first of these. 'made:' names a file of src/, specs/ or proofs/ that isn't there, as for the invariants
# of a loop that only the edit has; each 'line:' behind it is one of its lines.
. build/jobs.sh
. build/crates.sh
room=$(mktemp -d) || exit 1
trap 'rm -rf "$room"' EXIT

# The value of a line of an edit.
line_of() { sed -n "s/^$1: //p" "$2"; }

# FILE with OLD replaced by NEW: a line that stands there once, or once in the body of FUNCTION.
replaced() { # FILE OLD NEW [FUNCTION]
  OLD=$2 NEW=$3 NAME="fn ${4:-}(" awk '
    function bare(text) { sub(/^ */, "", text); return text }
    BEGIN { old = bare(ENVIRON["OLD"]); new = bare(ENVIRON["NEW"]) }
    { line[NR] = $0 }
    index($0, ENVIRON["NAME"]) { head = 1 }
    head && /^[{]|^[^ ].*[{]$/ { body = 1 }
    bare($0) == old { n++; at = NR; if (body) { inside++; there = NR } }
    /^}/ { head = body = 0 }
    END {
      if (n > 1 && inside == 1) { n = 1; at = there }
      if (n != 1) exit 1
      sub(/[^ ].*/, "", line[at])
      line[at] = line[at] new
      for (i = 1; i <= NR; i++) print line[i]
    }' "$1"
}

# Puts an edit into the copy at AT. Its files are CRATE's, or named with their crate.
applied() { # EDIT AT [CRATE]
  local edit=$1 at=$2 crate=${3:+$3/} function line file='' made='' old='' new='' waits='' some='' result=0
  function=$(line_of function "$edit")
  inside() { case $(realpath -m "$at/$file") in "$(realpath "$at")"/*) ;; *) echo "$edit: $file isn't in the copy"; return 1 ;; esac; }
  # The line at hand, and those behind it, put in.
  settled() {
    [ -n "$waits" ] || return 0
    if [ "$old" = "$new" ]; then echo "$edit: '$old' is put in its own place"; result=1
    elif replaced "$at/$file" "$old" "$new" "${function%% *}" > "$at/edited"; then mv "$at/edited" "$at/$file"
    else echo "$edit: '$old' does not stand once in $file"; result=1; fi
    waits='' some=1
  }
  while IFS= read -r line || [ -n "$line" ]; do
    case $line in
      'line:'*)
        line=${line#line:} line=${line# }
        if [ -n "$waits" ]; then new+=$'\n'$line
        elif [ -n "$made" ]; then printf '%s\n' "$line" >> "$at/$file"
        else echo "$edit: there is nothing that '$line' is behind"; return 1; fi
        continue ;;
    esac
    settled
    case $line in
      'file: '*)
        file=crates/$crate${line#file: } made=''
        [ -f "$at/$file" ] || { mkdir -p "$at/$(dirname "$file")" && cp "$file" "$at/$file"; } || { echo "$edit: no file $file"; return 1; }
        inside || return 1 ;;
      'made: '*)
        file=crates/$crate${line#made: } made=1
        if [ -e "$file" ] || [ -e "$at/$file" ]; then echo "$edit: there is a $file"; return 1; fi
        [[ $file =~ ^crates/[a-z_0-9]+/(src|specs|proofs)/ && $file != */../* ]] || { echo "$edit: $file is no source"; return 1; }
        inside && mkdir -p "$at/$(dirname "$file")" && : > "$at/$file" || return 1 ;;
      'old: '* | 'new: '*)
        [ -z "$made" ] || { echo "$edit: $file is made here: it has lines, and none of them is another's"; return 1; }
        case $line in old:*) old=${line#old: } ;; *) new=${line#new: } waits=1 ;; esac ;;
    esac
  done < "$edit"
  settled
  [ -n "$some" ] || { echo "$edit: no edit"; result=1; }
  return $result
}

# Puts a must-fail edit of CRATE into the copy at AT, as rt does: each old text stands once in its file, as a part of a line.
turned() { # EDIT AT CRATE
  local line file='' old='' new='' n=0
  while IFS= read -r line; do
    case $line in
      'file: '*)
        file=crates/$3/${line#file: }
        [ -f "$2/$file" ] || { mkdir -p "$2/$(dirname "$file")" && cp "$file" "$2/$file"; } || { echo "$1: no file $file"; return 1; } ;;
      'old: '*) old=${line#old: } ;;
      'new:'*)
        new=${line#new:}
        OLD=$old NEW=${new# } awk '
          {
            text = $0
            while (at = index(text, ENVIRON["OLD"])) { n++; printf "%s%s", substr(text, 1, at - 1), ENVIRON["NEW"]; text = substr(text, at + length(ENVIRON["OLD"])) }
            print text
          }
          END { exit n != 1 }' "$2/$file" >"$2/edited" || { echo "$1: '$old' does not stand once in $file"; return 1; }
        mv "$2/edited" "$2/$file"
        n=$((n + 1)) ;;
    esac
  done <"$1"
  [ $n -gt 0 ] || { echo "$1: no edit"; return 1; }
}

# FOLDER as it stands, at TO: by links, where these can be made. What rt keeps is never written into but replaced, except what isn't .oantt of
# out/incremental: that is copied.
linked() { # FOLDER TO
  cp -al "$1" "$2" 2>/dev/null || { rm -rf "$2" && cp -r "$1" "$2"; return; }
  case $2 in
    */incremental) find "$2" -type f ! -name '*.oantt' -exec sh -c 'for file; do cp -p "$file" "$file.copy" && mv "$file.copy" "$file" || exit 1; done' _ {} + ;;
  esac
}

# A copy at AT of CRATE and of what it uses, to check CRATE in. What stands before FIRST in crates.txt comes with its proof and isn't to be edited;
# of the rest the check begins with what was proved of it here, so that what no edit reaches isn't checked again.
copied() { # AT FIRST CRATE
  local at=$1 first=$2 crate=$3 c own='' part needed
  needed=$(below "$crate")
  mkdir -p "$at/crates" && sed 's/#.*//' crates.txt | grep -E "^($(tr '\n' '|' <<<"$needed" | sed 's/|*$//'))( [a-z]+)*:" >"$at/crates.txt" || return 1
  for c in $(crates); do
    [ "$c" != "$first" ] || own=1
    grep -qxF "$c" <<<"$needed" || continue
    mkdir -p "$at/crates/$c/out" || return 1
    for part in src specs proofs; do [ ! -d "crates/$c/$part" ] || cp -r "crates/$c/$part" "$at/crates/$c/" || return 1; done
    for part in rlib incremental; do
      if [ "$part" = rlib ] && [ -n "$own" ] || [ "$part" = incremental ] && [ -z "$own" ]; then continue; fi
      [ ! -d "crates/$c/out/$part" ] || linked "crates/$c/out/$part" "$at/crates/$c/out/$part" || return 1
    done
  done
}

# Checks CRATE in the copy at AT, and leaves in LOG what is said; once more where the check was killed, for memory say.
tested() { # AT CRATE LOG
  local status
  for _ in 1 2; do
    status=0
    (cd "$1/crates/$2" && rt check --jobs 1) >"$3" 2>&1 || status=$?
    [ $status -gt 127 ] || break
  done
  return $status
}
