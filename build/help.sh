# Read in first by the scripts that people call, each of which hands its arguments over before it does anything: `helped MOST "$@"`. --help and -h
# print the comment at the script's head. An option that the script doesn't know ($options has those that it does) and more than MOST words are wrong
# use: a line on standard error, exit status 2.
# shellcheck shell=bash
misused() { echo "$0: $1 ($0 --help says how it is used)" >&2; exit 2; }
helped() { # MOST WORD..
  local most=$1 word
  shift
  case ${1-} in -h | --help) sed -n '2,/^[^#]/s/^# \{0,1\}//p' "$0"; exit 0 ;; esac
  for word in "$@"; do
    case $word in -*) case " ${options-} " in *" $word "*) ;; *) misused "there is no option '$word'" ;; esac ;; esac
  done
  [ $# -le "$most" ] || misused "$# arguments, and at most $most are taken"
}
# For a script that takes numbers: each word is one.
numbered() { # WORD..
  local word
  for word in "$@"; do case $word in '' | *[!0-9]*) misused "'$word' is no number" ;; esac; done
}
