# Read in by what runs several commands at a time: `started COMMAND..` begins one beside at most RT_JOBS - 1 others, `ended` waits for all of them.
# RT_JOBS is one more than the processors where it isn't set: a command that reads or copies leaves its processor to the others. One that fails makes
# $state 1.
state=0 running=0
started() {
  if [ $running -ge "${RT_JOBS:-$(($(nproc) + 1))}" ]; then wait -n || state=1; running=$((running - 1)); fi
  "$@" &
  running=$((running + 1))
}
ended() { while [ $running -gt 0 ]; do wait -n || state=1; running=$((running - 1)); done; }
