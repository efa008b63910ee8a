# shellcheck shell=bash
# Makes a folder for temporary files, counts comparisons, shows how a program ended, and prints a check's last line. The checks in Bash
# source this file in the top folder of the tree. A check may define `show` anew.
work=$(mktemp -d)
trap 'rm -rf "$work"' EXIT
passed=0
failed=0
skipped=
# The launcher of the programs builds nothing during a check.
export TCRX_BUILD=no
need() { tools/launch --build "$@" >&2 || { echo "$0: nothing was compared"; exit 70; }; }

# Counts a comparison: expect TITLE COMMAND... The command must succeed. If it fails, the end of what it printed is shown, and then what
# `show` prints.
expect() {
  if "${@:2}" >"$work/said" 2>&1; then
    passed=$((passed + 1))
  else
    failed=$((failed + 1))
    echo "$0: WRONG: $1"
    tail -n 20 "$work/said"
    show
  fi
}
show() { :; }
refuses() { ! "$@"; }

# Notes a part that is left out, with the number of its comparisons: skip NUMBER NAME. .ci/run lowers the check's minimum by this number. If
# a part is left out because a command is missing, NAME must be that of the command. .ci/run then sees whether it is really missing.
skip() { skipped+="${skipped:+, }$2 ($1)"; }
# Succeeds if these commands are installed: has NUMBER COMMAND... If one isn't, a part of NUMBER comparisons is
# skipped.
has() {
  local command
  for command in "${@:2}"; do
    command -v "$command" >/dev/null || { skip "$1" "$command" && return 1; }
  done
}

# Runs a program on each conformance case of a folder that has no bad line, and compares all answers and the final report:
# answers_cases FOLDER PROGRAM WORD... The spacecraft identifier is added as the last word.
answers_cases() {
  local name scid fault cases=0 wrong=0
  while read -r name scid fault; do
    [ -z "$fault" ] || continue
    cases=$((cases + 1))
    if ! "${@:2}" "$scid" <"$1/$name.script" >"$work/out" 2>"$work/error" || ! cmp -s "$work/out" "$1/$name.out"; then
      wrong=$((wrong + 1))
      echo "case $name: $(diff "$work/out" "$1/$name.out" | head -n 3 | cut -c 1-200) $(head -n 3 "$work/error")"
    fi
  done <"$1/index"
  echo "$cases cases, $wrong of them wrong"
  [ "$cases" -gt 70 ] && [ "$wrong" = 0 ]
}

# Prints the last line: close NAME. It says how many comparisons passed and failed, and which parts were skipped. `close` succeeds if at
# least one comparison passed and none failed.
close() {
  echo "$passed $1 passed, $failed failed${skipped:+; skipped: $skipped}"
  [ "$failed" = 0 ] && { [ "$passed" -gt 0 ] || [ -n "$skipped" ]; }
}

# Prints how the program ended whose status is in `status`, and whose streams are in `$work/out` and `$work/error`.
show_ended() {
  echo "status ${status:-none}, and on standard output and standard error:"
  cat "$work/out" "$work/error"
}

# These succeed if the program's standard error is empty, and if it has these words: says WORDS.
silent() { [ ! -s "$work/error" ]; }
says() { grep -qF -- "$1" "$work/error"; }
