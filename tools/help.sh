# shellcheck shell=sh
# For the scripts to source: a script's help is the comment at its head.
help() { sed -n -e 1d -e '/^#/!q' -e 's/^# \{0,1\}//p' "$0"; }
wrong() {
  echo "$0: $1 (--help says what it takes)" >&2
  exit 2
}
# the arguments of a script that takes none
no_arguments() {
  for a in "$@"; do
    case $a in
      -h | --help) help; exit 0 ;;
      *) wrong "no such argument: $a" ;;
    esac
  done
}
