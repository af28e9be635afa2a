# shellcheck shell=bash disable=SC2154
# Starts a script again under bin/lib/guard, which ends all that it started when a signal ends it, and removes its folder
# $TMPDIR. The script has set `top` to the repository's folder.

guarded() {
  [ "${GUARDED-}" = "$PPID" ] || exec "$top/bin/lib/guard" "$(basename "$0")" "$BASH" "$0" "$@"
}
