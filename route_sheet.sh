#!/usr/bin/env bash
# The program: builds it where it is missing (every crate that it needs is proved first), then runs it.
#   bash route_sheet.sh example        the sheet of the example network
#   bash route_sheet.sh < my.txt       one's own: a destination on the first line, then a line for each link
set -eu
root=$(cd "$(dirname "$0")" && pwd)
program=$root/crates/route_sheet/out/route_sheet
# (`rt run` builds the program and runs it once)
[ -x "$program" ] || (cd "$root/crates/route_sheet" && rt run < stdin > /dev/null)
if [ "${1:-}" = example ]; then
  exec "$program" < "$root/crates/route_sheet/stdin"
fi
exec "$program"
