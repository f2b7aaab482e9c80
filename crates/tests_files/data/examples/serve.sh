#!/usr/bin/env bash
# Starts a server of four workers for two connections, has `client.py` talk to it twice, and compares the replies: prints
# `as expected`, or what differs. Run it by hand, as `examples/serve.sh ./chr`. Tickets and labels depend on the schedule,
# so they aren't compared.
set -eu
here=$(cd "$(dirname "${BASH_SOURCE[0]}")" && pwd)
chr=${1:?"usage: serve.sh PROGRAM"}
work=$(mktemp -d)
server=
trap '[ -z "$server" ] || kill "$server"; rm -rf "$work"' EXIT

"$chr" --version >"$work/errors"
"$chr" serve --socket "$work/chr.sock" --workers 4 --sessions 2 2>"$work/errors" &
server=$!
until grep -q listening "$work/errors"; do
  kill -0 "$server" || { cat "$work/errors" >&2; exit 1; }
  sleep 0.1
done
python3 "$here/client.py" "$work/chr.sock" 12 18 >"$work/replies"
python3 "$here/client.py" "$work/chr.sock" 15 >>"$work/replies"
wait "$server"
server=
[ ! -e "$work/chr.sock" ] || echo "the socket is left" >>"$work/replies"
sed -i -e 's/^posted [0-9]*/posted/' -e 's/^#[0-9]*/#/' "$work/replies"
diff - "$work/replies" <<'END'
loaded 2
posted 2
store 1
# gcd(6)
bye
fault E20 AlreadyLoaded
posted 1
store 1
# gcd(3)
bye
END
echo "as expected"
