#!/usr/bin/env bash
# Opens a session at a host of a running manager, sends a message, shows what comes back, and leaves.
# Usage: curl.sh [HOST [URL]]
set -euo pipefail
host=${1:-echo.localhost}
url=${2:-http://127.0.0.1:5280/http-bind}
namespace="xmlns='http://jabber.org/protocol/httpbind'"

post() {
    echo "> $1" >&2
    curl -sS --max-time 90 -H 'Content-Type: text/xml; charset=utf-8' --data-binary "$1" "$url"
    echo
}

answer=$(post "<body rid='1000' to='$host' wait='10' hold='1' ver='1.6' $namespace/>")
echo "$answer"
sid=$(sed -n "s/.* sid='\([^']*\)'.*/\1/p" <<< "$answer")
post "<body rid='1001' sid='$sid' $namespace><message xmlns='jabber:client'><body>hello</body></message></body>"
post "<body rid='1002' sid='$sid' type='terminate' $namespace/>"
