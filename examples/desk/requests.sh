#!/bin/sh
# The requests of the sample as lines for curl, in the order of 1-publisher.http, 2-north.http and
# 3-south.http. Their bodies are the files of examples/site. Run it from any folder, with the desk's URL:
#
#   sh examples/desk/requests.sh http://127.0.0.1:8080
#
# A desk that has had these requests before answers the changes with the kept replies, or with STALE.
desk=${1:?say the URL of the desk}

# A body that is not found would be sent empty, and use up its number.
cd "$(dirname "$0")/../.." || exit 1
[ -f examples/site/publication.txt ] || { echo "requests.sh: examples/site is not beside it" >&2; exit 1; }

# the publisher
curl -sS --fail-with-body --data-binary @examples/site/publication.txt \
    -H 'bureau-token: publisher-token' -H 'bureau-number: 1' "$desk/publish"
curl -sS --fail-with-body -H 'bureau-token: publisher-token' "$desk/published"

# NORTH
curl -sS --fail-with-body -X PUT --data-binary @examples/site/north/zones/MVSPROD.csv \
    -H 'bureau-token: north-token' -H 'bureau-number: 1' "$desk/zones/MVSPROD"
curl -sS --fail-with-body -X PUT --data-binary @examples/site/north/received.csv \
    -H 'bureau-token: north-token' -H 'bureau-number: 2' "$desk/received"
curl -sS --fail-with-body -X PUT --data-binary @examples/site/north/categories/MVSPROD.csv \
    -H 'bureau-token: north-token' -H 'bureau-number: 3' "$desk/zones/MVSPROD/categories"
curl -sS --fail-with-body -H 'bureau-token: north-token' "$desk/zones/MVSPROD/errsysmods"
curl -sS --fail-with-body -H 'bureau-token: north-token' "$desk/zones/MVSPROD/missingfix"
curl -sS --fail-with-body -H 'bureau-token: north-token' "$desk/zones/MVSPROD/chains/UJ92002"
curl -sS --fail-with-body -H 'bureau-token: north-token' "$desk/zones/MVSPROD/chains/UJ92005"
curl -sS --fail-with-body -H 'bureau-token: north-token' "$desk/zones/MVSPROD/chains/UJ92003"

# SOUTH
curl -sS --fail-with-body -X PUT --data-binary @examples/site/south/zones/MVSTEST.csv \
    -H 'bureau-token: south-token' -H 'bureau-number: 1' "$desk/zones/MVSTEST"
curl -sS --fail-with-body -X PUT --data-binary @examples/site/south/received.csv \
    -H 'bureau-token: south-token' -H 'bureau-number: 2' "$desk/received"
curl -sS --fail-with-body -X PUT --data-binary @examples/site/south/categories/MVSTEST.csv \
    -H 'bureau-token: south-token' -H 'bureau-number: 3' "$desk/zones/MVSTEST/categories"
curl -sS --fail-with-body -H 'bureau-token: south-token' "$desk/zones"
curl -sS --fail-with-body -H 'bureau-token: south-token' "$desk/zones/MVSTEST/errsysmods"
curl -sS --fail-with-body -H 'bureau-token: south-token' "$desk/zones/MVSTEST/missingfix"
curl -sS --fail-with-body -H 'bureau-token: south-token' "$desk/zones/MVSTEST/chains/UJ92003"
curl -sS --fail-with-body -H 'bureau-token: south-token' "$desk/zones/MVSTEST/chains/UJ93001"
# NORTH's zone is not there for SOUTH: NOT FOUND, and curl ends with 22
curl -sS --fail-with-body -H 'bureau-token: south-token' "$desk/zones/MVSPROD/errsysmods"
