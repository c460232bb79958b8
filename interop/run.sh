#!/usr/bin/env bash
# Drives a listening engined with the docker command line and with Python's client library, and
# prints a line a step: asked, passed or not, and why.
# Usage: interop/run.sh PATH_OF_ENGINED [PORT]   (outside the gate; needs Debian's packages)
set -eu
engined=$1
port=${2:-23750}
here=$(cd "$(dirname "$0")" && pwd)
if ! command -v docker > /dev/null; then
    { apt-get update && apt-get install -y docker-cli || apt-get install -y docker.io; } > /dev/null 2>&1 || true
fi
if ! python3 -c 'import docker' 2> /dev/null; then
    apt-get install -y python3-docker > /dev/null 2>&1 || true
fi
if ! command -v docker > /dev/null; then
    echo "the docker command line can't be installed here: nothing was tried"
    exit 0
fi
room=$(mktemp -d)
"$engined" --listen "127.0.0.1:$port" < /dev/null &
daemon=$!
trap 'kill $daemon 2> /dev/null; rm -rf "$room"' EXIT
for _ in $(seq 50); do
    curl -s -o /dev/null "http://127.0.0.1:$port/_ping" && break
    sleep 0.1
done
# the command line goes by no configuration of its user's
mkdir "$room/config"
status=0
DOCKER_CONFIG="$room/config" DOCKER_HOST="tcp://127.0.0.1:$port" DOCKER_API_VERSION=1.43 \
    python3 "$here/command_line.py" || status=1
if python3 -c 'import docker' 2> /dev/null; then
    DOCKER_HOST="tcp://127.0.0.1:$port" python3 "$here/library.py" || status=1
else
    echo "Python's client library can't be installed here: it wasn't tried"
fi
exit $status
