#!/bin/sh
# Times yamux for Go (bindings/go) and HashiCorp's package in turn, over TCP on the loopback: words of 64
# bytes there and back, one stream, 64 streams at once, and streams that are opened and closed: one after another, and
# each once the other side has closed the one before. Medians of five runs of the speed and the processor time of both
# sides, and ours as a part of HashiCorp's; and what a new session has on Go's heap. Needs Go
# and golang-github-hashicorp-yamux-dev. With a number it makes so many runs.
set -eu
top=$(cd "$(dirname "$0")/.." && pwd)
case ${1-5} in
'' | *[!0-9]*) echo "usage: bench/go.sh [RUNS]" >&2 && exit 2 ;;
esac
[ -d /usr/share/gocode/src/github.com/hashicorp/yamux ] || { echo 'bench/go.sh needs golang-go and golang-github-hashicorp-yamux-dev' >&2; exit 1; }
theirs=/usr/share/gocode/src/github.com/hashicorp/yamux
work=$(mktemp -d)
trap 'rm -rf "$work"' EXIT
trap 'exit 130' INT TERM
export CGO_ENABLED=0
mkdir "$work/bench"
cp "$top/bench/go_bench.go" "$work/bench/main.go"
cd "$work/bench"
cat > go.mod <<END
module bench

go 1.19

require (
	github.com/hashicorp/yamux v0.0.0
	ymx.example/yamux v0.0.0
)

replace (
	github.com/hashicorp/yamux => $theirs
	ymx.example/yamux => $top/bindings/go
)
END
go build -o go_bench .
echo "load before: $(cut -d ' ' -f 1-3 /proc/loadavg)"
./go_bench "${1-5}" > figures
echo "load after: $(cut -d ' ' -f 1-3 /proc/loadavg)"
# median COLUMN: of each name and package
median() {
    sort -k1,1 -k2,2 -k"$1,$1n" figures | awk -v column="$1" '
      { if ($1 " " $2 != key) { if (key != "") print key, value[int((n + 1) / 2)]; key = $1 " " $2; n = 0 } value[++n] = $column }
      END { print key, value[int((n + 1) / 2)] }'
}
median 3 > speed
median 4 > spent
paste -d ' ' speed spent | awk '
  $2 == "hashicorp" { speed = $3; time = $6 }
  $2 == "ymx" { printf "%-15s ymx %d, hashicorp %d a second: %.2f; processor time %d, %d ms: %.2f\n", $1, $3, speed, $3 / speed, $6, time, $6 / time }'
