#!/bin/sh
# Takes the Go package as release/go_module.py packs it, from a folder as the proxy, with nothing on the PATH but Go: a program that
# requires it is built, and built again with the modules that it has vendored, for each system; and so is one of HashiCorp's
# package that has it in that one's place. Both are run. Needs Go.
set -eu
here=$(cd "$(dirname "$0")" && pwd)
. "$here/../over.sh"
cd "$scratch"
"$root/release/go_module.py" proxy
size=$(stat -c %s proxy/ymx.example/yamux/@v/*.zip)
[ "$size" -le 300000 ] || fail "the module has $size bytes packed"
version=$(cat proxy/ymx.example/yamux/@v/list)
mkdir path
go=$(go env GOROOT)/bin/go
ln -s "$go" path/go
export GOPROXY="file://$scratch/proxy" GOSUMDB=off GOFLAGS=-mod=mod GOPATH="$scratch/gopath" GOTOOLCHAIN=local CGO_ENABLED=0

# alone WORD..: Go, where nothing else can be found
alone() {
    env PATH="$scratch/path" "$go" "$@"
}

# try_program FOLDER PACKAGE: an echo of a word over the package, whose module is in FOLDER/go.mod
try_program() {
    cat > "$1/main.go" << END
package main

import (
	"io"
	"log"
	"net"

	yamux "$2"
)

func check(err error) {
	if err != nil {
		log.Fatal(err)
	}
}

func main() {
	near, far := net.Pipe()
	client, err := yamux.Client(near, nil)
	check(err)
	server, err := yamux.Server(far, nil)
	check(err)
	go func() {
		stream, err := server.AcceptStream()
		check(err)
		io.Copy(stream, stream)
		check(stream.Close())
	}()
	stream, err := client.OpenStream()
	check(err)
	_, err = stream.Write([]byte("a word"))
	check(err)
	word := make([]byte, 6)
	_, err = io.ReadFull(stream, word)
	check(err)
	if string(word) != "a word" {
		log.Fatal(string(word))
	}
	check(stream.Close())
}
END
    cd "$1"
    alone build -o plain . && ./plain && alone mod vendor || return 1
    for system in linux windows darwin freebsd; do
        for processor in amd64 arm64; do
            GOFLAGS=-mod=vendor GOOS=$system GOARCH=$processor alone build -o "vendored.$system.$processor" . || return 1
        done
    done
    "./vendored.linux.$(go env GOARCH)"
}

new_program() {
    mkdir new
    printf 'module program\n\ngo 1.19\n\nrequire ymx.example/yamux %s\n' "$version" > new/go.mod
    try_program new ymx.example/yamux
}

replaced() {
    mkdir old
    printf 'module program\n\ngo 1.19\n\nrequire github.com/hashicorp/yamux v0.1.1\n\nreplace github.com/hashicorp/yamux => ymx.example/yamux %s\n' \
        "$version" > old/go.mod
    try_program old github.com/hashicorp/yamux
}

for one in new_program replaced; do
    if (cd "$scratch" && $one) > said 2>&1; then good; else bad "$one" said; fi
done
# what Go keeps of modules can't be removed otherwise
go clean -modcache
counted
