package yamux

import (
	"os"
	"os/exec"
	"path/filepath"
	"regexp"
	"strings"
	"testing"
)

// These tests build programs: those of README, a program of HashiCorp's package, and tests of other packages over this
// one. The other packages are Debian's; where they aren't, a test is left out.
const packages = "/usr/share/gocode/src"

// isRaceTested says whether the race detector watches. Then it watches these programs too.
var isRaceTested bool

// need leaves a test out where a package isn't there.
func need(t *testing.T, path, debian string) string {
	t.Helper()
	folder := filepath.Join(packages, path)
	if _, err := os.Stat(folder); err != nil {
		t.Skipf("left out, as %s is not here: apt-get install %s", path, debian)
	}
	return folder
}

// goCommand is a command of go's. Where there is none, as under wine, the test is left out.
func goCommand(t *testing.T, words ...string) *exec.Cmd {
	t.Helper()
	if _, err := exec.LookPath("go"); err != nil {
		t.Skip("left out, as go is not here")
	}
	return exec.Command("go", words...)
}

// inFolder has a command of go run in a folder, and gives what it says.
func inFolder(t *testing.T, folder string, settings []string, words ...string) string {
	t.Helper()
	if isRaceTested {
		words = append([]string{words[0], "-race"}, words[1:]...)
	}
	command := goCommand(t, words...)
	command.Dir = folder
	command.Env = append(append(os.Environ(), "GOFLAGS=-mod=mod", "GOPROXY=off", "GOWORK=off"), settings...)
	said, err := command.CombinedOutput()
	if err != nil {
		t.Fatalf("go %s: %v\n%s", strings.Join(words, " "), err, said)
	}
	return string(said)
}

func write(t *testing.T, folder, name, text string) {
	t.Helper()
	good(t, os.WriteFile(filepath.Join(folder, name), []byte(text), 0o644))
}

// fence is a block of README: its kind, and its text.
var fence = regexp.MustCompile("(?ms)^```([a-z.]*)\n(.*?)^```$")

// blocksOf gives README's blocks of one kind.
func blocksOf(t *testing.T, kind string) []string {
	t.Helper()
	text, err := os.ReadFile("README.md")
	good(t, err)
	var all []string
	for _, found := range fence.FindAllStringSubmatch(string(text), -1) {
		if found[1] == kind {
			all = append(all, found[2])
		}
	}
	return all
}

// here is README's block about go.mod that has this line, with the path of this folder.
func here(t *testing.T, line string) string {
	t.Helper()
	folder, err := os.Getwd()
	good(t, err)
	for _, block := range blocksOf(t, "go.mod") {
		if strings.Contains(block, line) {
			return strings.ReplaceAll(block, "/path/to/bindings/go", folder)
		}
	}
	t.Fatalf("README has no block with %q", line)
	return ""
}

func TestReadmesProgramRuns(t *testing.T) {
	programs := blocksOf(t, "go")
	if len(programs) != 1 {
		t.Fatalf("README has %d blocks of Go", len(programs))
	}
	folder := t.TempDir()
	write(t, folder, "main.go", programs[0])
	write(t, folder, "go.mod", "module example\n\ngo 1.19\n\n"+here(t, "replace ymx.example/yamux =>"))
	if said := inFolder(t, folder, nil, "run", "."); said != "hello\n" {
		t.Fatal(said)
	}
}

// A program of HashiCorp's package. It says the same over both.
const theirProgram = `package main

import (
	"fmt"
	"io"
	"net"

	"github.com/hashicorp/yamux"
)

func check(err error) {
	if err != nil {
		panic(err)
	}
}

func main() {
	near, far := net.Pipe()
	config := yamux.DefaultConfig()
	config.LogOutput = io.Discard
	check(yamux.VerifyConfig(config))
	server, err := yamux.Server(far, config)
	check(err)
	var listener net.Listener = server
	go func() {
		conn, err := listener.Accept()
		check(err)
		word := make([]byte, 5)
		_, err = io.ReadFull(conn, word)
		check(err)
		_, err = conn.Write(word)
		check(err)
		conn.(*yamux.Stream).Shrink()
		check(conn.Close())
	}()
	client, err := yamux.Client(near, config)
	check(err)
	_, err = client.Ping()
	check(err)
	stream, err := client.OpenStream()
	check(err)
	_, err = stream.Write([]byte("hello"))
	check(err)
	answer, err := io.ReadAll(stream)
	check(err)
	check(stream.Close())
	fmt.Printf("stream %d: %s\n", stream.StreamID(), answer)
	_, err = stream.Write([]byte("more"))
	fmt.Println(err, err == yamux.ErrStreamClosed)
	check(client.Close())
	_, err = client.Open()
	fmt.Println(err, err == yamux.ErrSessionShutdown, client.IsClosed())
	<-server.CloseChan()
	_, err = server.Accept()
	fmt.Println(err)
}
`

func TestReplaceServesTheirPrograms(t *testing.T) {
	theirs := need(t, "github.com/hashicorp/yamux", "golang-github-hashicorp-yamux-dev")
	ours := here(t, "replace github.com/hashicorp/yamux =>")
	said := make(map[string]string)
	for name, module := range map[string]string{
		"ours":   "require github.com/hashicorp/yamux v0.1.1\n" + ours,
		"theirs": "require github.com/hashicorp/yamux v0.1.1\nreplace github.com/hashicorp/yamux => " + theirs,
	} {
		folder := t.TempDir()
		write(t, folder, "main.go", theirProgram)
		write(t, folder, "go.mod", "module theirs\n\ngo 1.19\n\n"+module+"\n")
		said[name] = inFolder(t, folder, nil, "run", ".")
	}
	if said["ours"] != said["theirs"] || !strings.Contains(said["theirs"], "stream 1: hello\n") {
		t.Fatalf("ours:\n%stheirs:\n%s", said["ours"], said["theirs"])
	}
}

// The conformance test of golang.org/x/net for a net.Conn, over TCP, a Unix socket and a pipe (nettest_test.go).
func TestStreamsAreConns(t *testing.T) {
	need(t, "golang.org/x/net/nettest", "golang-golang-x-net-dev")
	folder, err := os.Getwd()
	good(t, err)
	said := inFolder(t, folder, []string{"GO111MODULE=off", "GOFLAGS=", "GOPATH=" + filepath.Dir(packages)},
		"test", "-count=1", "-v", "-tags=nettest", "-run=^TestNettest$", ".")
	for _, over := range []string{"TCP", "Unix", "Pipe"} {
		if passed := strings.Count(said, "--- PASS: TestNettest/"+over+"/"); passed != 11 {
			t.Fatalf("%d of 11 passed over %s\n%s", passed, over, said)
		}
	}
}

// A plugin and its host, which ends.
const pluginProgram = `package main

import (
	"io"
	"log"
	"net"
	"os"
	"time"

	plugin "github.com/hashicorp/go-plugin"
	"github.com/hashicorp/yamux"
)

func main() {
	log.SetFlags(0)
	log.SetOutput(os.Stdout)
	if yamux.ErrTooManyStreams == nil {
		panic("this is another package")
	}
	listener, err := net.Listen("tcp", "127.0.0.1:0")
	if err != nil {
		panic(err)
	}
	silent, _ := io.Pipe()
	server := &plugin.RPCServer{Stdout: silent, Stderr: silent, DoneCh: make(chan struct{})}
	go func() {
		conn, err := listener.Accept()
		if err != nil {
			panic(err)
		}
		server.ServeConn(conn)
	}()
	conn, err := net.Dial("tcp", listener.Addr().String())
	if err != nil {
		panic(err)
	}
	client, err := plugin.NewRPCClient(conn, nil)
	if err != nil {
		panic(err)
	}
	client.SyncStreams(io.Discard, io.Discard)
	if err := client.Ping(); err != nil {
		panic(err)
	}
	time.Sleep(50 * time.Millisecond)
	if err := client.Close(); err != nil {
		panic(err)
	}
	time.Sleep(50 * time.Millisecond)
}
`

// go-plugin logs each error of a copy but io.EOF, when its host ends.
func TestGoPluginLogsNothing(t *testing.T) {
	need(t, "github.com/hashicorp/go-plugin", "golang-github-hashicorp-go-plugin-dev")
	need(t, "google.golang.org/grpc", "golang-google-grpc-dev")
	need(t, "github.com/golang/protobuf/proto", "golang-goprotobuf-dev")
	need(t, "github.com/oklog/run", "golang-github-oklog-run-dev")
	need(t, "github.com/mitchellh/go-testing-interface", "golang-github-mitchellh-go-testing-interface-dev")
	folder := t.TempDir()
	ours := filepath.Join(folder, "src/github.com/hashicorp/yamux")
	program := filepath.Join(folder, "src/program")
	good(t, os.MkdirAll(ours, 0o755))
	good(t, os.MkdirAll(program, 0o755))
	sources, err := filepath.Glob("*.go")
	good(t, err)
	assembly, err := filepath.Glob("*.s")
	good(t, err)
	for _, source := range append(sources, assembly...) {
		if !strings.HasSuffix(source, "_test.go") {
			text, err := os.ReadFile(source)
			good(t, err)
			write(t, ours, source, string(text))
		}
	}
	write(t, program, "main.go", pluginProgram)
	said := inFolder(t, program, []string{"GO111MODULE=off", "GOFLAGS=", "GOPATH=" + folder + ":" + filepath.Dir(packages)}, "run", ".")
	if said != "" {
		t.Fatal(said)
	}
}

// A build for another system fails with a message that says so.
func TestABuildForAnotherSystemSaysSo(t *testing.T) {
	for _, system := range []string{"GOOS=netbsd", "GOARCH=riscv64", "GOARCH=386"} {
		command := goCommand(t, "build", ".")
		command.Env = append(os.Environ(), "CGO_ENABLED=0", system)
		said, err := command.CombinedOutput()
		if err == nil || strings.Count(string(said), "\n") != 2 || !strings.Contains(string(said), "is_for_linux_darwin_freebsd_and_windows_on_amd64_and_arm64") {
			t.Fatalf("%v\n%s", err, said)
		}
	}
}
