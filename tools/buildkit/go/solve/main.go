// Command solve is BuildKit's own code beside a definition that `dfsolve llb` wrote.
//
//	solve same FILE..                           reads each definition by BuildKit's package pb and writes it again: a line of JSON for each
//	solve match < QUESTIONS                     which paths of a context a definition leaves out, by BuildKit's matchers: a line of JSON for each question
//	solve tree SOCK CONTEXT TAR [FIXTURE] < DEFINITION
//	    solves it in the BuildKit of the dockerd at SOCK, where CONTEXT is the local source `context`, and writes the tree as the file TAR.
//	    With FIXTURE, a folder with the program `fixture`, each command is handed to that program, which is mounted at /.dfsolve
//	solve image SOCK CONTEXT NAME CONFIG < DEFINITION
//	    leaves the result in that dockerd as the image NAME, with the configuration of the file CONFIG
//
// A SOCK that begins with unix:// is a buildkitd's own. With the tag `newer` it is built of BuildKit 0.13, and without of 0.8.
package main

import (
	"bufio"
	"bytes"
	"context"
	"encoding/json"
	"fmt"
	"io"
	"net"
	"net/http"
	"os"
	"strings"

	"github.com/moby/buildkit/client"
	"github.com/moby/buildkit/client/llb"
	gateway "github.com/moby/buildkit/frontend/gateway/client"
	"github.com/moby/buildkit/solver/pb"
	"github.com/moby/buildkit/util/apicaps"
	"github.com/moby/buildkit/util/entitlements"
	digest "github.com/opencontainers/go-digest"
)

func die(err error) {
	if err != nil {
		fmt.Fprintln(os.Stderr, err)
		os.Exit(1)
	}
}

// told is a list that BuildKit would send to its client, by the name of its attribute.
func told(definition []byte, attribute string) []string {
	var def pb.Definition
	die(def.Unmarshal(definition))
	var list []string
	for _, b := range def.Def {
		var op pb.Op
		die(op.Unmarshal(b))
		if source := op.GetSource(); source != nil && source.Identifier == "local://context" && source.Attrs[attribute] != "" {
			die(json.Unmarshal([]byte(source.Attrs[attribute]), &list))
		}
	}
	return list
}

// report is what BuildKit's package makes of one definition.
type report struct {
	File       string
	Operations int
	Bytes      int
	Same       bool     // the definition and each operation come out as the bytes that they were, but for merges of which this package knows nothing
	Merges     int      // operations that are merges
	Named      bool     // each input and each entry of the metadata names an operation of the definition
	Unknown    []string // capabilities that this BuildKit doesn't know
	Excludes   []string // patterns of what the context leaves out
	Follows    []string // patterns of what is named of the context
}

func look(file string) report {
	dt, err := os.ReadFile(file)
	die(err)
	var def pb.Definition
	die(def.Unmarshal(dt))
	again, err := def.Marshal()
	die(err)
	r := report{File: file, Operations: len(def.Def), Bytes: len(dt), Same: bytes.Equal(dt, again), Named: true, Unknown: []string{},
		Excludes: told(dt, pb.AttrExcludePatterns), Follows: told(dt, pb.AttrFollowPaths)}
	known := pb.Caps.CapSet(pb.Caps.All())
	seen := map[digest.Digest]bool{}
	for _, b := range def.Def {
		var op pb.Op
		die(op.Unmarshal(b))
		same, err := op.Marshal()
		die(err)
		isMerge := def.Metadata[digest.FromBytes(b)].Caps["mergeop"]
		if isMerge {
			r.Merges++
		}
		r.Same = r.Same && (bytes.Equal(b, same) || isMerge && op.Op == nil)
		for _, in := range op.Inputs {
			r.Named = r.Named && seen[in.Digest]
		}
		seen[digest.FromBytes(b)] = true
	}
	unknown := map[apicaps.CapID]bool{}
	for d, m := range def.Metadata {
		r.Named = r.Named && seen[d]
		for c := range m.Caps {
			if known.Supports(c) != nil && !unknown[c] {
				unknown[c] = true
				r.Unknown = append(r.Unknown, string(c))
			}
		}
	}
	return r
}

type conn struct {
	net.Conn
	r *bufio.Reader
}

func (c conn) Read(b []byte) (int, error) { return c.r.Read(b) }

// dial is what docker's client does: a request on /grpc that becomes a connection. A buildkitd needs none.
func dial(sock string) func(context.Context, string) (net.Conn, error) {
	return func(ctx context.Context, _ string) (net.Conn, error) {
		own := strings.TrimPrefix(sock, "unix://")
		c, err := net.Dial("unix", own)
		if err != nil || own != sock {
			return c, err
		}
		req, _ := http.NewRequest("POST", "http://docker/grpc", nil)
		req.Header.Set("Connection", "Upgrade")
		req.Header.Set("Upgrade", "h2c")
		if err := req.Write(c); err != nil {
			return nil, err
		}
		r := bufio.NewReader(c)
		resp, err := http.ReadResponse(r, req)
		if err != nil {
			return nil, err
		}
		if resp.StatusCode != http.StatusSwitchingProtocols {
			return nil, fmt.Errorf("no upgrade: %s", resp.Status)
		}
		return conn{c, r}, nil
	}
}

// withFixture hands each command to the fixture. All else stays, but for the digests of what stands on a command.
func withFixture(def *llb.Definition) *llb.Definition {
	out := &llb.Definition{Metadata: map[digest.Digest]pb.OpMetadata{}}
	renamed := map[digest.Digest]digest.Digest{}
	put := func(op pb.Op, meta pb.OpMetadata) digest.Digest {
		b, err := op.Marshal()
		die(err)
		d := digest.FromBytes(b)
		out.Def, out.Metadata[d] = append(out.Def, b), meta
		return d
	}
	fixture := put(pb.Op{Op: &pb.Op_Source{Source: &pb.SourceOp{Identifier: "local://fixture",
		Attrs: map[string]string{pb.AttrSharedKeyHint: "fixture"}}}, Constraints: &pb.WorkerConstraints{}}, pb.OpMetadata{})
	for _, b := range def.Def {
		var op pb.Op
		die(op.Unmarshal(b))
		before := digest.FromBytes(b)
		for _, in := range op.Inputs {
			in.Digest = renamed[in.Digest]
		}
		if run := op.GetExec(); run != nil {
			words := []string{"/.dfsolve/fixture"}
			for _, m := range run.Mounts {
				if m.MountType == pb.MountType_CACHE {
					words = append(words, m.Dest)
				}
			}
			run.Meta.Args = append(append(words, "--"), run.Meta.Args...)
			run.Meta.User = ""
			run.Mounts = append(run.Mounts, &pb.Mount{Input: pb.InputIndex(len(op.Inputs)), Dest: "/.dfsolve", Output: pb.SkipOutput, Readonly: true})
			op.Inputs = append(op.Inputs, &pb.Input{Digest: fixture})
		}
		renamed[before] = put(op, def.Metadata[before])
	}
	return out
}

func solve(sock, folder string, def *llb.Definition, opt client.SolveOpt, config []byte) {
	ctx := context.Background()
	c, err := client.New(ctx, "", client.WithContextDialer(dial(sock)))
	die(err)
	ch := make(chan *client.SolveStatus)
	done := make(chan struct{})
	go func() {
		for s := range ch {
			for _, l := range s.Logs {
				os.Stderr.Write(l.Data)
			}
			for _, v := range s.Vertexes {
				if v.Error != "" {
					fmt.Fprintf(os.Stderr, "\nfailed at: %s\n", v.Name)
				}
			}
		}
		close(done)
	}()
	if config != nil {
		// dockerd's exporter takes the configuration from the result's metadata alone, so by way of a gateway
		_, err = c.Build(ctx, opt, "", func(ctx context.Context, gw gateway.Client) (*gateway.Result, error) {
			r, err := gw.Solve(ctx, gateway.SolveRequest{Definition: def.ToPB()})
			if err == nil {
				r.AddMeta("containerimage.config", config)
			}
			return r, err
		}, ch)
	} else {
		_, err = c.Solve(ctx, def, opt, ch)
	}
	<-done
	die(err)
}

func main() {
	if len(os.Args) > 1 && os.Args[1] == "same" {
		for _, file := range os.Args[2:] {
			line, err := json.Marshal(look(file))
			die(err)
			fmt.Println(string(line))
		}
		return
	}
	if len(os.Args) == 2 && os.Args[1] == "match" {
		match(os.Stdin, os.Stdout)
		return
	}
	if len(os.Args) < 5 {
		die(fmt.Errorf("solve same FILE.. | match | tree SOCK CONTEXT TAR [FIXTURE] | image SOCK CONTEXT NAME CONFIG"))
	}
	def, err := llb.ReadFrom(os.Stdin)
	die(err)
	word, sock, folder, name := os.Args[1], os.Args[2], os.Args[3], os.Args[4]
	opt := client.SolveOpt{LocalDirs: map[string]string{"context": folder}}
	if word == "image" {
		config, err := os.ReadFile(os.Args[5])
		die(err)
		opt.Exports = []client.ExportEntry{{Type: "moby", Attrs: map[string]string{"name": name}}}
		// only a definition that was written with `--network host` asks for it
		opt.AllowedEntitlements = []entitlements.Entitlement{entitlements.EntitlementNetworkHost}
		solve(sock, folder, def, opt, config)
		return
	}
	if len(os.Args) > 5 {
		opt.LocalDirs["fixture"] = os.Args[5]
		def = withFixture(def)
	}
	opt.Exports = []client.ExportEntry{{Type: client.ExporterTar, Output: func(map[string]string) (io.WriteCloser, error) { return os.Create(name) }}}
	solve(sock, folder, def, opt, nil)
}
