// Command frontend is a front end of BuildKit around the program dfsolve.
//
// BuildKit runs it in a container of its image, for a Dockerfile that begins with `# syntax=HOST/dfsolve:1`, for the build argument
// BUILDKIT_SYNTAX, or for `--frontend gateway.v0 --opt source=HOST/dfsolve:1`. It asks BuildKit for the Dockerfile, the ignore file, the
// names of the context and the configurations of images, has dfsolve write the definition and the configuration, and has BuildKit solve
// that.
//
// It decides nothing about the language, and nothing of it is proved. What a Dockerfile means, which faults it has, and what the definition
// says is dfsolve's. What dfsolve hasn't got yet is done here in its place: all of that is in standin.go, reading.go and warnings.go, with
// what will come for it.
//
// It takes no context from elsewhere (git, http, an archive), no named contexts and no inputs. These, and options that it doesn't know, are
// refused by their names: nothing is ignored. options.go has the lists.
//
// Standard input and output are the connection to BuildKit, and standard error is the daemon's log: nothing may be printed.
package main

import (
	"context"
	"crypto/rand"
	"encoding/hex"
	"encoding/json"
	"fmt"
	"os"

	"github.com/containerd/containerd/platforms"
	"github.com/moby/buildkit/client/llb"
	"github.com/moby/buildkit/exporter/containerimage/exptypes"
	"github.com/moby/buildkit/frontend/gateway/client"
	"github.com/moby/buildkit/frontend/gateway/grpcclient"
	"github.com/moby/buildkit/solver/pb"
	"github.com/moby/buildkit/util/appcontext"
	ocispecs "github.com/opencontainers/image-spec/specs-go/v1"
	"github.com/pkg/errors"
	"golang.org/x/sync/errgroup"
)

func main() {
	if len(os.Args) == 4 && os.Args[1] == listing {
		if err := writeNames(os.Args[2], os.Args[3]); err != nil {
			fmt.Fprintln(os.Stderr, err)
			os.Exit(1)
		}
		return
	}
	if err := grpcclient.RunFromEnvironment(appcontext.Context(), solve); err != nil {
		fmt.Fprintf(os.Stderr, "fatal error: %+v\n", err)
		os.Exit(1)
	}
}

// build is what is the same for all platforms of one build.
type build struct {
	c       client.Client
	given   client.BuildOpts
	options *options
	file    *source // the Dockerfile
	ignore  *source // the ignore file, or nil
	unique  string
}

// variant is a build for one platform.
type variant struct {
	*build
	platform ocispecs.Platform
	images   *images
	follows  *follows
}

func solve(ctx context.Context, c client.Client) (*client.Result, error) {
	given := c.BuildOpts()
	options, err := read(given)
	if err != nil {
		return nil, err
	}
	unique, err := random()
	if err != nil {
		return nil, err
	}
	b := &build{c: c, given: given, options: options, unique: unique}
	if options.request != "" {
		return b.answer(ctx)
	}
	if err := b.readDockerfile(ctx); err != nil {
		return nil, err
	}
	if err := b.readIgnoreFile(ctx); err != nil {
		return nil, err
	}
	b.warnOfFile(ctx)
	variants, err := b.variants(ctx)
	if err != nil {
		return nil, err
	}
	names, err := b.names(ctx, variants)
	if err != nil {
		return nil, err
	}
	return b.solveAll(ctx, variants, names)
}

// random is a text that no other build has: BuildKit takes two builds with one definition for one.
func random() (string, error) {
	var drawn [16]byte
	if _, err := rand.Read(drawn[:]); err != nil {
		return "", errors.Wrap(err, "no random text for the build")
	}
	return hex.EncodeToString(drawn[:]), nil
}

// variants finds for each platform the images that are needed, and what is named of the context.
func (b *build) variants(ctx context.Context) ([]*variant, error) {
	found := make([]*variant, len(b.options.platforms))
	group, ctx := errgroup.WithContext(ctx)
	for n, p := range b.options.platforms {
		v := &variant{build: b, platform: p}
		found[n] = v
		group.Go(func() (err error) {
			if v.images, err = v.findImages(ctx); err != nil {
				return err
			}
			// what is named of the context doesn't depend on what is in it
			v.follows, err = v.findFollows(ctx)
			return err
		})
	}
	return found, group.Wait()
}

// solveAll solves each variant, and says in the result which one is which.
func (b *build) solveAll(ctx context.Context, variants []*variant, names []entry) (*client.Result, error) {
	result := client.NewResult()
	table := exptypes.Platforms{Platforms: make([]exptypes.Platform, len(variants))}
	group, ctx := errgroup.WithContext(ctx)
	for n, v := range variants {
		n, v := n, v
		group.Go(func() error {
			ref, config, err := v.solve(ctx, names)
			if err != nil {
				return err
			}
			id := platforms.Format(v.platform)
			table.Platforms[n] = exptypes.Platform{ID: id, Platform: v.platform}
			if b.options.isByPlatforms() {
				result.AddRef(id, ref)
				result.AddMeta(exptypes.ExporterImageConfigKey+"/"+id, config)
			} else {
				result.SetRef(ref)
				result.AddMeta(exptypes.ExporterImageConfigKey, config)
			}
			return nil
		})
	}
	if err := group.Wait(); err != nil {
		return nil, err
	}
	said, err := json.Marshal(table)
	if err != nil {
		return nil, errors.Wrap(err, "the table of platforms")
	}
	result.AddMeta(exptypes.ExporterPlatformsKey, said)
	return result, nil
}

// solve is the tree and the configuration of one platform. The tree is nil if there is nothing to make.
func (v *variant) solve(ctx context.Context, names []entry) (client.Reference, []byte, error) {
	bundle, err := v.bundle(names)
	if err != nil {
		return nil, nil, err
	}
	config, err := v.written(ctx, bundle, "config")
	if err != nil {
		return nil, nil, err
	}
	if config, err = v.configuration(ctx, config); err != nil {
		return nil, nil, err
	}
	definition, err := v.definition(ctx, bundle)
	if err != nil {
		return nil, nil, err
	}
	if isEmpty(definition) {
		return nil, config, nil
	}
	result, err := v.c.Solve(ctx, client.SolveRequest{Definition: definition, CacheImports: v.options.caches})
	if err != nil {
		return nil, nil, err
	}
	ref, err := result.SingleRef()
	return ref, config, err
}

// definition is what dfsolve writes of a bundle for this build's options.
func (v *variant) definition(ctx context.Context, bundle []byte) (*pb.Definition, error) {
	words := []string{"llb", "--unique", v.unique, "--platform", platforms.Format(v.platform), "--follow"}
	if v.options.network != "" {
		words = append(words, "--network", v.options.network)
	}
	if v.given.LLBCaps.Supports(pb.CapMergeOp) != nil {
		words = append(words, "--merge", "chain")
	}
	written, err := v.written(ctx, bundle, words...)
	if err != nil {
		return nil, err
	}
	var definition pb.Definition
	if err := definition.Unmarshal(written); err != nil {
		return nil, errors.Wrap(err, "BuildKit can't read what dfsolve wrote")
	}
	return &definition, v.complete(ctx, &definition)
}

// local is a part of a folder of the client. Without the session in it, two builds at once would be one.
func (b *build) local(name, title string, more ...llb.LocalOption) llb.State {
	all := []llb.LocalOption{llb.SessionID(b.given.SessionID), llb.SharedKeyHint(name), llb.WithCustomName("[internal] " + title)}
	return llb.Local(name, append(all, more...)...)
}

// solved is the tree of a state, and the definition that it was made by.
func (b *build) solved(ctx context.Context, state llb.State) (client.Reference, *llb.Definition, error) {
	definition, err := state.Marshal(ctx)
	if err != nil {
		return nil, nil, err
	}
	result, err := b.c.Solve(ctx, client.SolveRequest{Definition: definition.ToPB()})
	if err != nil {
		return nil, nil, err
	}
	ref, err := result.SingleRef()
	return ref, definition, err
}

// isEmpty says whether a definition makes nothing but the root of an empty tree, which an end has to name.
func isEmpty(definition *pb.Definition) bool {
	if len(definition.Def) != 2 {
		return false
	}
	var op pb.Op
	if err := op.Unmarshal(definition.Def[0]); err != nil {
		return false
	}
	actions := op.GetFile().GetActions()
	return len(op.Inputs) == 0 && len(actions) == 1 && actions[0].GetMkdir().GetPath() == "/"
}
