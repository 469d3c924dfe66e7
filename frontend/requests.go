package main

import (
	"bytes"
	"context"
	"encoding/json"

	"github.com/moby/buildkit/frontend/dockerfile/dockerfile2llb"
	"github.com/moby/buildkit/frontend/dockerfile/parser"
	"github.com/moby/buildkit/frontend/dockerui"
	"github.com/moby/buildkit/frontend/gateway/client"
	"github.com/moby/buildkit/frontend/subrequests"
	"github.com/moby/buildkit/frontend/subrequests/outline"
	"github.com/moby/buildkit/frontend/subrequests/targets"
	"github.com/moby/buildkit/solver/errdefs"
	"github.com/pkg/errors"
)

// described lists the requests that are answered in place of a build.
func described() (*client.Result, error) {
	own := subrequests.SubrequestsDescribeDefinition
	list := []subrequests.Request{outline.SubrequestsOutlineDefinition, targets.SubrequestsTargetsDefinition, own}
	all, err := json.MarshalIndent(list, "", "  ")
	if err != nil {
		return nil, err
	}
	var text bytes.Buffer
	if err := subrequests.PrintDescribe(all, &text); err != nil {
		return nil, err
	}
	result := client.NewResult()
	result.Metadata = map[string][]byte{"result.json": all, "result.txt": text.Bytes(), "version": []byte(own.Version)}
	return result, nil
}

// answer answers a request. The client need not have given the context.
func (b *build) answer(ctx context.Context) (*client.Result, error) {
	switch b.options.request {
	case subrequests.RequestSubrequestsDescribe:
		return described()
	case targets.SubrequestsTargetsDefinition.Name:
		return b.targets(ctx)
	case outline.SubrequestsOutlineDefinition.Name:
		return b.outline(ctx)
	}
	return nil, errdefs.NewUnsupportedSubrequestError(b.options.request)
}

// targets lists the stages.
func (b *build) targets(ctx context.Context) (*client.Result, error) {
	if err := b.readDockerfile(ctx); err != nil {
		return nil, err
	}
	// `dfsolve stages` takes the place of BuildKit's own reading
	list, err := dockerfile2llb.ListTargets(ctx, b.file.data)
	if err != nil {
		return nil, errors.Wrap(err, "the stages of the Dockerfile")
	}
	return list.ToResult()
}

// outline says which arguments and caches a build has. What would be refused has no outline.
func (b *build) outline(ctx context.Context) (*client.Result, error) {
	if err := b.readDockerfile(ctx); err != nil {
		return nil, err
	}
	if _, err := b.variants(ctx); err != nil {
		return nil, err
	}
	// `dfsolve outline` takes the place of BuildKit's own evaluation
	own, err := dockerui.NewClient(b.c)
	if err != nil {
		return nil, err
	}
	said, err := dockerfile2llb.Dockefile2Outline(ctx, b.file.data, dockerfile2llb.ConvertOpt{Config: own.Config, Client: own, MetaResolver: b.c,
		Warn: func(string, string, [][]byte, *parser.Range) {}})
	if err != nil {
		return nil, errors.Wrap(err, "the outline of the Dockerfile")
	}
	return said.ToResult()
}
