package main

import (
	"context"
	"encoding/hex"
	"encoding/json"
	"path"
	"strings"

	"github.com/moby/buildkit/client/llb"
	"github.com/moby/buildkit/frontend/gateway/client"
	"github.com/moby/buildkit/solver/pb"
	digest "github.com/opencontainers/go-digest"
	"github.com/pkg/errors"
)

const (
	defaultFile = "Dockerfile"
	ignoreFile  = ".dockerignore"
)

// source is a file that an error or a warning may point at.
type source struct {
	name       string
	data       []byte
	definition *llb.Definition
	head       digest.Digest
}

func (s *source) info() *pb.SourceInfo {
	return &pb.SourceInfo{Filename: s.name, Data: s.data, Language: "Dockerfile", Definition: s.definition.ToPB()}
}

// readDockerfile reads the Dockerfile, and beside it the ignore file of its own, if there is one.
func (b *build) readDockerfile(ctx context.Context) error {
	name := b.options.filename
	wanted := []string{name, name + ignoreFile}
	lower := path.Join(path.Dir(name), strings.ToLower(defaultFile))
	if path.Base(name) == defaultFile {
		wanted = append(wanted, lower)
	}
	found, err := b.read(ctx, b.options.dockerfile, "load build definition from "+name, wanted...)
	if err != nil {
		return err
	}
	if b.file = found[name]; b.file == nil {
		b.file = found[lower]
	}
	if b.file == nil {
		return errors.Errorf("there is no file %s in the folder of the Dockerfile: the option filename names another", name)
	}
	b.ignore = found[name+ignoreFile]
	return nil
}

// readIgnoreFile reads the ignore file of the context, unless the Dockerfile has its own.
func (b *build) readIgnoreFile(ctx context.Context) error {
	if b.ignore != nil {
		return nil
	}
	found, err := b.read(ctx, "context", "load "+ignoreFile, ignoreFile)
	b.ignore = found[ignoreFile]
	return err
}

// read takes files of a folder of the client. One that isn't there isn't in the answer.
func (b *build) read(ctx context.Context, folder, title string, names ...string) (map[string]*source, error) {
	ref, definition, err := b.solved(ctx, b.local(folder, title, llb.FollowPaths(names), llb.Differ(llb.DiffNone, false)))
	if err != nil {
		return nil, errors.Wrapf(err, "the client's folder %s can't be read", folder)
	}
	head, err := definition.Head()
	if err != nil {
		return nil, err
	}
	found := map[string]*source{}
	if ref == nil {
		return found, nil
	}
	for _, name := range names {
		data, err := ref.ReadFile(ctx, client.ReadRequest{Filename: name})
		if err == nil {
			found[name] = &source{name, data, definition, head}
		} else if !isNotThere(err) {
			return nil, errors.Wrapf(err, "the file %s", name)
		}
	}
	return found, nil
}

// isNotThere says whether a file isn't there. Of an error nothing but its text comes through the connection.
func isNotThere(err error) bool {
	return strings.Contains(err.Error(), "no such file or directory")
}

// bundle is what dfsolve is given for one platform.
func (v *variant) bundle(names []entry) ([]byte, error) {
	context := make([]entry, 0, len(names)+1)
	for _, e := range names {
		if v.ignore == nil || e.Path != "/"+ignoreFile {
			context = append(context, e)
		}
	}
	if v.ignore != nil {
		// the ignore file stands at this path, whatever it is called and wherever it is from
		e := entry{Path: "/" + ignoreFile, Hex: hex.EncodeToString(v.ignore.data)}
		if e.Hex == "" {
			e.Text = new(string)
		}
		context = append(context, e)
	}
	made := map[string]interface{}{
		"args":       v.arguments(),
		"context":    context,
		"dockerfile": map[string]string{"hex": hex.EncodeToString(v.file.data)},
		"images":     v.images.found,
	}
	if v.options.target != "" {
		made["target"] = v.options.target
	}
	text, err := json.Marshal(made)
	return text, errors.Wrap(err, "the bundle")
}
