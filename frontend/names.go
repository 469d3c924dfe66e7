package main

import (
	"context"
	"encoding/json"
	"os"
	"path"
	"path/filepath"
	"regexp"
	"sort"
	"strings"
	"sync"
	"unicode/utf8"

	"github.com/moby/buildkit/client/llb"
	"github.com/moby/buildkit/frontend/gateway/client"
	"github.com/moby/buildkit/solver/pb"
	"github.com/pkg/errors"
	"golang.org/x/sync/errgroup"
)

const (
	// the word by which this program, as a command of a build, writes names into a file
	listing = "names"
	// how much is read at once of what a command wrote: a message to a front end has 4 MiB at most
	piece = 2 << 20
	// how many folders are read at once where there is no such command
	width = 16
	// how many paths dfsolve is asked about by one command line
	asked = 1000

	isNeither = "the context has %q, which is neither a file nor a folder: take it away, or have the ignore file leave it out"
)

// follows is what a definition names of the context.
type follows struct {
	isUsed bool
	paths  []string // none: all of it
}

// findFollows asks what a definition of a bundle without files names of the context.
func (v *variant) findFollows(ctx context.Context) (*follows, error) {
	bundle, err := v.bundle(nil)
	if err != nil {
		return nil, err
	}
	written, err := v.written(ctx, bundle, "llb", "--unique", v.unique, "--follow")
	if err != nil {
		return nil, err
	}
	var definition pb.Definition
	if err := definition.Unmarshal(written); err != nil {
		return nil, errors.Wrap(err, "BuildKit can't read what dfsolve wrote")
	}
	found := &follows{}
	return found, each(&definition, func(op *pb.Op) error {
		source := op.GetSource()
		if source.GetIdentifier() != "local://context" {
			return nil
		}
		found.isUsed = true
		if text := source.Attrs[pb.AttrFollowPaths]; text != "" {
			return errors.Wrap(json.Unmarshal([]byte(text), &found.paths), "what the definition names of the context")
		}
		return nil
	})
}

// each calls a function for each operation of a definition, in their order.
func each(definition *pb.Definition, do func(*pb.Op) error) error {
	for _, bytes := range definition.Def {
		var op pb.Op
		if err := op.Unmarshal(bytes); err != nil {
			return errors.Wrap(err, "an operation of the definition")
		}
		if err := do(&op); err != nil {
			return err
		}
	}
	return nil
}

// names lists what the variants name of the context. It is one list for all of them, so that the folder is read once.
func (b *build) names(ctx context.Context, variants []*variant) ([]entry, error) {
	isUsed, isWhole, paths := false, false, []string{}
	for _, v := range variants {
		isUsed = isUsed || v.follows.isUsed
		isWhole = isWhole || (v.follows.isUsed && len(v.follows.paths) == 0)
		paths = append(paths, v.follows.paths...)
	}
	if !isUsed {
		return nil, nil
	}
	more := []llb.LocalOption{llb.ExcludePatterns(below(b.ignore))}
	if !isWhole {
		more = append(more, llb.FollowPaths(paths))
	}
	context := b.local("context", "list build context", more...)
	names, isTold, err := b.told(ctx, context)
	if err == nil && !isTold {
		names, err = b.walked(ctx, context)
	}
	if err != nil {
		return nil, err
	}
	sort.Slice(names, func(i, j int) bool { return names[i].Path < names[j].Path })
	return b.withoutLinks(ctx, variants[0], names)
}

// plain are the lines of an ignore file that mean one thing by any rules.
var plain = regexp.MustCompile(`^/?(\*\*/)?[A-Za-z0-9_@+.-]+(/[A-Za-z0-9_@+.-]+)*/?$`)

// below are patterns for what lies in folders that the ignore file leaves out. dfsolve leaves out a folder whole, so their names are
// enough, and what lies in them need not travel. The patterns only save work: names that are listed in excess do no harm.
func below(ignore *source) []string {
	list := []string{}
	if ignore == nil || strings.Contains(string(ignore.data), "!") {
		return list // something may be kept in a folder
	}
	for _, line := range strings.Split(string(ignore.data), "\n") {
		if line = strings.TrimSuffix(line, "\r"); plain.MatchString(line) && path.Clean("/"+line) == "/"+strings.Trim(line, "/") {
			list = append(list, strings.Trim(line, "/")+"/*")
		}
	}
	return list
}

// told lists by a command, of this program's own image. What it writes is read in pieces, so it may be larger than a message. BuildKit 0.8
// gives no image.
func (b *build) told(ctx context.Context, context llb.State) ([]entry, bool, error) {
	c, is := b.c.(interface{ CurrentFrontend() (*llb.State, error) })
	if !is {
		return nil, false, nil
	}
	own, err := c.CurrentFrontend()
	if err != nil || own == nil {
		return nil, false, err
	}
	run := own.Run(llb.Args([]string{"/frontend", listing, "/context", "/out/names"}), llb.AddMount("/context", context, llb.Readonly),
		llb.Network(llb.NetModeNone), llb.ReadonlyRootFS(), llb.WithCustomName("[internal] names of the build context"))
	ref, _, err := b.solved(ctx, run.AddMount("/out", llb.Scratch()))
	if err != nil {
		return nil, false, errors.Wrap(err, "the names of the context can't be listed")
	}
	text, err := whole(ctx, ref, "names")
	if err != nil {
		return nil, false, err
	}
	var names []entry
	err = json.Unmarshal(text, &names)
	return names, true, errors.Wrap(err, "the names of the context")
}

// whole reads a file in pieces.
func whole(ctx context.Context, ref client.Reference, name string) ([]byte, error) {
	var text []byte
	for {
		part, err := ref.ReadFile(ctx, client.ReadRequest{Filename: name, Range: &client.FileRange{Offset: len(text), Length: piece}})
		if err != nil {
			return nil, errors.Wrapf(err, "the file %s", name)
		}
		if text = append(text, part...); len(part) < piece {
			return text, nil
		}
	}
}

// writeNames writes the names in a folder into a file, as entries of a bundle.
func writeNames(folder, file string) error {
	names := []entry{}
	err := filepath.WalkDir(folder, func(full string, d os.DirEntry, err error) error {
		if err != nil || full == folder {
			return err
		}
		if !utf8.ValidString(full) {
			return errors.Errorf("the context has %q, whose name isn't UTF-8", strings.TrimPrefix(full, folder))
		}
		names = append(names, named(strings.TrimPrefix(full, folder), d.Type()))
		return nil
	})
	if err != nil {
		return err
	}
	text, err := json.Marshal(names)
	if err != nil {
		return err
	}
	return os.WriteFile(file, text, 0o644)
}

// named is what a bundle has of something in a folder. What is neither a file nor a folder is marked.
func named(path string, kind os.FileMode) entry {
	if kind.IsDir() {
		return entry{Path: path, Dir: true}
	}
	return entry{Path: path, Text: new(string), Link: !kind.IsRegular()}
}

// walked lists by a call for each folder, some at once.
func (b *build) walked(ctx context.Context, context llb.State) ([]entry, error) {
	ref, _, err := b.solved(ctx, context)
	if err != nil || ref == nil {
		return nil, err
	}
	names, lock, slots := []entry{}, sync.Mutex{}, make(chan struct{}, width)
	group, ctx := errgroup.WithContext(ctx)
	var walk func(string) error
	walk = func(folder string) error {
		slots <- struct{}{}
		rows, err := ref.ReadDir(ctx, client.ReadDirRequest{Path: folder})
		<-slots
		if err != nil {
			return errors.Wrapf(err, "the folder %s of the context", folder)
		}
		lock.Lock()
		defer lock.Unlock()
		for _, row := range rows {
			e := named(path.Join(folder, path.Base(row.Path)), os.FileMode(row.Mode))
			names = append(names, e)
			if e.Dir {
				group.Go(func() error { return walk(e.Path) })
			}
		}
		return nil
	}
	group.Go(func() error { return walk("/") })
	return names, group.Wait()
}

// withoutLinks refuses what is neither a file nor a folder, unless the ignore file leaves it out: then its name is enough, so that BuildKit
// leaves it out too.
func (b *build) withoutLinks(ctx context.Context, v *variant, names []entry) ([]entry, error) {
	var links []string
	for n := range names {
		if names[n].Link {
			links, names[n].Link = append(links, names[n].Path), false
		}
	}
	if len(links) == 0 {
		return names, nil
	}
	bundle, err := v.bundle(nil)
	if err != nil {
		return nil, err
	}
	for begin := 0; begin < len(links); begin += asked {
		part := links[begin:min(begin+asked, len(links))]
		out, err := b.written(ctx, bundle, append([]string{"why", "--"}, part...)...)
		if err != nil {
			return nil, err
		}
		lines := strings.Split(string(out), "\n")
		for n, link := range part {
			// (a line's end in a name makes more lines than names)
			if len(lines) != len(part)+1 || !strings.HasPrefix(lines[n], "left out\t") {
				return nil, errors.Errorf(isNeither, link)
			}
		}
	}
	return names, nil
}
