package main

import (
	"bytes"
	"context"
	"encoding/json"
	"strings"
	"sync"

	"github.com/containerd/containerd/platforms"
	"github.com/distribution/reference"
	"github.com/moby/buildkit/client/llb/sourceresolver"
	"github.com/pkg/errors"
	"golang.org/x/sync/errgroup"
)

// images are those that a Dockerfile names, for one platform.
type images struct {
	found map[string]image
	// lines are the places that name one, for errors
	lines map[string]fault
	// stubs are those that weren't asked for, as no stage that is needed names them. No definition names one either.
	stubs map[string]bool
}

// stub stands in a bundle for an image that isn't needed: nothing is fetched for it, and nothing fails for want of it.
func (v *variant) stub() image {
	config := map[string]interface{}{"architecture": v.platform.Architecture, "os": v.platform.OS,
		"rootfs": map[string]interface{}{"type": "layers", "diff_ids": []string{}}}
	text, err := json.Marshal(config)
	if err != nil {
		panic(err) // texts and lists of texts are always JSON
	}
	return image{Config: text, Tree: []entry{}}
}

// findImages finds which images are named, and asks for those that are needed.
func (v *variant) findImages(ctx context.Context) (*images, error) {
	v.images = &images{found: map[string]image{}, lines: map[string]fault{}, stubs: map[string]bool{}}
	if err := v.nameImages(ctx); err != nil {
		return nil, err
	}
	if err := v.resolveNeeded(ctx); err != nil {
		return nil, err
	}
	bundle, err := v.bundle(nil)
	if err != nil {
		return nil, err
	}
	faults, err := v.faults(ctx, bundle)
	if err == nil && len(faults) > 0 {
		err = v.refused(faults)
	}
	return v.images, err
}

// resolveNeeded asks for the images that are needed. With the configuration of one, more may be known to be.
func (v *variant) resolveNeeded(ctx context.Context) error {
	for len(v.images.stubs) > 0 {
		needed, err := v.needed(ctx)
		if err != nil || len(needed) == 0 {
			return err
		}
		if err := v.resolveAll(ctx, needed); err != nil {
			return err
		}
	}
	return nil
}

// needed are the images without a configuration that the graph of a build has. If there is no graph without their configurations, it is all
// of them.
func (v *variant) needed(ctx context.Context) ([]string, error) {
	bundle, err := v.bundle(nil)
	if err != nil {
		return nil, err
	}
	out, status, err := called(ctx, bundle, "graph")
	if err != nil {
		return nil, err
	}
	var graph struct{ Ops []struct{ Source string } }
	if status == answered {
		if err := json.Unmarshal(out, &graph); err != nil {
			return nil, errors.Wrap(err, "what dfsolve graph prints")
		}
	}
	var names []string
	for _, op := range graph.Ops {
		if name, is := strings.CutPrefix(op.Source, "image:"); is && v.images.stubs[name] {
			names = append(names, name)
		}
	}
	if status != answered {
		for name := range v.images.stubs {
			names = append(names, name)
		}
	}
	return names, nil
}

// resolveAll asks for the configurations of images, all at once.
func (v *variant) resolveAll(ctx context.Context, names []string) error {
	var lock sync.Mutex
	group, ctx := errgroup.WithContext(ctx)
	for _, name := range names {
		group.Go(func() error {
			found, err := v.resolve(ctx, name)
			if err != nil {
				return v.placed(err, v.images.lines[name])
			}
			lock.Lock()
			defer lock.Unlock()
			v.images.found[name] = found
			delete(v.images.stubs, name)
			return nil
		})
	}
	return group.Wait()
}

// resolve asks for one image. Its digest goes into the bundle, so that its tag can't move before the build is made.
func (v *variant) resolve(ctx context.Context, name string) (image, error) {
	whole, err := reference.ParseNormalizedNamed(name)
	if err != nil {
		return image{}, errors.Wrapf(err, "%q is no name of an image", name)
	}
	_, digest, config, err := v.c.ResolveImageConfig(ctx, reference.TagNameOnly(whole).String(), sourceresolver.Opt{
		Platform: &v.platform,
		LogName:  "[internal] load metadata for " + name + " for " + platforms.Format(v.platform),
		ImageOpt: &sourceresolver.ResolveImageOpt{ResolveMode: v.options.resolve},
	})
	if err != nil {
		return image{}, errors.Wrapf(err, "the image %s", name)
	}
	config, err = listed(config)
	if err != nil {
		return image{}, errors.Wrapf(err, "the configuration of the image %s", name)
	}
	v.warnOfBase(ctx, name, config)
	return image{Config: config, Digest: digest.String(), Tree: []entry{}}, nil
}

// listed is a configuration whose list of layers is one: of an image without layers BuildKit itself writes null.
func listed(config []byte) ([]byte, error) {
	made := map[string]json.RawMessage{}
	if err := json.Unmarshal(config, &made); err != nil {
		return nil, errors.Wrap(err, "it is no JSON object")
	}
	layers := map[string]json.RawMessage{}
	if err := json.Unmarshal(made["rootfs"], &layers); err != nil {
		return config, nil // dfsolve says what is wrong with it
	}
	if !bytes.Equal(layers["diff_ids"], []byte("null")) {
		return config, nil
	}
	layers["diff_ids"] = json.RawMessage("[]")
	var err error
	if made["rootfs"], err = json.Marshal(layers); err != nil {
		return nil, err
	}
	return json.Marshal(made)
}
