package main

import (
	"bytes"
	"context"
	"encoding/json"
	"regexp"
	"sort"
	"strconv"
	"strings"

	"github.com/containerd/containerd/platforms"
	"github.com/moby/buildkit/solver/pb"
	"github.com/moby/buildkit/util/apicaps"
	"github.com/moby/buildkit/util/system"
	digest "github.com/opencontainers/go-digest"
	ocispecs "github.com/opencontainers/image-spec/specs-go/v1"
	"github.com/pkg/errors"
)

// Here is what dfsolve will say by commands and options that it hasn't got yet. Each part has a line that says which one takes its place.

// ---- which images are named: `dfsolve images` takes the place of this part ----

// nameImages puts a stub into the bundle for each image that a stage names. dfsolve shows one missing image of a line at a time, so it is
// asked again.
func (v *variant) nameImages(ctx context.Context) error {
	for {
		bundle, err := v.bundle(nil)
		if err != nil {
			return err
		}
		faults, err := v.faults(ctx, bundle)
		if err != nil {
			return err
		}
		missing, others := []fault{}, []fault{}
		for _, f := range faults {
			if f.Code == "R12" {
				missing = append(missing, f)
			} else {
				others = append(others, f)
			}
		}
		if len(missing) == 0 {
			// what is wrong may be so only because of stubs: it is looked at again when all images are known
			return nil
		}
		if len(others) > 0 {
			return v.refused(others)
		}
		if isNew, err := v.addStubs(missing); err != nil || !isNew {
			if err == nil {
				err = v.refused(missing)
			}
			return err
		}
	}
}

func (v *variant) addStubs(missing []fault) (isNew bool, err error) {
	file, err := v.reading()
	if err != nil {
		return false, nil // what BuildKit's parser doesn't take, this front end can't name the images of
	}
	for _, f := range missing {
		names, err := file.imagesAt(f.Line)
		if err != nil {
			return false, v.placed(err, f)
		}
		for _, name := range names {
			if _, is := v.images.found[name]; !is {
				v.images.found[name], v.images.lines[name], v.images.stubs[name], isNew = v.stub(), f, true, true
			}
		}
	}
	return isNew, nil
}

// ---- arguments of the platform: `--platform` of each command takes the place of this part ----

// arguments are the build arguments. Those that the client gives win.
func (v *variant) arguments() map[string]string {
	found := map[string]string{}
	for name, p := range map[string]ocispecs.Platform{"TARGET": v.platform, "BUILD": own(v.given)} {
		found[name+"PLATFORM"], found[name+"OS"], found[name+"ARCH"], found[name+"VARIANT"] = platforms.Format(p), p.OS, p.Architecture, p.Variant
	}
	for name, value := range v.options.args {
		found[name] = value
	}
	return found
}

// ---- BuildKit's words for the same fault: a key of `check --json` takes the place of this part ----

// words are BuildKit's for some faults, by the code, the word and the message that dfsolve has for them.
var words = []struct {
	said   *regexp.Regexp
	theirs string
}{
	{regexp.MustCompile(`^R04 (\S+) there is no such instruction here`), "unknown instruction: $1"},
	{regexp.MustCompile(`^R07 \S+ \w+ has no flag --(\S+); did you mean --(\S+)\?$`), "unknown flag: $1, did you mean $2?"},
	{regexp.MustCompile(`^R07 \S+ \w+ has no flag --(\S+)$`), "unknown flag: $1"},
	{regexp.MustCompile(`^R17 \S+ a mount has no key (\S+) here`), "unexpected key '$1'"},
	{regexp.MustCompile(`^R17 \S+ there are no mounts of type (\S+)$`), `unsupported mount type "$1"`},
	{regexp.MustCompile(`^R17 from=\S*\$`), "'from' doesn't support variable expansion, define alias stage instead"},
}

// theirs are BuildKit's words for a fault, for whoever looks for them.
func theirs(f fault) string {
	whole := f.Code + " " + f.Word + " " + f.Message
	for _, it := range words {
		if at := it.said.FindStringSubmatchIndex(whole); at != nil {
			return "; " + string(it.said.ExpandString(nil, it.theirs, whole, at))
		}
	}
	return ""
}

// ---- what options say of operations: options of `dfsolve llb` take the place of this part ----

// complete puts into a definition what it hasn't got: what options say of commands, and where in the Dockerfile an operation stands.
func (v *variant) complete(ctx context.Context, definition *pb.Definition) error {
	if err := v.complement(definition); err != nil {
		return err
	}
	return v.place(ctx, definition)
}

// complement writes each command anew, and so each operation that stands on it, under its new digest.
func (v *variant) complement(definition *pb.Definition) error {
	renamed := map[digest.Digest]digest.Digest{}
	for n, before := range definition.Def {
		var op pb.Op
		if err := op.Unmarshal(before); err != nil {
			return errors.Wrap(err, "an operation of the definition")
		}
		from := digest.FromBytes(before)
		for _, input := range op.Inputs {
			if to, is := renamed[input.Digest]; is {
				input.Digest = to
			}
		}
		if exec := op.GetExec(); exec != nil {
			if err := v.complementCommand(exec, capsOf(definition, from)); err != nil {
				return err
			}
		}
		after, err := op.Marshal()
		if err != nil {
			return errors.Wrap(err, "an operation of the definition")
		}
		definition.Def[n] = after
		if to := digest.FromBytes(after); to != from {
			renamed[from] = to
			definition.Metadata[to] = definition.Metadata[from]
			delete(definition.Metadata, from)
		}
	}
	return nil
}

// capsOf is what an engine has to be capable of to run an operation. It may be added to.
func capsOf(definition *pb.Definition, at digest.Digest) map[apicaps.CapID]bool {
	meta := definition.Metadata[at]
	if meta.Caps == nil {
		meta.Caps = map[apicaps.CapID]bool{}
		definition.Metadata[at] = meta
	}
	return meta.Caps
}

// complementCommand says in a command what options say of it, if the engine knows that.
func (v *variant) complementCommand(exec *pb.ExecOp, caps map[apicaps.CapID]bool) error {
	asked := v.options.commands
	add := func(is bool, cap apicaps.CapID, say func()) error {
		if !is {
			return nil
		}
		if err := v.given.LLBCaps.Supports(cap); err != nil {
			return errors.Wrap(err, "an option isn't known to this engine")
		}
		caps[cap] = true
		say()
		return nil
	}
	if v.given.LLBCaps.Supports(pb.CapExecMetaRemoveMountStubsRecursive) == nil {
		caps[pb.CapExecMetaRemoveMountStubsRecursive] = true
		exec.Meta.RemoveMountStubsRecursive = true
	}
	exec.Meta.Hostname = asked.hostname
	exec.Meta.ExtraHosts = append(exec.Meta.ExtraHosts, asked.hosts...)
	for _, err := range []error{
		add(asked.cgroup != "", pb.CapExecMetaCgroupParent, func() { exec.Meta.CgroupParent = asked.cgroup }),
		add(len(asked.limits) > 0, pb.CapExecMetaUlimit, func() { exec.Meta.Ulimit = asked.limits }),
		add(asked.proxy != nil, pb.CapExecMetaProxy, func() { exec.Meta.ProxyEnv = asked.proxy }),
		add(asked.memory > 0, pb.CapExecMountTmpfsSize, func() {
			caps[pb.CapExecMountTmpfs] = true
			exec.Mounts = append(exec.Mounts, &pb.Mount{Input: pb.Empty, Output: pb.SkipOutput, Dest: "/dev/shm", MountType: pb.MountType_TMPFS,
				TmpfsOpt: &pb.TmpfsOpt{Size_: asked.memory}})
			// what lies below another target is mounted after it
			sort.SliceStable(exec.Mounts, func(i, j int) bool { return exec.Mounts[i].Dest < exec.Mounts[j].Dest })
		}),
	} {
		if err != nil {
			return err
		}
	}
	return nil
}

// ---- where an operation stands: `Source` of what `dfsolve llb` writes, and its option `--no-cache`, take the place of this part ----

// title is what progress calls an operation that an instruction makes: its stage, if there are several, and the number of its step.
var title = regexp.MustCompile(`^\[(?:(\S+) )? *(\d+)/(\d+)\] `)

// place says of each operation that has a title where its instruction stands, so that BuildKit shows these lines if it fails, and whether
// it is made anew.
func (v *variant) place(ctx context.Context, definition *pb.Definition) error {
	file, err := v.reading()
	if err != nil {
		if v.options.nothing || len(v.options.fresh) > 0 {
			return errors.Wrap(err, "the option no-cache needs a Dockerfile that BuildKit's own parser takes")
		}
		return nil // no line is shown
	}
	for _, name := range v.options.fresh {
		if file.named(name) == nil {
			v.warn(ctx, "the option no-cache names the stage "+name+", which the Dockerfile hasn't got", fault{Line: 1}.ranges())
		}
	}
	definition.Source = &pb.Source{Locations: map[string]*pb.Locations{}, Infos: []*pb.SourceInfo{v.file.info()}}
	for _, operation := range definition.Def {
		at := digest.FromBytes(operation)
		meta := definition.Metadata[at]
		parts := title.FindStringSubmatch(meta.Description["llb.customname"])
		if parts == nil {
			continue
		}
		step, _ := strconv.Atoi(parts[2])
		count, _ := strconv.Atoi(parts[3])
		s, node := file.at(parts[1], step, count)
		if node != nil {
			definition.Source.Locations[at.String()] = &pb.Locations{Locations: []*pb.Location{{Ranges: rangesOf(node.Location())}}}
		}
		if v.options.nothing || (s != nil && v.isFresh(s.named)) {
			capsOf(definition, at)[pb.CapMetaIgnoreCache] = true
			meta = definition.Metadata[at]
			meta.IgnoreCache = true
			definition.Metadata[at] = meta
		}
	}
	return nil
}

func (v *variant) isFresh(stage string) bool {
	for _, name := range v.options.fresh {
		if strings.EqualFold(name, stage) {
			return true
		}
	}
	return false
}

// ---- what an image has for the engine: `dfsolve config --for-engine --platform P --label N=V` takes the place of this part ----

// configuration puts in the platform, labels and the time, and what BuildKit's own front end gives an image without a PATH, and `scratch`
// without a directory.
func (v *variant) configuration(ctx context.Context, written []byte) ([]byte, error) {
	made, inner, labels := map[string]interface{}{}, map[string]interface{}{}, map[string]interface{}{}
	if err := json.Unmarshal(written, &made); err != nil {
		return nil, errors.Wrap(err, "what dfsolve config prints")
	}
	if it, is := made["config"].(map[string]interface{}); is {
		inner = it
	}
	if it, is := inner["Labels"].(map[string]interface{}); is {
		labels = it
	}
	made["architecture"], made["os"] = v.platform.Architecture, v.platform.OS
	if v.platform.Variant != "" {
		made["variant"] = v.platform.Variant
	}
	if v.options.epoch != nil {
		made["created"] = *v.options.epoch
	}
	for name, value := range v.options.labels {
		labels[name] = value
	}
	if len(labels) > 0 {
		inner["Labels"] = labels
	}
	if it, _ := inner["WorkingDir"].(string); it == "" {
		isFromScratch, err := v.isFromScratch(ctx)
		if err != nil {
			return nil, err
		}
		if isFromScratch {
			inner["WorkingDir"] = "/"
		}
	}
	env, _ := inner["Env"].([]interface{})
	inner["Env"] = withPath(env)
	made["config"] = inner
	// (without a history the exporter drops that of the base)
	if file, err := v.reading(); err == nil {
		made["history"] = file.history(v.options.target, v.options.epoch, v.images)
	}
	return json.Marshal(made)
}

// isFromScratch finds out whether no image is below the target: each gets a label that no other build has, and the target then has it or
// hasn't.
func (v *variant) isFromScratch(ctx context.Context) (bool, error) {
	marked := *v
	marked.images = &images{found: map[string]image{}}
	for name, it := range v.images.found {
		config, err := labelled(it.Config, v.unique)
		if err != nil {
			return false, err
		}
		marked.images.found[name] = image{Config: config, Tree: it.Tree}
	}
	bundle, err := marked.bundle(nil)
	if err != nil {
		return false, err
	}
	written, err := v.written(ctx, bundle, "config")
	return !bytes.Contains(written, []byte(v.unique)), err
}

// labelled is a configuration with a label more. It has been read by dfsolve, so its fields are what they have to be.
func labelled(config []byte, label string) ([]byte, error) {
	made := map[string]interface{}{}
	if err := json.Unmarshal(config, &made); err != nil {
		return nil, err
	}
	inner, _ := made["config"].(map[string]interface{})
	if inner == nil {
		inner = map[string]interface{}{}
	}
	labels, _ := inner["Labels"].(map[string]interface{})
	if labels == nil {
		labels = map[string]interface{}{}
	}
	labels[label], inner["Labels"], made["config"] = "", labels, inner
	return json.Marshal(made)
}

func withPath(env []interface{}) []interface{} {
	for _, it := range env {
		if text, _ := it.(string); strings.HasPrefix(text, "PATH=") {
			return env
		}
	}
	return append([]interface{}{"PATH=" + system.DefaultPathEnvUnix}, env...)
}
