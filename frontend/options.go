package main

import (
	"encoding/csv"
	"encoding/json"
	"net"
	"sort"
	"strconv"
	"strings"
	"time"
	"unicode/utf8"

	"github.com/containerd/containerd/platforms"
	"github.com/docker/go-units"
	controlapi "github.com/moby/buildkit/api/services/control"
	"github.com/moby/buildkit/frontend/gateway/client"
	"github.com/moby/buildkit/solver/pb"
	ocispecs "github.com/opencontainers/image-spec/specs-go/v1"
	"github.com/pkg/errors"
)

// options is what the client asked for.
type options struct {
	request    string // a request in place of a build
	dockerfile string // what the client calls the folder of the Dockerfile
	filename   string
	target     string
	args       map[string]string
	labels     map[string]string
	platforms  []ocispecs.Platform
	several    *bool // whether the result is by platforms; nil: if there are several
	resolve    string
	network    string // empty: what BuildKit chooses
	caches     []client.CacheOptionsEntry
	nothing    bool     // whether nothing is taken from the cache
	fresh      []string // stages of which nothing is taken from the cache
	epoch      *time.Time
	commands   commands
}

// commands is what is said of each command beside the Dockerfile.
type commands struct {
	hosts    []*pb.HostIP
	limits   []*pb.Ulimit
	memory   int64 // of /dev/shm; 0: what BuildKit chooses
	hostname string
	cgroup   string
	proxy    *pb.ProxyEnv
}

// Each option that docker 26.1.5, buildx 0.13.1 and buildctl 0.13.2 send of themselves is in one of these tables: that was read off their
// sources.

// taken are the options that this front end knows. Each reads its value.
var taken = map[string]func(*options, string) error{
	"requestid":          func(o *options, v string) error { o.request = v; return nil },
	"dockerfilekey":      func(o *options, v string) error { o.dockerfile = v; return nil },
	"filename":           func(o *options, v string) error { o.filename = v; return nil },
	"target":             func(o *options, v string) error { o.target = v; return nil },
	"platform":           (*options).takePlatforms,
	"multi-platform":     (*options).takeSeveral,
	"image-resolve-mode": (*options).takeResolve,
	"force-network-mode": (*options).takeNetwork,
	"cache-from":         (*options).takeCacheFrom,
	"cache-imports":      (*options).takeCacheImports,
	"no-cache":           (*options).takeNoCache,
	"add-hosts":          (*options).takeHosts,
	"ulimit":             (*options).takeLimits,
	"shm-size":           (*options).takeMemory,
	"hostname":           func(o *options, v string) error { o.commands.hostname = v; return nil },
	"cgroup-parent":      func(o *options, v string) error { o.commands.cgroup = v; return nil },
}

// passed are options that the engine or the client reads itself. A name that ends with a colon stands for all that begin with it, here and
// below.
var passed = map[string]string{
	"source":        "the image of this front end, which the engine runs",
	"cmdline":       "the words after `# syntax=`, by which the engine runs it",
	"frontend.caps": "what the image has to be capable of, which the engine holds against its labels",
	"attest:":       "attestations, which the engine makes of the result",
	"vcs:":          "where the folder is from, which the engine writes into provenance",
}

// refused are options that ask for what this front end hasn't got. An empty value asks for nothing.
var refused = map[string]string{
	"context":                           "a context from elsewhere isn't taken: give the build a folder",
	"contextsubdir":                     "a folder in a context from elsewhere isn't taken: give the build that folder",
	"contextkey":                        "the context is called `context`, and no other name is known",
	"context:":                          "named contexts aren't taken: name the image in the Dockerfile, or copy the folder into the context",
	"input-metadata:":                   "inputs aren't taken: give the build a folder",
	"local-sessionid:":                  "a folder of another session isn't taken: give the build a folder",
	"build-arg:BUILDKIT_CACHE_MOUNT_NS": "caches have no spaces of names: put the text into their `id`",
	"build-arg:BUILDKIT_CONTEXT_KEEP_GIT_DIR": "a context from git isn't taken: give the build a folder",
	"build-arg:BUILDKIT_DOCKERFILE_CHECK":     "its rules aren't known: run `dfsolve check`",
	"build-arg:BUILDKIT_DISABLE_FILEOP":       "operations of files are always used",
	"build-arg:BUILDKIT_SBOM_SCAN_CONTEXT":    "only the result is scanned",
	"build-arg:BUILDKIT_SBOM_SCAN_STAGE":      "only the result is scanned",
	"override-copy-image":                     "operations of files are always used",
}

// arguments are those build arguments that say the same as an option. They win, as with BuildKit's own front end.
var arguments = map[string]string{
	"build-arg:BUILDKIT_MULTI_PLATFORM":   "multi-platform",
	"build-arg:BUILDKIT_SANDBOX_HOSTNAME": "hostname",
}

// read finds out what the client asked for, and refuses what isn't known.
func read(given client.BuildOpts) (*options, error) {
	o := &options{dockerfile: "dockerfile", filename: defaultFile, args: map[string]string{}, labels: map[string]string{}}
	for _, name := range sorted(given.Opts) {
		if err := o.take(name, given.Opts[name], given.Opts["source"]); err != nil {
			return nil, errors.Wrapf(err, "the option %s", name)
		}
	}
	for _, name := range sorted(arguments) {
		if v := given.Opts[name]; v != "" {
			if err := taken[arguments[name]](o, v); err != nil {
				return nil, errors.Wrapf(err, "the option %s", name)
			}
		}
	}
	if len(o.platforms) == 0 {
		o.platforms = []ocispecs.Platform{own(given)}
	}
	if o.several != nil && !*o.several && len(o.platforms) > 1 {
		return nil, errors.New("the option multi-platform: what is built for several platforms is always given by platforms")
	}
	return o, o.takeArguments()
}

func (o *options) isByPlatforms() bool {
	return len(o.platforms) > 1 || (o.several != nil && *o.several)
}

func (o *options) take(name, value, source string) error {
	if !utf8.ValidString(value) {
		return errors.New("its value isn't UTF-8")
	}
	if why, is := withPrefix(refused, name); is && value != "" && !isOwn(name, value, source) {
		return errors.New(why)
	} else if is && !strings.HasPrefix(name, "build-arg:") {
		return nil
	}
	if known, is := taken[name]; is {
		return known(o, value)
	}
	if argument, is := strings.CutPrefix(name, "build-arg:"); is {
		o.args[argument] = value
		return nil
	}
	if label, is := strings.CutPrefix(name, "label:"); is {
		o.labels[label] = value
		return nil
	}
	if _, is := withPrefix(passed, name); is {
		return nil
	}
	return errors.New("isn't known here")
}

// isOwn says whether a named context is the image of this front end, or the name that the context has anyway.
func isOwn(name, value, source string) bool {
	return (source != "" && name == "context:"+source) || (name == "contextkey" && value == "context")
}

// withPrefix finds a name, or what it begins with, in a table.
func withPrefix(table map[string]string, name string) (string, bool) {
	if said, is := table[name]; is {
		return said, true
	}
	if before, _, is := strings.Cut(name, ":"); is {
		said, is := table[before+":"]
		return said, is
	}
	return "", false
}

// own is the platform of the engine.
func own(given client.BuildOpts) ocispecs.Platform {
	if w := given.Workers; len(w) > 0 && len(w[0].Platforms) > 0 {
		return platforms.Normalize(w[0].Platforms[0])
	}
	return platforms.Normalize(platforms.DefaultSpec())
}

func (o *options) takePlatforms(value string) error {
	for _, text := range split(value) {
		p, err := platforms.Parse(text)
		if err != nil {
			return err
		}
		o.platforms = append(o.platforms, platforms.Normalize(p))
	}
	return nil
}

func (o *options) takeSeveral(value string) error {
	if value == "" {
		return nil
	}
	several, err := strconv.ParseBool(value)
	o.several = &several
	return err
}

func (o *options) takeResolve(value string) error {
	switch value {
	case "", pb.AttrImageResolveModeDefault, pb.AttrImageResolveModeForcePull, pb.AttrImageResolveModePreferLocal:
		o.resolve = value
		return nil
	}
	return errors.Errorf("is default, pull or local, and not %q", value)
}

func (o *options) takeNetwork(value string) error {
	switch value {
	case "", "sandbox":
		return nil
	case "none", "host":
		o.network = value
		return nil
	}
	return errors.Errorf("is none, host or sandbox, and not %q", value)
}

func (o *options) takeCacheFrom(value string) error {
	for _, name := range split(value) {
		o.caches = append(o.caches, client.CacheOptionsEntry{Type: "registry", Attrs: map[string]string{"ref": name}})
	}
	return nil
}

func (o *options) takeCacheImports(value string) error {
	if value == "" {
		return nil
	}
	var rows []controlapi.CacheOptionsEntry
	if err := json.Unmarshal([]byte(value), &rows); err != nil {
		return err
	}
	for _, row := range rows {
		o.caches = append(o.caches, client.CacheOptionsEntry{Type: row.Type, Attrs: row.Attrs})
	}
	return nil
}

func (o *options) takeNoCache(value string) error {
	o.fresh = split(value)
	o.nothing = len(o.fresh) == 0
	return nil
}

func (o *options) takeHosts(value string) error {
	rows, err := fields(value)
	for _, row := range rows {
		name, address, is := strings.Cut(strings.ToLower(row), "=")
		ip := net.ParseIP(address)
		if !is || ip == nil {
			return errors.Errorf("has NAME=ADDRESS, and not %q", row)
		}
		o.commands.hosts = append(o.commands.hosts, &pb.HostIP{Host: name, IP: ip.String()})
	}
	return err
}

func (o *options) takeLimits(value string) error {
	rows, err := fields(value)
	for _, row := range rows {
		limit, err := units.ParseUlimit(row)
		if err != nil {
			return err
		}
		o.commands.limits = append(o.commands.limits, &pb.Ulimit{Name: limit.Name, Soft: limit.Soft, Hard: limit.Hard})
	}
	return err
}

func (o *options) takeMemory(value string) (err error) {
	if value == "" {
		return nil
	}
	if o.commands.memory, err = strconv.ParseInt(value, 10, 64); err == nil && o.commands.memory < 0 {
		err = errors.Errorf("is a number of bytes, and not %s", value)
	}
	return err
}

// takeArguments reads the build arguments that mean something beside the Dockerfile: the time of the image, and proxies, whose names know
// no case.
func (o *options) takeArguments() error {
	if v := o.args["SOURCE_DATE_EPOCH"]; v != "" {
		seconds, err := strconv.ParseInt(v, 10, 64)
		if err != nil {
			return errors.Wrap(err, "the option build-arg:SOURCE_DATE_EPOCH")
		}
		epoch := time.Unix(seconds, 0).UTC()
		o.epoch = &epoch
	}
	proxy := pb.ProxyEnv{}
	places := map[string]*string{"http_proxy": &proxy.HttpProxy, "https_proxy": &proxy.HttpsProxy, "ftp_proxy": &proxy.FtpProxy,
		"no_proxy": &proxy.NoProxy, "all_proxy": &proxy.AllProxy}
	for _, name := range sorted(o.args) {
		if place := places[strings.ToLower(name)]; place != nil {
			*place = o.args[name]
		}
	}
	if proxy != (pb.ProxyEnv{}) {
		o.commands.proxy = &proxy
	}
	return nil
}

// fields are the values of a row of CSV.
func fields(value string) ([]string, error) {
	if value == "" {
		return nil, nil
	}
	return csv.NewReader(strings.NewReader(value)).Read()
}

// split is the same of a list without quotes.
func split(value string) []string {
	if value == "" {
		return nil
	}
	return strings.Split(value, ",")
}

// sorted are the names of a table, so that what is done by it doesn't depend on the order in which a map is read.
func sorted(table map[string]string) []string {
	names := make([]string, 0, len(table))
	for name := range table {
		names = append(names, name)
	}
	sort.Strings(names)
	return names
}
