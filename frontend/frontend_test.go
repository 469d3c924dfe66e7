package main

import (
	"reflect"
	"strings"
	"testing"

	"github.com/moby/buildkit/frontend/gateway/client"
)

func readOf(rows ...string) (*options, error) {
	opts := map[string]string{}
	for _, row := range rows {
		name, value, _ := strings.Cut(row, "=")
		opts[name] = value
	}
	return read(client.BuildOpts{Opts: opts})
}

func TestOptionsThatAreRefused(t *testing.T) {
	for row, due := range map[string]string{
		"context=https://x/y.git":             "isn't taken",
		"context:base=docker-image://busybox": "named contexts aren't taken",
		"contextsubdir=a":                     "isn't taken",
		"contextkey=other":                    "no other name is known",
		"input-metadata:x={}":                 "inputs aren't taken",
		"build-arg:BUILDKIT_CACHE_MOUNT_NS=n": "put the text into their `id`",
		"nonsense=":                           "isn't known here",
		"add-hosts=a":                         "NAME=ADDRESS",
		"ulimit=nofile":                       "invalid ulimit",
		"shm-size=-1":                         "number of bytes",
		"force-network-mode=bridge":           "none, host or sandbox",
		"image-resolve-mode=never":            "default, pull or local",
		"platform=a/b/c/d":                    "cannot parse",
		"multi-platform=maybe":                "invalid syntax",
		"cache-imports=[":                     "unexpected end",
		"target=\xff":                         "UTF-8",
		"build-arg:SOURCE_DATE_EPOCH=now":     "SOURCE_DATE_EPOCH",
	} {
		_, err := readOf(row)
		name, _, _ := strings.Cut(row, "=")
		if err == nil || !strings.Contains(err.Error(), due) || !strings.Contains(err.Error(), name) {
			t.Errorf("%q: %v", row, err)
		}
	}
}

func TestOptionsThatAreTaken(t *testing.T) {
	o, err := readOf("source=r/dfsolve:1", "cmdline=r/dfsolve:1", "context=", "context:dfsolve=", "contextkey=context", "frontend.caps=x",
		"vcs:source=s",
		"attest:provenance=mode=min", "build-arg:A=1=2", "build-arg:BUILDKIT_X=y", "label:l=m", "platform=linux/amd64,linux/arm64", "no-cache=a,b",
		"add-hosts=H=1.2.3.4", "ulimit=nofile=1:2", "cache-from=x,y", "build-arg:http_proxy=p",
		"build-arg:BUILDKIT_SANDBOX_HOSTNAME=h", "hostname=other")
	if err != nil {
		t.Fatal(err)
	}
	args := map[string]string{"A": "1=2", "BUILDKIT_X": "y", "http_proxy": "p", "BUILDKIT_SANDBOX_HOSTNAME": "h"}
	if !reflect.DeepEqual(o.args, args) || o.labels["l"] != "m" || len(o.platforms) != 2 || !o.isByPlatforms() || o.nothing || len(o.fresh) != 2 {
		t.Errorf("%+v", o)
	}
	c := o.commands
	if c.hosts[0].Host != "h" || c.limits[0].Hard != 2 || c.proxy.HttpProxy != "p" || c.hostname != "h" || len(o.caches) != 2 {
		t.Errorf("%+v", c)
	}
	if o, err = readOf("no-cache=", "multi-platform=1"); err != nil || !o.nothing || !o.isByPlatforms() {
		t.Errorf("%+v, %v", o, err)
	}
}

func TestWhatNeedNotTravel(t *testing.T) {
	for text, due := range map[string][]string{
		"node_modules\n/dist/\n**/.git\n*.log\n# x\na/../b\n  c\n": {"node_modules/*", "dist/*", "**/.git/*"},
		"node_modules\n!node_modules/kept\n":                       {},
		"":                                                         {},
	} {
		if found := below(&source{data: []byte(text)}); !reflect.DeepEqual(found, due) {
			t.Errorf("%q: %q", text, found)
		}
	}
}

func TestBuildKitsWords(t *testing.T) {
	for due, f := range map[string]fault{
		"; unknown instruction: FNORD":              {Code: "R04", Word: "FNORD", Message: "there is no such instruction here; did you mean FROM?"},
		"; unknown flag: mont, did you mean mount?": {Code: "R07", Word: "--mont=x", Message: "RUN has no flag --mont; did you mean --mount?"},
		"; unknown flag: foo":                       {Code: "R07", Word: "--foo", Message: "COPY has no flag --foo"},
		"; unexpected key 'typ'":                    {Code: "R17", Word: "typ=x", Message: "a mount has no key typ here; did you mean type?"},
		"":                                          {Code: "R04", Word: "ADD", Message: "ADD is left out here on purpose"},
		"; unsupported mount type \"tmp\"":          {Code: "R17", Word: "type=tmp", Message: "there are no mounts of type tmp"},
	} {
		if found := theirs(f); found != due {
			t.Errorf("%q and not %q", found, due)
		}
	}
}

func TestEscapesInHeredocs(t *testing.T) {
	for text, due := range map[string]bool{`a\tb`: true, `a\$b`: false, `a\\b`: false, `\`: true, `a\\\n`: true, `\\\$`: false, `x`: false} {
		if escape.MatchString(text) != due {
			t.Errorf("%q", text)
		}
	}
}
