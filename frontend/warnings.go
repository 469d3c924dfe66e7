package main

import (
	"bytes"
	"context"
	"encoding/json"
	"regexp"
	"strings"

	"github.com/containerd/containerd/platforms"
	"github.com/moby/buildkit/frontend/dockerfile/command"
	"github.com/moby/buildkit/frontend/dockerfile/parser"
	"github.com/moby/buildkit/frontend/gateway/client"
	"github.com/moby/buildkit/solver/pb"
)

// What has another meaning here than in BuildKit's own front end, and isn't refused, is said as a warning of the build. Warnings of
// `dfsolve check` take the place of all of this file.

// warn tells the client of something at these lines of the Dockerfile. Engines of old know no warnings, and a build doesn't fail for one.
func (b *build) warn(ctx context.Context, text string, ranges []*pb.Range) {
	_ = b.c.Warn(ctx, b.file.head, text, client.WarnOpts{Level: 1, SourceInfo: b.file.info(), Range: ranges})
}

// warnOfFile tells of what the file itself shows. It is said once, and before anything is built, since a client shows only what comes in time.
func (b *build) warnOfFile(ctx context.Context) {
	name, _, lines, is := parser.DetectSyntax(b.file.data)
	if _, isCalledByLine := b.given.Opts["cmdline"]; is && !isCalledByLine {
		b.warn(ctx, "this line names another front end, "+name+"; dfsolve builds the file", rangesOf(lines))
	}
	for _, p := range b.options.platforms {
		if p.OS != "linux" {
			b.warn(ctx, "the shell and the PATH are those of linux, for "+platforms.Format(p)+" too", fault{Line: 1}.ranges())
		}
	}
	tree, err := parser.Parse(bytes.NewReader(b.file.data))
	if err != nil {
		return // dfsolve says what is wrong
	}
	for _, it := range tree.Warnings {
		opts := client.WarnOpts{Level: 1, SourceInfo: b.file.info(), Detail: it.Detail, URL: it.URL}
		if it.Location != nil {
			opts.Range = rangesOf([]parser.Range{*it.Location})
		}
		_ = b.c.Warn(ctx, b.file.head, it.Short, opts)
	}
	user := ""
	for _, node := range tree.AST.Children {
		if text := otherwise(node, &user); text != "" {
			b.warn(ctx, text, rangesOf(node.Location()))
		}
	}
}

var (
	// an escape character in a heredoc that is no `\$`, and not one that is escaped itself
	escape = regexp.MustCompile(`(^|[^\\])(\\\\)*\\([^$\\]|$)`)
	isRoot = regexp.MustCompile(`^(|root|0)(:.*)?$`)
)

// otherwise says what an instruction means to BuildKit's own front end and not here, or nothing. `user` is that of the stage so far.
func otherwise(node *parser.Node, user *string) string {
	name := strings.ToLower(node.Value)
	for _, it := range node.Heredocs {
		if name == command.Copy && it.Expand && escape.MatchString(it.Content) {
			return `a \ in a heredoc stays as it stands here, and BuildKit takes it away: quote the heredoc's name, or write \\`
		}
	}
	switch name {
	case command.From:
		*user = ""
	case command.User:
		if node.Next != nil {
			*user = node.Next.Value
		}
	case command.Workdir:
		if !isRoot.MatchString(*user) {
			return "the folder of a WORKDIR is root's here, and the user's in BuildKit: make it by a RUN, or COPY with --chown"
		}
	case command.Run:
		for _, flag := range node.Flags {
			if strings.HasPrefix(flag, "--mount=") && strings.Contains(flag, "$") {
				return "variables of a mount aren't replaced here: write their values"
			}
		}
	}
	return ""
}

// warnOfBase tells of what an image asks for and doesn't get.
func (v *variant) warnOfBase(ctx context.Context, name string, config []byte) {
	var made struct {
		Config struct {
			OnBuild, Shell []string
			Healthcheck    *struct{ Test []string }
		}
	}
	if json.Unmarshal(config, &made) != nil {
		return // dfsolve says what is wrong with it
	}
	for _, it := range []struct {
		key string
		is  bool
	}{
		{"OnBuild", len(made.Config.OnBuild) > 0},
		{"Shell", len(made.Config.Shell) > 0},
		{"Healthcheck", made.Config.Healthcheck != nil},
	} {
		if it.is {
			v.warn(ctx, "the image "+name+" has "+it.key+", which does nothing here: write it again in the Dockerfile", v.images.lines[name].ranges())
		}
	}
}
