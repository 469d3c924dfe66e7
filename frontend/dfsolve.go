package main

import (
	"bytes"
	"context"
	"encoding/json"
	"fmt"
	"os/exec"
	"strings"

	"github.com/moby/buildkit/solver/errdefs"
	"github.com/moby/buildkit/solver/pb"
	"github.com/pkg/errors"
)

// where dfsolve is in the image
const program = "/dfsolve"

// What dfsolve ends with. It says of each command which of the last two mean what (Command line, Statuses).
const (
	answered = 0
	faulty   = 1
	refusing = 2
)

// entry is a file or a folder of a bundle's context. Of a file only the name counts, but for the ignore file.
type entry struct {
	Path string  `json:"path"`
	Dir  bool    `json:"dir,omitempty"`
	Text *string `json:"text,omitempty"`
	Hex  string  `json:"hex,omitempty"`
	// Link is what only this program reads: whether there is neither a file nor a folder
	Link bool `json:"link,omitempty"`
}

// image is an image of a bundle. The definition names it, and BuildKit has its tree.
type image struct {
	Config json.RawMessage `json:"config"`
	Digest string          `json:"digest,omitempty"`
	Tree   []entry         `json:"tree"`
}

// fault is a line of `dfsolve check --json`.
type fault struct {
	Code, File, Message, Remedy, Text, Word, Place string
	Line, Column                                   int
}

// called is what dfsolve prints for a bundle, and its status. A status that the command hasn't got is an error.
func called(ctx context.Context, bundle []byte, words ...string) ([]byte, int, error) {
	run := exec.CommandContext(ctx, program, words...)
	var out, said bytes.Buffer
	// standard output and error of this process are BuildKit's
	run.Stdin, run.Stdout, run.Stderr = bytes.NewReader(bundle), &out, &said
	err := run.Run()
	if err == nil {
		return out.Bytes(), answered, nil
	}
	if ctx.Err() != nil {
		return nil, 0, ctx.Err()
	}
	status := run.ProcessState.ExitCode()
	if (status == faulty || status == refusing) && said.Len() == 0 {
		return out.Bytes(), status, nil
	}
	return nil, status, errors.Errorf("dfsolve %s: %s (%s)", words[0], strings.TrimSpace(said.String()), err)
}

// written is what dfsolve prints for a bundle that it doesn't refuse. If it does, the faults say why.
func (b *build) written(ctx context.Context, bundle []byte, words ...string) ([]byte, error) {
	out, status, err := called(ctx, bundle, words...)
	if err != nil || status == answered {
		return out, err
	}
	faults, err := b.faults(ctx, bundle)
	if err != nil {
		return nil, err
	}
	if len(faults) == 0 {
		return nil, errors.Errorf("dfsolve %s refuses what dfsolve check finds no fault in: %s", words[0], out)
	}
	return nil, b.refused(faults)
}

// faults is what `dfsolve check` finds in a bundle.
func (b *build) faults(ctx context.Context, bundle []byte) ([]fault, error) {
	out, _, err := called(ctx, bundle, "check", "--json")
	if err != nil {
		return nil, err
	}
	var faults []fault
	lines := json.NewDecoder(bytes.NewReader(out))
	for lines.More() {
		var f fault
		if err := lines.Decode(&f); err != nil {
			return nil, errors.Wrap(err, "what dfsolve check says")
		}
		faults = append(faults, f)
	}
	return faults, nil
}

// refused is an error of these faults. A client shows their lines in the order in which they are put around it.
func (b *build) refused(faults []fault) error {
	said := make([]string, 0, len(faults))
	for _, f := range faults {
		said = append(said, b.sentence(f))
	}
	err := errors.New(strings.Join(said, "\n"))
	for _, f := range faults {
		err = b.at(err, f)
	}
	return err
}

// sentence is one fault for a person. The place comes first, since some clients show no lines.
func (b *build) sentence(f fault) string {
	source := b.sourceOf(f)
	if source == nil {
		// what helps whoever writes bundles helps nobody here
		return fmt.Sprintf("%s: dfsolve doesn't take what this front end gives it: %s", f.Code, f.Place)
	}
	place := source.name
	if f.Line > 0 {
		place = fmt.Sprintf("%s:%d", place, f.Line)
	}
	return fmt.Sprintf("%s: %s: %s%s (%s)", place, f.Code, f.Message, theirs(f), f.Remedy)
}

// sourceOf is the file that a fault is in, or nil if it is in what this program wrote.
func (b *build) sourceOf(f fault) *source {
	switch f.File {
	case ".dockerignore":
		return b.ignore
	case "bundle":
		return nil
	}
	return b.file
}

// placed is an error about the instruction of a fault. The place stands in its text too, since some clients show no lines.
func (b *build) placed(err error, f fault) error {
	return b.at(errors.Wrapf(err, "%s:%d", b.file.name, f.Line), f)
}

// at shows with an error the lines of the instruction that a fault is about.
func (b *build) at(err error, f fault) error {
	source := b.sourceOf(f)
	if source == nil || f.Line == 0 {
		return err
	}
	return source.around(err, f.ranges())
}

func (f fault) ranges() []*pb.Range {
	lines := strings.Count(f.Text, "\n") + 1
	ranges := make([]*pb.Range, 0, lines)
	for n := 0; n < lines; n++ {
		at := pb.Position{Line: int32(f.Line + n)}
		ranges = append(ranges, &pb.Range{Start: at, End: at})
	}
	if lines == 1 && f.Column > 0 {
		ranges[0].Start.Character = int32(f.Column - 1)
		ranges[0].End.Character = ranges[0].Start.Character + int32(len(f.Word))
	}
	return ranges
}

// around shows with an error these lines of a file.
func (s *source) around(err error, ranges []*pb.Range) error {
	return errdefs.WithSource(err, errdefs.Source{Info: s.info(), Ranges: ranges})
}
