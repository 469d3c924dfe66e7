//go:build !newer

package main

import (
	"encoding/json"
	"io"
	"path"
	"strings"

	"github.com/docker/docker/pkg/fileutils"
	"github.com/moby/buildkit/solver/pb"
	"github.com/moby/patternmatcher"
)

// question is a definition, and paths of its context without the `/` at the beginning.
type question struct {
	Definition []byte
	Paths      []string
}

// verdict is what the definition leaves out of its context, and for each path whether it is left out, by BuildKit's matchers.
type verdict struct {
	Patterns       []string
	Fileutils      []bool // the matcher of BuildKit 0.8
	Patternmatcher []bool // that of newer ones, from the root to the path as they walk a folder
	Alone          []bool // the same, of the path alone
}

func walked(pm *patternmatcher.PatternMatcher, file string) bool {
	matched, info := false, patternmatcher.MatchInfo{}
	var err error
	parts := strings.Split(file, "/")
	for n := range parts {
		matched, info, err = pm.MatchesUsingParentResults(path.Join(parts[:n+1]...), info)
		die(err)
	}
	return matched
}

func judge(q question) verdict {
	v := verdict{Patterns: told(q.Definition, pb.AttrExcludePatterns)}
	older, err := fileutils.NewPatternMatcher(v.Patterns)
	die(err)
	newer, err := patternmatcher.New(v.Patterns)
	die(err)
	for _, file := range q.Paths {
		left, err := older.Matches(file)
		die(err)
		alone, err := newer.MatchesOrParentMatches(file)
		die(err)
		v.Fileutils, v.Alone = append(v.Fileutils, left), append(v.Alone, alone)
		v.Patternmatcher = append(v.Patternmatcher, walked(newer, file))
	}
	return v
}

// match answers questions, one of JSON after another, by a line of JSON each.
func match(in io.Reader, out io.Writer) {
	questions, verdicts := json.NewDecoder(in), json.NewEncoder(out)
	for {
		var q question
		err := questions.Decode(&q)
		if err == io.EOF {
			return
		}
		die(err)
		die(verdicts.Encode(judge(q)))
	}
}
