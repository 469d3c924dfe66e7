package main

import (
	"bytes"
	"encoding/json"
	"strconv"
	"strings"
	"time"

	"github.com/moby/buildkit/frontend/dockerfile/command"
	"github.com/moby/buildkit/frontend/dockerfile/instructions"
	"github.com/moby/buildkit/frontend/dockerfile/parser"
	"github.com/moby/buildkit/frontend/dockerfile/shell"
	"github.com/moby/buildkit/solver/pb"
	"github.com/pkg/errors"
)

// Here a Dockerfile is read by BuildKit's own parser, for what standin.go has to know of it until dfsolve says it: which images its stages
// name, where an instruction stands, and which instructions made an image. What the file means is dfsolve's alone, and so is what is wrong
// with it: what isn't understood here is passed over. All of this file goes with `dfsolve images`, `Source` of `dfsolve llb`, and `dfsolve
// config --for-engine`.

// reading is a Dockerfile as BuildKit's parser has it.
type reading struct {
	stages []stage
}

type stage struct {
	name  string // as progress calls it
	named string // as it is written, or empty
	base  string // its variables replaced
	line  int
	steps []*parser.Node // with FROM as the first
}

// stepping are the instructions that progress counts.
var stepping = map[string]bool{command.Run: true, command.Copy: true, command.Workdir: true}

// reading reads the Dockerfile for this platform's arguments.
func (v *variant) reading() (*reading, error) {
	tree, err := parser.Parse(bytes.NewReader(v.file.data))
	if err != nil {
		return nil, err
	}
	r, env, lex := &reading{}, []string{}, shell.NewLex(tree.EscapeToken)
	for _, node := range tree.AST.Children {
		if strings.EqualFold(node.Value, command.From) {
			made, err := instructions.ParseInstruction(node)
			if err != nil {
				return nil, err
			}
			from := made.(*instructions.Stage)
			base, err := lex.ProcessWord(from.BaseName, env)
			if err != nil {
				return nil, err
			}
			name := from.Name
			if name == "" {
				name = "stage-" + strconv.Itoa(len(r.stages))
			}
			r.stages = append(r.stages, stage{name: name, named: from.Name, base: base, line: node.StartLine, steps: []*parser.Node{node}})
		} else if n := len(r.stages); n > 0 {
			r.stages[n-1].steps = append(r.stages[n-1].steps, node)
		} else if env, err = v.declared(lex, node, env); err != nil {
			return nil, err
		}
	}
	if len(r.stages) == 0 {
		return nil, errors.New("the Dockerfile has no stage")
	}
	if len(r.stages) == 1 {
		r.stages[0].name = "" // the only stage isn't named
	}
	return r, nil
}

// declared are the values of arguments above the first stage.
func (v *variant) declared(lex *shell.Lex, node *parser.Node, env []string) ([]string, error) {
	made, err := instructions.ParseInstruction(node)
	if err != nil {
		return nil, err
	}
	given := v.arguments()
	it, is := made.(*instructions.ArgCommand)
	if !is {
		return env, nil
	}
	for _, arg := range it.Args {
		value, is := given[arg.Key]
		if !is && arg.Value != nil {
			if value, err = lex.ProcessWord(*arg.Value, env); err != nil {
				return nil, err
			}
		}
		if is || arg.Value != nil {
			env = append(env, arg.Key+"="+value)
		}
	}
	return env, nil
}

// imagesAt are the images that the instruction at a line may name, and an error if one is a stage that isn't above: dfsolve would take an
// image of that name, and such an image would be a surprise.
func (r *reading) imagesAt(line int) ([]string, error) {
	for _, s := range r.stages {
		for _, node := range s.steps {
			if node.StartLine != line {
				continue
			}
			if s.line == line {
				return []string{s.base}, nil
			}
			names, err := sources(node)
			for _, name := range names {
				if r.named(name) != nil {
					return nil, errors.Errorf("cannot copy from stage %q, it needs to be defined before current stage %q", name, s.named)
				}
			}
			return names, err
		}
	}
	return nil, nil
}

// sources are the trees that an instruction takes by their names.
func sources(node *parser.Node) ([]string, error) {
	made, err := instructions.ParseInstruction(node)
	if err != nil {
		return nil, err
	}
	switch it := made.(type) {
	case *instructions.CopyCommand:
		if it.From != "" {
			return []string{it.From}, nil
		}
	case *instructions.RunCommand:
		if err := it.Expand(func(word string) (string, error) { return word, nil }); err != nil {
			return nil, err
		}
		names := []string{}
		for _, mount := range instructions.GetMounts(it) {
			if mount.From != "" {
				names = append(names, mount.From)
			}
		}
		return names, nil
	}
	return nil, nil
}

// named is the last stage of a name, or nil.
func (r *reading) named(name string) *stage {
	for n := len(r.stages) - 1; n >= 0; n-- {
		if name != "" && strings.EqualFold(r.stages[n].named, name) {
			return &r.stages[n]
		}
	}
	return nil
}

// at is the stage of a name and the instruction that is this step of so many. An image that a stage begins with is a step before its
// others.
func (r *reading) at(name string, step, count int) (*stage, *parser.Node) {
	for n := range r.stages {
		s := &r.stages[n]
		if !strings.EqualFold(s.name, name) {
			continue
		}
		var nodes []*parser.Node
		for _, node := range s.steps {
			if stepping[strings.ToLower(node.Value)] {
				nodes = append(nodes, node)
			}
		}
		if n := step - 1 - (count - len(nodes)); n >= 0 && n < len(nodes) {
			return s, nodes[n]
		}
		return s, nil
	}
	return nil, nil
}

// history is an entry for each instruction that made the target, those of its base image first.
func (r *reading) history(target string, epoch *time.Time, images *images) []interface{} {
	s := r.target(target)
	chain := []*stage{s}
	for below := r.above(s); below != nil; below = r.above(below) {
		chain = append([]*stage{below}, chain...)
	}
	entries := []interface{}{}
	for _, it := range historyOf(images.found[chain[0].base].Config) {
		entries = append(entries, it)
	}
	for _, it := range chain {
		for _, node := range it.steps[1:] {
			entry := map[string]interface{}{"created_by": createdBy(node), "comment": "dfsolve"}
			if epoch != nil {
				entry["created"] = epoch
			}
			if !makesLayer(node) {
				entry["empty_layer"] = true
			}
			entries = append(entries, entry)
		}
	}
	return entries
}

// target is the stage of a name or a number, the last one without.
func (r *reading) target(name string) *stage {
	if s := r.named(name); s != nil {
		return s
	}
	if n, err := strconv.Atoi(name); err == nil && n >= 0 && n < len(r.stages) {
		return &r.stages[n]
	}
	return &r.stages[len(r.stages)-1]
}

// above is the stage that another one begins with, or nil.
func (r *reading) above(of *stage) *stage {
	for n := len(r.stages) - 1; n >= 0; n-- {
		if s := &r.stages[n]; s.line < of.line && s.named != "" && strings.EqualFold(s.named, of.base) {
			return s
		}
	}
	return nil
}

// createdBy is an instruction without its flags, on one line.
func createdBy(node *parser.Node) string {
	words := []string{strings.ToUpper(node.Value)}
	for it := node.Next; it != nil; it = it.Next {
		word := it.Value
		if name := strings.ToUpper(node.Value); name == "ENV" || name == "LABEL" {
			if it.Next == nil {
				break
			}
			// a name, its value and the sign between them
			word += "=" + it.Next.Value
			if it = it.Next; it.Next != nil {
				it = it.Next
			}
		}
		words = append(words, word)
	}
	return strings.Join(words, " ")
}

func makesLayer(node *parser.Node) bool {
	name := strings.ToLower(node.Value)
	return stepping[name] && !(name == command.Workdir && node.Next != nil && node.Next.Value == "/")
}

func rangesOf(lines []parser.Range) []*pb.Range {
	ranges := make([]*pb.Range, 0, len(lines))
	for _, it := range lines {
		ranges = append(ranges, &pb.Range{Start: pb.Position{Line: int32(it.Start.Line)}, End: pb.Position{Line: int32(it.End.Line)}})
	}
	return ranges
}

// historyOf is that of an image's own configuration.
func historyOf(config []byte) []json.RawMessage {
	var made struct{ History []json.RawMessage }
	if json.Unmarshal(config, &made) != nil {
		return nil
	}
	return made.History
}
