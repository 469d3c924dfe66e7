// Command sent prints what BuildKit's client sends of a folder: sent FOLDER < PATTERNS, where PATTERNS is JSON with the lists Excludes and Follows.
// The paths are a list of JSON. With the tag `newer` it is BuildKit 0.13's client, and without that of 0.8.
package main

import (
	"encoding/json"
	"fmt"
	"os"
)

// patterns are what a definition tells of its context. What isn't told is no list.
type patterns struct {
	Excludes []string
	Follows  []string
}

func die(err error) {
	if err != nil {
		fmt.Fprintln(os.Stderr, err)
		os.Exit(1)
	}
}

func main() {
	var told patterns
	die(json.NewDecoder(os.Stdin).Decode(&told))
	paths := []string{}
	die(walk(os.Args[1], told, func(path string, _ os.FileInfo, err error) error {
		paths = append(paths, path)
		return err
	}))
	die(json.NewEncoder(os.Stdout).Encode(paths))
}
