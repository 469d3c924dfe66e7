//go:build newer

package main

import (
	"context"
	"path/filepath"

	"github.com/tonistiigi/fsutil"
)

func walk(folder string, told patterns, each filepath.WalkFunc) error {
	return fsutil.Walk(context.Background(), folder, &fsutil.FilterOpt{ExcludePatterns: told.Excludes, FollowPaths: told.Follows}, each)
}
