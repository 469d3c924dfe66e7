//go:build newer

package main

import (
	"errors"
	"io"
)

// match needs the matcher of BuildKit 0.8, which newer ones haven't got.
func match(io.Reader, io.Writer) {
	die(errors.New("the matchers are compared by the engine 0.8"))
}
