// Go_verdicts reads texts and says what Go's own parser and type checker find in each, for tools/mutate.
//
// On standard input each text follows a line with the number of its bytes. For each a line is printed: the messages as a
// list in JSON, which is empty for a program that Go takes.
package main

import (
	"bufio"
	"encoding/json"
	"fmt"
	"go/ast"
	"go/importer"
	"go/parser"
	"go/scanner"
	"go/token"
	"go/types"
	"io"
	"os"
)

func messages(text []byte, packages types.Importer) []string {
	found := []string{}
	files := token.NewFileSet()
	file, err := parser.ParseFile(files, "text.go", text, parser.SkipObjectResolution)
	if err != nil {
		if list, ok := err.(scanner.ErrorList); ok {
			for _, e := range list {
				found = append(found, fmt.Sprintf("%d:%d: syntax: %s", e.Pos.Line, e.Pos.Column, e.Msg))
			}
			return found
		}
		return append(found, "syntax: "+err.Error())
	}
	config := types.Config{Importer: packages, GoVersion: "go1.19", Error: func(err error) {
		if e, ok := err.(types.Error); ok {
			at := files.Position(e.Pos)
			found = append(found, fmt.Sprintf("%d:%d: %s", at.Line, at.Column, e.Msg))
		} else {
			found = append(found, err.Error())
		}
	}}
	pkg, _ := config.Check("main", files, []*ast.File{file}, nil)
	if len(found) == 0 && (pkg == nil || pkg.Name() != "main" || pkg.Scope().Lookup("main") == nil) {
		found = append(found, "function main is undeclared in the main package")
	}
	return found
}

func main() {
	packages := importer.ForCompiler(token.NewFileSet(), "gc", nil)
	in, out := bufio.NewReader(os.Stdin), bufio.NewWriter(os.Stdout)
	for {
		var length int
		if _, err := fmt.Fscanf(in, "%d\n", &length); err != nil {
			return
		}
		text := make([]byte, length)
		if _, err := io.ReadFull(in, text); err != nil {
			return
		}
		line, _ := json.Marshal(messages(text, packages))
		fmt.Fprintf(out, "%s\n", line)
		out.Flush()
	}
}
