// Features prints which constructs that rgo leaves out Go's own parser and type checker find in Go programs:
//
//	go run features.go -- FILE.go ..
//
// For each file it prints its name, and then a line for each line of it and each construct there, by the headings of
// docs/PORTING.md. tools/tests/test_subset.py compares what tools/subset finds with this.
package main

import (
	"fmt"
	"go/ast"
	"go/importer"
	"go/parser"
	"go/token"
	"go/types"
	"os"
	"path/filepath"
	"sort"
	"strings"
)

type finder struct {
	files *token.FileSet
	info  *types.Info
	path  []ast.Node
	found map[string]bool
}

func (f *finder) note(pos token.Pos, construct string) {
	f.found[fmt.Sprintf("%4d %s", f.files.Position(pos).Line, construct)] = true
}

// above returns the node that is n levels above the one that is visited.
func (f *finder) above(n int) ast.Node {
	if len(f.path) <= n {
		return nil
	}
	return f.path[len(f.path)-1-n]
}

func (f *finder) under(e ast.Expr) types.Type {
	if t := f.info.TypeOf(e); t != nil {
		return t.Underlying()
	}
	return nil
}

func (f *finder) isString(e ast.Expr) bool {
	b, ok := f.under(e).(*types.Basic)
	return ok && b.Info()&types.IsString != 0
}

// packageOf returns the name of the package if e is a name of a package, such as `fmt.Println`.
func (f *finder) packageOf(e ast.Expr) string {
	if s, ok := e.(*ast.SelectorExpr); ok {
		if x, ok := s.X.(*ast.Ident); ok {
			if p, ok := f.info.Uses[x].(*types.PkgName); ok {
				return p.Imported().Name()
			}
		}
	}
	return ""
}

func (f *finder) copied(exprs ...ast.Expr) {
	for _, e := range exprs {
		for {
			p, ok := e.(*ast.ParenExpr)
			if !ok {
				break
			}
			e = p.X
		}
		switch e.(type) {
		case *ast.Ident, *ast.SelectorExpr, *ast.IndexExpr, *ast.StarExpr:
		default:
			continue
		}
		if f.info.Types[e].IsType() {
			continue
		}
		switch f.under(e).(type) {
		case *types.Struct, *types.Array:
			f.note(e.Pos(), "copy of a struct")
		}
	}
}

func (f *finder) Visit(n ast.Node) ast.Visitor {
	if n == nil {
		f.path = f.path[:len(f.path)-1]
		return nil
	}
	f.path = append(f.path, n)
	switch n := n.(type) {
	case *ast.GenDecl:
		f.decl(n)
	case *ast.FuncDecl:
		if n.Recv != nil {
			f.note(n.Pos(), "method")
		}
		f.results(n.Type)
	case *ast.FuncLit:
		f.results(n.Type)
		f.closure(n)
	case *ast.DeferStmt:
		f.note(n.Pos(), "defer")
	case *ast.SelectStmt:
		f.note(n.Pos(), "select")
	case *ast.SwitchStmt:
		f.note(n.Pos(), "switch")
	case *ast.TypeSwitchStmt:
		f.note(n.Pos(), "type switch")
	case *ast.RangeStmt:
		f.ranged(n)
	case *ast.AssignStmt:
		f.assign(n)
	case *ast.ValueSpec:
		f.values(n)
	case *ast.SendStmt:
		f.copied(n.Value)
	case *ast.ReturnStmt:
		if len(n.Results) > 1 {
			f.note(n.Pos(), "several results")
		}
		f.copied(n.Results...)
	case *ast.BinaryExpr:
		f.binary(n)
	case *ast.UnaryExpr:
		if n.Op == token.XOR {
			f.note(n.Pos(), "bit operator")
		}
	case *ast.CallExpr:
		f.call(n)
	case *ast.CompositeLit:
		f.literal(n)
	case *ast.MapType:
		f.note(n.Pos(), "map")
	case *ast.ArrayType:
		if n.Len != nil {
			f.note(n.Pos(), "array")
		}
	case *ast.FuncType:
		f.function(n)
	case *ast.ChanType:
		if n.Dir != ast.SEND|ast.RECV {
			f.note(n.Pos(), "directional channel")
		}
	case *ast.SliceExpr:
		f.note(n.Lbrack, "slicing")
	case *ast.IndexExpr:
		if f.isString(n.X) {
			f.note(n.Lbrack, "string")
		} else if _, ok := f.under(n.X).(*types.Map); ok {
			f.note(n.Lbrack, "map")
		}
	case *ast.SelectorExpr:
		if f.packageOf(n) == "sync" {
			f.syncName(n.Pos(), n.Sel.Name)
		}
	case *ast.BasicLit:
		f.basic(n)
	case *ast.Ident:
		f.ident(n)
	}
	return f
}

func (f *finder) syncName(pos token.Pos, name string) {
	switch name {
	case "Mutex", "RWMutex":
		f.note(pos, "sync.Mutex")
	case "WaitGroup":
		f.note(pos, "sync.WaitGroup")
	}
}

func (f *finder) decl(n *ast.GenDecl) {
	if n.Tok != token.CONST {
		return
	}
	for i, spec := range n.Specs {
		if i == 0 {
			f.note(n.Pos(), "const")
		} else {
			f.note(spec.Pos(), "const")
		}
	}
}

func (f *finder) results(n *ast.FuncType) {
	if n.Results.NumFields() > 1 {
		f.note(n.Results.List[0].Pos(), "several results")
	}
}

func (f *finder) function(n *ast.FuncType) {
	switch up := f.above(1).(type) {
	case *ast.FuncDecl, *ast.FuncLit:
		return
	case *ast.Field:
		// A method of an interface.
		if list, ok := f.above(3).(*ast.InterfaceType); ok && len(up.Names) == 1 && list != nil {
			return
		}
	}
	f.note(n.Pos(), "function value")
}

func (f *finder) closure(n *ast.FuncLit) {
	if call, ok := f.above(1).(*ast.CallExpr); ok && call.Fun == n {
		switch up := f.above(2).(type) {
		case *ast.GoStmt:
			f.note(up.Pos(), "go func")
			return
		case *ast.DeferStmt:
			return
		}
	}
	f.note(n.Pos(), "closure")
}

func (f *finder) ranged(n *ast.RangeStmt) {
	t := f.under(n.X)
	if p, ok := t.(*types.Pointer); ok {
		t = p.Elem().Underlying()
	}
	var element types.Type
	switch t := t.(type) {
	case *types.Slice:
		f.note(n.Pos(), "range over a slice")
		element = t.Elem()
	case *types.Array:
		f.note(n.Pos(), "range over a slice")
		element = t.Elem()
	case *types.Chan:
		f.note(n.Pos(), "range over a channel")
	case *types.Map:
		f.note(n.Pos(), "range over a map")
		element = t.Elem()
	case *types.Basic:
		if t.Info()&types.IsString != 0 {
			f.note(n.Pos(), "range over a string")
		} else {
			f.note(n.Pos(), "range over a number")
		}
	}
	if name, ok := n.Value.(*ast.Ident); ok && name.Name != "_" && element != nil && n.Tok == token.DEFINE {
		switch element.Underlying().(type) {
		case *types.Struct, *types.Array:
			f.note(name.Pos(), "copy of a struct")
		}
	}
}

func (f *finder) assign(n *ast.AssignStmt) {
	switch n.Tok {
	case token.AND_ASSIGN, token.OR_ASSIGN, token.XOR_ASSIGN, token.SHL_ASSIGN, token.SHR_ASSIGN, token.AND_NOT_ASSIGN:
		f.note(n.TokPos, "bit operator")
	case token.ADD_ASSIGN:
		if f.isString(n.Lhs[0]) {
			f.note(n.TokPos, "string")
		}
	}
	f.copied(n.Rhs...)
	switch {
	case len(n.Rhs) > 1 && n.Tok == token.DEFINE:
		f.note(n.TokPos, "several variables")
	case len(n.Rhs) > 1:
		f.note(n.TokPos, "several assignments")
	case len(n.Lhs) > 1:
		f.question(n.TokPos, n.Rhs[0])
	}
}

func (f *finder) question(pos token.Pos, e ast.Expr) {
	switch e := e.(type) {
	case *ast.ParenExpr:
		f.question(pos, e.X)
		return
	case *ast.IndexExpr, *ast.TypeAssertExpr:
		f.note(pos, "comma ok")
		return
	case *ast.UnaryExpr:
		if e.Op == token.ARROW {
			f.note(pos, "comma ok")
			return
		}
	}
	f.note(pos, "several results")
}

func (f *finder) values(n *ast.ValueSpec) {
	if decl, ok := f.above(1).(*ast.GenDecl); !ok || decl.Tok != token.VAR {
		return
	}
	if _, ok := f.above(2).(*ast.File); ok {
		if len(n.Values) > 0 {
			f.note(n.Pos(), "initialised package variable")
		}
		return
	}
	f.copied(n.Values...)
	if len(n.Values) > 1 {
		f.note(n.Pos(), "several variables")
	} else if len(n.Values) == 1 && len(n.Names) > 1 {
		f.question(n.Pos(), n.Values[0])
	}
}

func (f *finder) binary(n *ast.BinaryExpr) {
	switch n.Op {
	case token.AND, token.OR, token.XOR, token.SHL, token.SHR, token.AND_NOT:
		f.note(n.OpPos, "bit operator")
		return
	}
	if f.isString(n.X) || f.isString(n.Y) {
		f.note(n.OpPos, "string")
	} else if n.Op == token.EQL || n.Op == token.NEQ {
		f.copied(n.X, n.Y)
	}
}

func (f *finder) call(n *ast.CallExpr) {
	if f.info.Types[n.Fun].IsType() {
		f.note(n.Pos(), "conversion")
		return
	}
	name, isName := n.Fun.(*ast.Ident)
	if isName && f.info.Types[n.Fun].IsBuiltin() {
		f.builtin(n, name.Name)
		return
	}
	f.copied(n.Args...)
	if v, ok := f.info.Uses[name].(*types.Var); isName && ok && v != nil {
		f.note(n.Pos(), "function value")
	}
	if s, ok := n.Fun.(*ast.SelectorExpr); ok {
		if f.packageOf(s) == "fmt" && s.Sel.Name != "Println" {
			f.note(n.Pos(), "Printf")
		}
		if selected := f.info.Selections[s]; selected != nil {
			f.member(s, selected)
		}
	}
}

func (f *finder) builtin(n *ast.CallExpr, name string) {
	switch name {
	case "append", "cap", "copy", "panic":
		f.note(n.Pos(), name)
	case "recover":
		f.note(n.Pos(), "panic")
	case "delete":
		f.note(n.Pos(), "map")
	case "len":
		if f.isString(n.Args[0]) {
			f.note(n.Pos(), "string")
		} else if _, ok := f.under(n.Args[0]).(*types.Map); ok {
			f.note(n.Pos(), "map")
		} else if _, ok := f.under(n.Args[0]).(*types.Array); ok {
			f.note(n.Pos(), "array")
		}
	case "make":
		if len(n.Args) > 2 {
			f.note(n.Pos(), "make with a capacity")
		}
	}
	if name != "len" && name != "make" && name != "new" {
		f.copied(n.Args...)
	}
}

func (f *finder) member(s *ast.SelectorExpr, selected *types.Selection) {
	if selected.Kind() == types.FieldVal {
		f.note(s.Sel.Pos(), "function value")
		return
	}
	function := selected.Obj().(*types.Func)
	if p := function.Pkg(); p != nil && p.Name() == "sync" {
		t := function.Type().(*types.Signature).Recv().Type()
		f.syncName(s.Sel.Pos(), strings.TrimLeft(filepath.Ext(t.String()), "."))
		return
	} else if p != nil && p.Name() == "main" && !types.IsInterface(selected.Recv()) {
		f.note(s.Sel.Pos(), "method call")
	}
}

func (f *finder) literal(n *ast.CompositeLit) {
	for _, e := range n.Elts {
		if pair, ok := e.(*ast.KeyValueExpr); ok {
			e = pair.Value
		}
		f.copied(e)
	}
	t := f.under(n)
	if p, ok := t.(*types.Pointer); ok {
		t = p.Elem().Underlying()
	}
	switch t.(type) {
	case *types.Struct:
		if n.Type == nil {
			f.note(n.Pos(), "struct value")
		}
	case *types.Slice:
		f.note(n.Pos(), "slice literal")
	}
}

func (f *finder) basic(n *ast.BasicLit) {
	switch n.Kind {
	case token.FLOAT:
		f.note(n.Pos(), "float")
	case token.CHAR:
		f.note(n.Pos(), "rune")
	case token.STRING:
		f.str(n)
	}
}

func (f *finder) str(n *ast.BasicLit) {
	if n.Value[0] == '`' {
		return
	}
	switch up := f.above(1).(type) {
	case *ast.ImportSpec, *ast.Field:
		return
	case *ast.CallExpr:
		switch f.packageOf(up.Fun) {
		case "fmt", "errors", "log":
			return
		}
		if name, ok := up.Fun.(*ast.Ident); ok && strings.Contains("panic println", name.Name) {
			return
		}
	}
	f.note(n.Pos(), "string")
}

func (f *finder) ident(n *ast.Ident) {
	name, ok := f.info.Uses[n].(*types.TypeName)
	if !ok {
		return
	}
	if b, ok := name.Type().(*types.Basic); ok {
		switch {
		case b.Info()&types.IsString != 0:
			f.note(n.Pos(), "string")
		case b.Info()&types.IsFloat != 0:
			f.note(n.Pos(), "float")
		case b.Info()&types.IsInteger != 0 && b.Name() != "int":
			f.note(n.Pos(), "integer type")
		}
		return
	}
	if _, ok := name.Type().Underlying().(*types.Struct); !ok || name.Pkg() == nil || name.Pkg().Name() != "main" {
		return
	}
	switch up := f.above(1).(type) {
	case *ast.StarExpr:
		return
	case *ast.CompositeLit:
		if u, ok := f.above(2).(*ast.UnaryExpr); ok && u.Op == token.AND && up.Type == n {
			return
		}
	case *ast.CallExpr:
		if f, ok := up.Fun.(*ast.Ident); ok && f.Name == "new" {
			return
		}
	}
	f.note(n.Pos(), "struct value")
}

func main() {
	files := token.NewFileSet()
	imports := importer.ForCompiler(files, "source", nil)
	for _, path := range os.Args[1:] {
		if path == "--" {
			continue
		}
		tree, err := parser.ParseFile(files, path, nil, 0)
		if err != nil {
			fmt.Fprintln(os.Stderr, err)
			os.Exit(1)
		}
		info := &types.Info{
			Types:      map[ast.Expr]types.TypeAndValue{},
			Uses:       map[*ast.Ident]types.Object{},
			Selections: map[*ast.SelectorExpr]*types.Selection{},
		}
		check := types.Config{Importer: imports}
		if _, err := check.Check("main", files, []*ast.File{tree}, info); err != nil {
			fmt.Fprintln(os.Stderr, err)
			os.Exit(1)
		}
		f := &finder{files: files, info: info, found: map[string]bool{}}
		ast.Walk(f, tree)
		lines := make([]string, 0, len(f.found))
		for line := range f.found {
			lines = append(lines, line)
		}
		sort.Strings(lines)
		fmt.Println(path)
		for _, line := range lines {
			fmt.Println(line)
		}
	}
}
