struct N int *N
func sum 2 int
var *N
var *N
var int
var int
var int
var int
0 @92 load v2 v0 0
1 @87 copy v3 v2
2 @108 load v4 v1 0
3 @104 bin v5 add v3 v4
4 @95 return v5
5 @110 jump 5
end
func next 1 *N
var *N
var int
var int
var int
var *N
var *N
0 @147 load v1 v0 0
1 @151 int v2 1
2 @149 bin v3 add v1 v2
3 @154 nil v4
4 @142 new v5 N
5 @142 store v5 0 v3
6 @142 store v5 1 v4
7 @135 return v5
8 @159 jump 8
end
func twice 1 *N
var *N
var int
0 @200 call v1 sum(v0,v0)
1 @196 print v1
2 @209 return v0
3 @218 jump 3
end
func main 0 -
var int
var *N
var *N
var *N
var *N
var *N
var *N
var *N
var int
var int
0 @244 int v0 21
1 @248 nil v1
2 @241 new v2 N
3 @241 store v2 0 v0
4 @241 store v2 1 v1
5 @238 copy v3 v2
6 @269 call v4 twice(v3)
7 @263 call v5 next(v4)
8 @256 copy v6 v5
9 @283 call v7 next(v6)
10 @277 copy v3 v7
11 @303 call v8 sum(v3,v6)
12 @313 load v9 v6 0
13 @299 print v8,v9
14 @316 return -
end
