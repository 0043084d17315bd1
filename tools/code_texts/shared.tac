struct N int *N
func f 2 int
var *N
var *N
var int
var int
var int
var int
0 @85 load v2 v0 0
1 @80 copy v3 v2
2 @101 load v4 v1 0
3 @97 bin v5 add v3 v4
4 @88 return v5
5 @103 jump 5
end
func main 0 -
var int
var *N
var *N
var *N
var int
0 @127 int v0 21
1 @131 nil v1
2 @124 new v2 N
3 @124 store v2 0 v0
4 @124 store v2 1 v1
5 @121 copy v3 v2
6 @150 call v4 f(v3,v3)
7 @148 print v4
8 @158 return -
end
