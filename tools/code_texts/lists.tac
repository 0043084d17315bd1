struct N int *N
func list 1 *N
var int
var *N
var int
var int
var bool
var *N
var int
var int
0 @82 nil v1
1 @97 int v2 0
2 @94 copy v3 v2
3 @102 bin v4 lt v3 v0
4 @88 branch v4 5 13
5 @117 new v5 N
6 @117 store v5 0 v3
7 @117 store v5 1 v1
8 @115 copy v1 v5
9 @108 int v6 1
10 @108 bin v7 add v3 v6
11 @108 copy v3 v7
12 @88 jump 3
13 @129 return v1
14 @138 jump 14
end
func sum 1 int
var *N
var int
var int
var bool
var bool
var int
var int
var *N
0 @166 int v1 0
1 @163 copy v2 v1
2 @175 isnil v3 v0
3 @175 not v4 v3
4 @169 branch v4 5 11
5 @191 load v5 v0 0
6 @186 bin v6 add v2 v5
7 @186 copy v2 v6
8 @200 load v7 v0 1
9 @196 copy v0 v7
10 @169 jump 2
11 @205 return v2
12 @214 jump 12
end
func main 0 -
var int
var int
var int
var int
var int
var bool
var int
var *N
var int
var int
var int
var int
0 @235 int v0 0
1 @232 copy v1 v0
2 @247 int v2 0
3 @244 copy v3 v2
4 @254 int v4 1000
5 @252 bin v5 lt v3 v4
6 @238 branch v5 7 16
7 @280 int v6 10
8 @279 call v7 list(v6)
9 @274 call v8 sum(v7)
10 @268 bin v9 add v1 v8
11 @268 copy v1 v9
12 @261 int v10 1
13 @261 bin v11 add v3 v10
14 @261 copy v3 v11
15 @238 jump 4
16 @299 print v1
17 @303 return -
end
