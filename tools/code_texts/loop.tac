struct N int *N
func main 0 -
var *N
var int
var int
var int
var bool
var *N
var int
var int
var bool
var bool
var int
var *N
0 @79 nil v0
1 @94 int v1 0
2 @91 copy v2 v1
3 @101 int v3 3
4 @99 bin v4 lt v2 v3
5 @85 branch v4 6 14
6 @116 new v5 N
7 @116 store v5 0 v2
8 @116 store v5 1 v0
9 @114 copy v0 v5
10 @105 int v6 1
11 @105 bin v7 add v2 v6
12 @105 copy v2 v7
13 @85 jump 3
14 @135 isnil v8 v0
15 @135 not v9 v8
16 @129 branch v9 17 22
17 @160 load v10 v0 0
18 @157 print v10
19 @171 load v11 v0 1
20 @167 copy v0 v11
21 @129 jump 14
22 @176 return -
end
