struct N int *N
func f 3 -
var *N
var *N
var chan.int
var int
var int
var int
var int
0 @93 load v3 v0 0
1 @88 copy v4 v3
2 @107 load v5 v1 0
3 @103 bin v6 add v4 v5
4 @98 send v2 v6
5 @109 return -
end
func main 0 -
var int
var *N
var *N
var *N
var int
var chan.int
var chan.int
var int
0 @133 int v0 21
1 @137 nil v1
2 @130 new v2 N
3 @130 store v2 0 v0
4 @130 store v2 1 v1
5 @127 copy v3 v2
6 @148 int v4 0
7 @148 chan v5 v4
8 @145 copy v6 v5
9 @164 go f(v3,v3,v6)
10 @191 recv v7 v6
11 @190 print v7
12 @196 return -
end
