struct N int *N
func add 3 -
var *N
var *N
var chan.int
var int
var int
var int
var int
0 @100 load v3 v0 0
1 @95 copy v4 v3
2 @114 load v5 v1 0
3 @110 bin v6 add v4 v5
4 @105 send v2 v6
5 @122 close v2
6 @126 return -
end
func main 0 -
var int
var *N
var *N
var *N
var int
var chan.int
var chan.int
var int
var int
0 @152 int v0 21
1 @156 nil v1
2 @149 new v2 N
3 @149 store v2 0 v0
4 @149 store v2 1 v1
5 @146 copy v3 v2
6 @167 int v4 0
7 @167 chan v5 v4
8 @164 copy v6 v5
9 @183 go add(v3,v3,v6)
10 @212 recv v7 v6
11 @217 recv v8 v6
12 @211 print v7,v8
13 @222 return -
end
