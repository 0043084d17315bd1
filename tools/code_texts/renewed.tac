struct N int *N
func f 1 *N
var *N
var int
var int
var int
var *N
var *N
0 @86 load v1 v0 0
1 @90 int v2 1
2 @88 bin v3 add v1 v2
3 @93 nil v4
4 @81 new v5 N
5 @81 store v5 0 v3
6 @81 store v5 1 v4
7 @74 return v5
8 @98 jump 8
end
func main 0 -
var int
var *N
var *N
var *N
var *N
var int
0 @122 int v0 1
1 @125 nil v1
2 @119 new v2 N
3 @119 store v2 0 v0
4 @119 store v2 1 v1
5 @116 copy v3 v2
6 @136 call v4 f(v3)
7 @133 copy v3 v4
8 @155 load v5 v3 0
9 @152 print v5
10 @158 return -
end
