struct N int *N
func list 1 *N
var int
var *N
var int
var int
var bool
var *N
var int
var int
0 @82 nil v1
1 @97 int v2 0
2 @94 copy v3 v2
3 @102 bin v4 lt v3 v0
4 @88 branch v4 5 13
5 @117 new v5 N
6 @117 store v5 0 v3
7 @117 store v5 1 v1
8 @115 copy v1 v5
9 @108 int v6 1
10 @108 bin v7 add v3 v6
11 @108 copy v3 v7
12 @88 jump 3
13 @129 return v1
14 @138 jump 14
end
func sum 1 int
var *N
var int
var int
var bool
var bool
var int
var int
var *N
0 @166 int v1 0
1 @163 copy v2 v1
2 @175 isnil v3 v0
3 @175 not v4 v3
4 @169 branch v4 5 11
5 @191 load v5 v0 0
6 @186 bin v6 add v2 v5
7 @186 copy v2 v6
8 @200 load v7 v0 1
9 @196 copy v0 v7
10 @169 jump 2
11 @205 return v2
12 @214 jump 12
end
func child 2 -
var *N
var chan.int
var int
var int
0 @262 call v2 sum(v0)
1 @258 print v2
2 @273 int v3 1
3 @270 send v1 v3
4 @275 return -
end
func main 0 -
var int
var chan.int
var chan.int
var int
var *N
var *N
var int
0 @296 int v0 0
1 @296 chan v1 v0
2 @293 copy v2 v1
3 @322 int v3 4
4 @321 call v4 list(v3)
5 @314 copy v5 v4
6 @326 go child(v5,v2)
7 @342 recv v6 v2
8 @346 return -
end
