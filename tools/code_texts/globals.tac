struct N int *N
global head *N
global count int
func push 1 -
var *N
var *N
var int
var int
var int
0 @112 get v1 head
1 @110 store v0 1 v1
2 @123 set head v0
3 @128 get v2 count
4 @133 int v3 1
5 @133 bin v4 add v2 v3
6 @133 set count v4
7 @136 return -
end
func main 0 -
var int
var *N
var *N
var int
var *N
var *N
var *N
var int
var *N
var *N
var *N
var int
var int
0 @162 int v0 1
1 @165 nil v1
2 @159 new v2 N
3 @159 store v2 0 v0
4 @159 store v2 1 v1
5 @158 call - push(v2)
6 @180 int v3 2
7 @183 nil v4
8 @177 new v5 N
9 @177 store v5 0 v3
10 @177 store v5 1 v4
11 @174 copy v6 v5
12 @199 load v7 v6 0
13 @202 nil v8
14 @194 new v9 N
15 @194 store v9 0 v7
16 @194 store v9 1 v8
17 @193 call - push(v9)
18 @221 get v10 head
19 @226 load v11 v10 0
20 @229 get v12 count
21 @220 print v11,v12
22 @236 return -
end
