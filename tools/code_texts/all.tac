struct N int *N
global last *N
global count int
func pick 2 *N
var *N
var *N
var bool
var *N
0 @117 bin v2 eq v0 v1
1 @112 branch v2 2 3
2 @126 return v0
3 @148 load v3 v0 1
4 @139 return v3
5 @150 jump 5
end
func supply 2 -
var chan.*N
var *N
0 @187 send v0 v1
1 @198 close v0
2 @202 return -
end
func all 3 *N
var *N
var *N
var int
var bool
var bool
var bool
var bool
var bool
var *N
var []*N
var []*N
var int
var int
var *N
var *N
var int
var chan.*N
var chan.*N
var *N
var *N
var *N
var int
var *N
var int
var int
var *N
var *N
var bool
var bool
var *N
var int
var chan.*N
var chan.*N
var *N
var *N
0 @242 bool v3 true
1 @239 copy v4 v3
2 @251 not v5 v4
3 @255 copy v6 v5
4 @255 branch v6 7 5
5 @260 isnil v7 v0
6 @255 copy v6 v7
7 @248 branch v6 8 10
8 @278 nil v8
9 @271 return v8
10 @291 slice v9 v2
11 @288 copy v10 v9
12 @308 int v11 0
13 @311 put v10 v11 v0
14 @323 int v12 0
15 @322 at v13 v10 v12
16 @318 copy v14 v13
17 @349 len v15 v10
18 @332 chan v16 v15
19 @329 copy v17 v16
20 @357 send v17 v1
21 @368 recv v18 v17
22 @365 copy v19 v18
23 @373 go supply(v17,v19)
24 @397 new v20 N
25 @395 set last v20
26 @413 neg v21 v2
27 @411 set count v21
28 @436 get v22 last
29 @441 load v23 v22 0
30 @444 get v24 count
31 @428 print "all",v23,v24
32 @461 call v25 pick(v14,v19)
33 @454 copy v26 v25
34 @475 isnil v27 v26
35 @475 not v28 v27
36 @469 branch v28 37 40
37 @492 load v29 v26 1
38 @488 copy v26 v29
39 @469 jump 34
40 @503 int v30 0
41 @503 chan v31 v30
42 @500 copy v32 v31
43 @523 close v32
44 @541 nil v33
45 @535 new v34 N
46 @535 store v34 0 v2
47 @535 store v34 1 v33
48 @528 return v34
49 @546 jump 49
end
func main 0 -
var int
var *N
var *N
var int
var *N
var *N
var int
var *N
var *N
var int
0 @576 int v0 1
1 @579 nil v1
2 @573 new v2 N
3 @573 store v2 0 v0
4 @573 store v2 1 v1
5 @588 int v3 2
6 @591 nil v4
7 @585 new v5 N
8 @585 store v5 0 v3
9 @585 store v5 1 v4
10 @597 int v6 3
11 @572 call v7 all(v2,v5,v6)
12 @566 copy v8 v7
13 @615 load v9 v8 0
14 @612 print v9
15 @618 return -
end
