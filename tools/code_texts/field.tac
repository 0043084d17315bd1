struct N int *N
func main 0 -
var *N
var *N
var int
0 @76 new v0 N
1 @73 copy v1 v0
2 @98 load v2 v1 0
3 @95 print v2
4 @101 return -
end
