package main

import "fmt"

type row struct {
	y     int
	cells []byte
}

func escape(cr, ci float64, limit int) int {
	var zr, zi float64
	for i := 0; i < limit; i++ {
		zr, zi = zr*zr-zi*zi+cr, 2*zr*zi+ci
		if zr*zr+zi*zi > 4 {
			return i
		}
	}
	return limit
}

func main() {
	const w, h, limit = 60, 20, 50
	out := make(chan row)
	for y := 0; y < h; y++ {
		go func(y int) {
			cells := make([]byte, w)
			for x := range cells {
				n := escape(float64(x)/w*3-2, float64(y)/h*2-1, limit)
				cells[x] = " .:-=+*#%@"[n*9/limit]
			}
			out <- row{y, cells}
		}(y)
	}
	rows := make([][]byte, h)
	for range rows {
		r := <-out
		rows[r.y] = r.cells
	}
	for _, cells := range rows {
		fmt.Println(string(cells))
	}
}
