// Counts words and sells things, for bench/elf/containers.py, which stops it anywhere in package main.
package main

import "os"

const text = "the quick brown fox jumps over the lazy dog and the extraordinarily long-winded narrator"

type item struct {
	price int
	name  string
	tags  []string
}

//go:noinline
func split(text string) []string {
	var words []string
	word := ""
	letters := []byte(text)
	for _, letter := range letters {
		if letter == ' ' {
			words = append(words, word)
			word = ""
		} else {
			word += string(rune(letter))
		}
	}
	return append(words, word)
}

//go:noinline
func tally(words []string) int {
	lengths := make([]int, 4)
	var grid [][]int16
	halves := []float64{}
	first := words[:2]
	for place, word := range words {
		lengths[len(word)%4]++
		grid = append(grid, []int16{int16(place), int16(len(word))})
		halves = append(halves, float64(len(word))/2)
		first = words[:place]
	}
	return lengths[0] + len(grid) + len(halves) + len(first)
}

//go:noinline
func sell(words []string) int {
	var stock []item
	var pointers []*item
	for price, name := range words {
		one := item{price, name, words[:price%3]}
		stock = append(stock, one)
		pointers = append(pointers, &stock[price])
	}
	all := 0
	for _, one := range pointers {
		tags := one.tags
		all += one.price + len(tags)
	}
	return all
}

func main() {
	words := split(text)
	if tally(words)+sell(words) == 0 {
		os.Exit(1)
	}
}
