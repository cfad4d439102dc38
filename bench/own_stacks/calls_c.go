// A program that calls C from Go, and Go from C.
package main

/*
int numbers(int n);
int numbers(int n) { volatile int sum = 0; for (int i = 0; i < n; i++) sum += i % 7; return sum; }
*/
import "C"
import (
	"fmt"
	"time"
)

func main() {
	sum := 0
	for end := time.Now().Add(3 * time.Second); time.Now().Before(end); {
		sum += int(C.numbers(20000))
		for i := 0; i < 10000; i++ {
			sum += i % 5
		}
	}
	fmt.Println(sum > 0)
}
