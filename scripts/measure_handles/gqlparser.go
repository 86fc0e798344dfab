// Prints the microseconds that each document takes with gqlparser, against a schema that is kept: gqlparser SCHEMA DOCUMENT..
package main

import (
	"fmt"
	"log"
	"math"
	"os"
	"time"

	"github.com/vektah/gqlparser"
	"github.com/vektah/gqlparser/ast"
)

const rounds, calls = 20, 200

func textOf(path string) string {
	bytes, err := os.ReadFile(path)
	if err != nil {
		log.Fatal(err)
	}
	return string(bytes)
}

func main() {
	schema, refused := gqlparser.LoadSchema(&ast.Source{Name: os.Args[1], Input: textOf(os.Args[1])})
	if refused != nil {
		log.Fatal(refused)
	}
	for _, path := range os.Args[2:] {
		document := textOf(path)
		least := math.Inf(1)
		for round := 0; round < rounds; round++ {
			begun := time.Now()
			for call := 0; call < calls; call++ {
				gqlparser.LoadQuery(schema, document)
			}
			least = math.Min(least, float64(time.Since(begun).Nanoseconds())/1e3/calls)
		}
		fmt.Printf("%.2f\n", least)
	}
}
