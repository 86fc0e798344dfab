// Prints the microseconds that each document takes against a schema that is kept: measure SCHEMA DOCUMENT..
package main

import (
	"fmt"
	"log"
	"math"
	"os"
	"time"

	"graphqlvalidation"
)

const rounds, calls = 20, 200

func textOf(path string) string {
	bytes, err := os.ReadFile(path)
	if err != nil {
		log.Fatal(err)
	}
	return string(bytes)
}

func main() {
	schema, err := graphqlvalidation.ReadSchema([]graphqlvalidation.File{{Text: textOf(os.Args[1])}}, graphqlvalidation.Options{})
	if err != nil {
		log.Fatal(err)
	}
	defer schema.Close()
	for _, path := range os.Args[2:] {
		document := textOf(path)
		least := math.Inf(1)
		for round := 0; round < rounds; round++ {
			begun := time.Now()
			for call := 0; call < calls; call++ {
				if _, err := schema.Validate(document, graphqlvalidation.Options{}); err != nil {
					log.Fatal(err)
				}
			}
			least = math.Min(least, float64(time.Since(begun).Nanoseconds())/1e3/calls)
		}
		fmt.Printf("%.2f\n", least)
	}
}
