// Validates documents against a schema, and prints what is reported of each: example SCHEMA DOCUMENT..
package main

import (
	"fmt"
	"log"
	"os"

	"graphqlvalidation"
)

func textOf(path string) string {
	bytes, err := os.ReadFile(path)
	if err != nil {
		log.Fatal(err)
	}
	return string(bytes)
}

func main() {
	if len(os.Args) < 3 {
		log.Fatal("two files are needed")
	}
	schema, err := graphqlvalidation.ReadSchema([]graphqlvalidation.File{{Text: textOf(os.Args[1])}}, graphqlvalidation.Options{})
	if err != nil {
		log.Fatal(err)
	}
	defer schema.Close()
	for _, path := range os.Args[2:] {
		reports, err := schema.Validate(textOf(path), graphqlvalidation.Options{})
		if err != nil {
			log.Fatal(err)
		}
		for _, report := range reports {
			fmt.Printf("%d:%d: %s\n", report.Locations[0].Line, report.Locations[0].Column, report.Message)
		}
	}
}
