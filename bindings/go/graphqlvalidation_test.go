package graphqlvalidation

import (
	"errors"
	"fmt"
	"reflect"
	"strings"
	"sync"
	"testing"
	"time"
)

const text = "type Query { pet(id: ID!): Pet } type Pet { name: String }"

const valid = "{ pet(id: 1) { name } }"

const repeated = "{\n\tpet(id: 1,\r\n\tid: 2) { name }\n}\n"

func read(t *testing.T, text string) *Schema {
	t.Helper()
	schema, err := ReadSchema([]File{{Text: text}}, Options{})
	if err != nil {
		t.Fatal(err)
	}
	t.Cleanup(schema.Close)
	return schema
}

func rules(t *testing.T, schema *Schema, document string, options Options) string {
	t.Helper()
	reports, err := schema.Validate(document, options)
	if err != nil {
		t.Fatal(err)
	}
	var found []string
	for _, report := range reports {
		found = append(found, report.Rule)
	}
	return strings.Join(found, " ")
}

func TestDocumentsAreValidatedAsOftenAsWanted(t *testing.T) {
	schema := read(t, text)
	wanted := []Report{{
		Message:   "the argument `id` is provided multiple times",
		Rule:      "UniqueArgument",
		Locations: []Location{{3, 2}},
		Span:      &Span{16, 21},
		Related:   []Note{{Message: "first here", Location: Location{2, 6}, Span: Span{7, 12}}},
	}}
	for k := 0; k < 100; k++ {
		if found := rules(t, schema, valid, Options{}); found != "" {
			t.Fatal(found)
		}
		if reports, err := schema.Validate(repeated, Options{}); err != nil || !reflect.DeepEqual(reports, wanted) {
			t.Fatal(reports, err)
		}
	}
}

func TestAReportHasHelp(t *testing.T) {
	reports, err := read(t, text).Validate("{ pet(id: 1) { nama } }", Options{})
	if err != nil || len(reports) != 1 || !reflect.DeepEqual(reports[0].Help, []string{"did you mean `name`?"}) {
		t.Fatal(reports, err)
	}
}

func TestAnswersLongerThanTheRoomAreWhole(t *testing.T) {
	fields := ""
	for k := 0; k < 500; k++ {
		fields += fmt.Sprintf(" a%d", k)
	}
	reports, err := read(t, text).Validate("{"+fields+" }", Options{})
	if err != nil || len(reports) != 500 || reports[499].Message != "type `Query` does not have a field `a499`" {
		t.Fatal(len(reports), err)
	}
}

func TestReportsNameTheFilesOfASchema(t *testing.T) {
	files := []File{{"query.graphql", "type Query { a: Int }"}, {"pet.graphql", "type Pet { a: Int } type Pet { b: Int }"}}
	_, err := ReadSchema(files, Options{})
	var reported *SchemaReported
	if !errors.As(err, &reported) || len(reported.Reports) != 1 || reported.Reports[0].File != "pet.graphql" {
		t.Fatal(err)
	}
}

func TestOptionsAreBounds(t *testing.T) {
	schema := read(t, "type Query { a: Query b: Int }")
	deep := "{ a { a { a { b } } } }"
	for _, it := range []struct {
		document string
		options  Options
		wanted   string
	}{
		{deep, Options{}, ""},
		{deep, Options{Depth: 3}, "Syntax"},
		{"{ c d e }", Options{}, "UndefinedField UndefinedField UndefinedField"},
		{"{ c d e }", Options{MaxReports: 2}, "UndefinedField UndefinedField"},
	} {
		if found := rules(t, schema, it.document, it.options); found != it.wanted {
			t.Fatal(it, found)
		}
	}
}

func TestWhatIsNoTextIsAnError(t *testing.T) {
	if _, err := read(t, text).Validate("{ \xff }", Options{}); err != ErrNotUTF8 {
		t.Fatal(err)
	}
}

func TestGoroutinesMayShareASchema(t *testing.T) {
	schema := read(t, text)
	var all sync.WaitGroup
	for k := 0; k < 8; k++ {
		all.Add(1)
		go func() {
			defer all.Done()
			for n := 0; n < 50; n++ {
				if reports, err := schema.Validate(repeated, Options{}); err != nil || len(reports) != 1 {
					t.Error(reports, err)
				}
			}
		}()
	}
	all.Wait()
}

func TestAClosedSchemaAnswersNothing(t *testing.T) {
	schema, err := ReadSchema([]File{{Text: text}}, Options{})
	if err != nil {
		t.Fatal(err)
	}
	schema.Close()
	schema.Close()
	if _, err := schema.Validate(valid, Options{}); err != ErrClosed {
		t.Fatal(err)
	}
}

func TestASchemaMayBeClosedWhileGoroutinesCallIt(t *testing.T) {
	schema, err := ReadSchema([]File{{Text: text}}, Options{})
	if err != nil {
		t.Fatal(err)
	}
	var all sync.WaitGroup
	for k := 0; k < 8; k++ {
		all.Add(1)
		go func() {
			defer all.Done()
			for {
				reports, err := schema.Validate(valid, Options{})
				if err == ErrClosed {
					return
				}
				if err != nil || len(reports) != 0 {
					t.Error(reports, err)
					return
				}
			}
		}()
	}
	time.Sleep(10 * time.Millisecond)
	schema.Close()
	all.Wait()
}
