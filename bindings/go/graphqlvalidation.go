// Package graphqlvalidation validates GraphQL schemas and documents, over a library that is machine-proved.
//
// The library is found by pkg-config, as graphql-validation.
package graphqlvalidation

/*
#cgo pkg-config: graphql-validation
#include <stdlib.h>
#include <graphql_validation.h>

static graphql_outcome read_schema(const char *bytes, const size_t *lengths, size_t count, const graphql_options *options,
                                   graphql_schema *schema, uint8_t *out, size_t room) {
  graphql_file *files = calloc(count + 1, sizeof *files);
  graphql_outcome refused = {GRAPHQL_OUT_OF_MEMORY, GRAPHQL_NOWHERE, 0};
  if (!files)
    return refused;
  const uint8_t *at = (const uint8_t *)bytes;
  for (size_t k = 0; k < count; k++) {
    graphql_file file = {at, lengths[2 * k], at + lengths[2 * k], lengths[2 * k + 1]};
    files[k] = file;
    at = file.text + file.text_length;
  }
  graphql_outcome outcome = graphql_schema_read(files, count, options, schema, out, room);
  free(files);
  return outcome;
}
*/
import "C"

import (
	"encoding/json"
	"errors"
	"fmt"
	"strings"
	"sync"
	"unsafe"
)

const room = 4096

// ErrOutOfMemory says that memory was refused, or that a text has 4 GiB or more.
var ErrOutOfMemory = errors.New("graphqlvalidation: out of memory")

// ErrNotUTF8 says that a text is not UTF-8.
var ErrNotUTF8 = errors.New("graphqlvalidation: a text is not UTF-8")

// ErrClosed says that a schema was closed.
var ErrClosed = errors.New("graphqlvalidation: the schema is closed")

// A Location is a line and a column, from 1. A column counts characters.
type Location struct {
	Line   int `json:"line"`
	Column int `json:"column"`
}

// A Span is the bytes of a text from Start up to End.
type Span struct {
	Start int `json:"start"`
	End   int `json:"end"`
}

// A Report is what is wrong with a text.
type Report struct {
	Message string
	// Rule is the name of the broken rule; "Syntax" where the text is no document.
	Rule string
	// Locations has where it is, if it has a place: one location.
	Locations []Location
	// Span is what it is about, if it has a place.
	Span *Span
	// File is the file of the schema, if it has a name; "<built-in>" for the definitions that every schema has.
	File string
	// Related has notes on other places.
	Related []Note
	// Help is what helps, in words.
	Help []string
}

// A Note is about another place of a report.
type Note struct {
	Message string
	Location
	// Span is what it is about.
	Span Span
	// File is its file, as of a report.
	File string
}

// A File is a file of a schema. Reports do not name a file whose name is empty.
type File struct {
	Name string
	Text string
}

// Options are what a call may take. 0 says the default, which graphql_validation.h states.
type Options struct {
	Depth      uint
	Tokens     uint
	Reach      uint
	Work       uint
	MaxReports uint
}

// A SchemaReported is the error of a schema of which something is reported.
type SchemaReported struct {
	Reports []Report
}

func (e *SchemaReported) Error() string {
	messages := make([]string, len(e.Reports))
	for k, report := range e.Reports {
		messages[k] = report.Message
	}
	return "the schema is reported: " + strings.Join(messages, "; ")
}

// A Schema is a schema that is read once, and documents against it. Goroutines may share it and call it at once: the schema is
// in memory once.
type Schema struct {
	lock sync.Mutex
	// root is nil once the schema is closed. The lock is held to share it and to look for a handle that no call uses.
	root *handle
	idle []*handle
}

// A handle is a handle of the library, and room for the beginning of an answer. It is used by one call at a time.
type handle struct {
	kept *C.graphql_schema
	out  *C.uint8_t
}

func newHandle() (*handle, error) {
	made := &handle{(*C.graphql_schema)(C.calloc(1, C.sizeof_graphql_schema)), (*C.uint8_t)(C.malloc(room))}
	if made.kept == nil || made.out == nil {
		C.free(unsafe.Pointer(made.kept))
		C.free(unsafe.Pointer(made.out))
		return nil, ErrOutOfMemory
	}
	return made, nil
}

func (h *handle) free() {
	C.graphql_schema_free(h.kept)
	C.free(unsafe.Pointer(h.kept))
	C.free(unsafe.Pointer(h.out))
}

// share gives another handle over the same schema.
func (h *handle) share() (*handle, error) {
	other, err := newHandle()
	if err != nil {
		return nil, err
	}
	if err := errorOf(C.graphql_schema_share(h.kept, other.kept)); err != nil {
		other.free()
		return nil, err
	}
	return other, nil
}

// ReadSchema reads a schema. If something is reported of it, the error is a *SchemaReported.
func ReadSchema(files []File, options Options) (*Schema, error) {
	root, err := newHandle()
	if err != nil {
		return nil, err
	}
	if err := root.read(files, options); err != nil {
		root.free()
		return nil, err
	}
	return &Schema{root: root}, nil
}

// Validate tells what is reported of a document: nothing, if it is valid.
func (s *Schema) Validate(document string, options Options) ([]Report, error) {
	own, err := s.take()
	if err != nil {
		return nil, err
	}
	defer s.give(own)
	return own.validate(document, options)
}

// Close gives back the memory of the schema, once the calls that are under way have ended.
func (s *Schema) Close() {
	s.lock.Lock()
	defer s.lock.Unlock()
	if s.root != nil {
		s.root.free()
	}
	for _, it := range s.idle {
		it.free()
	}
	s.root, s.idle = nil, nil
}

// take gives a handle for one call: one that no call uses, or another one over the same schema.
func (s *Schema) take() (*handle, error) {
	s.lock.Lock()
	defer s.lock.Unlock()
	if s.root == nil {
		return nil, ErrClosed
	}
	if last := len(s.idle) - 1; last >= 0 {
		own := s.idle[last]
		s.idle = s.idle[:last]
		return own, nil
	}
	return s.root.share()
}

func (s *Schema) give(own *handle) {
	s.lock.Lock()
	defer s.lock.Unlock()
	if s.root == nil {
		own.free()
	} else {
		s.idle = append(s.idle, own)
	}
}

func (h *handle) read(files []File, options Options) error {
	var bytes strings.Builder
	lengths := make([]C.size_t, 0, 2*len(files)+1)
	for _, file := range files {
		bytes.WriteString(file.Name + file.Text)
		lengths = append(lengths, C.size_t(len(file.Name)), C.size_t(len(file.Text)))
	}
	lengths = append(lengths, 0)
	given := C.CString(bytes.String())
	defer C.free(unsafe.Pointer(given))
	passed := cOptions(options)
	outcome := C.read_schema(given, &lengths[0], C.size_t(len(files)), &passed, h.kept, h.out, room)
	reports, err := h.reports(outcome)
	if err == nil && len(reports) > 0 {
		err = &SchemaReported{reports}
	}
	return err
}

func (h *handle) validate(document string, options Options) ([]Report, error) {
	given := C.CString(document)
	defer C.free(unsafe.Pointer(given))
	passed := cOptions(options)
	outcome := C.graphql_schema_validate(h.kept, (*C.uint8_t)(unsafe.Pointer(given)), C.size_t(len(document)), &passed, h.out, room)
	return h.reports(outcome)
}

func cOptions(options Options) C.graphql_options {
	return C.graphql_options{
		size:        C.sizeof_graphql_options,
		depth:       C.size_t(options.Depth),
		tokens:      C.size_t(options.Tokens),
		reach:       C.size_t(options.Reach),
		work:        C.size_t(options.Work),
		max_reports: C.size_t(options.MaxReports),
	}
}

// errorOf says why there is no answer, if there is none.
func errorOf(status C.uint32_t) error {
	switch status {
	case C.GRAPHQL_ACCEPTED, C.GRAPHQL_REPORTED:
		return nil
	case C.GRAPHQL_OUT_OF_MEMORY:
		return ErrOutOfMemory
	case C.GRAPHQL_NOT_UTF8:
		return ErrNotUTF8
	default:
		return fmt.Errorf("graphqlvalidation: status %d", status)
	}
}

// reports reads the answer, of which the beginning was written to out. The handle has the rest.
func (h *handle) reports(outcome C.graphql_outcome) ([]Report, error) {
	if err := errorOf(outcome.status); err != nil || outcome.status == C.GRAPHQL_ACCEPTED {
		return nil, err
	}
	answer := make([]byte, outcome.length)
	copy(answer, unsafe.Slice((*byte)(unsafe.Pointer(h.out)), room))
	if rest := len(answer) - room; rest > 0 {
		C.graphql_schema_answer(h.kept, room, (*C.uint8_t)(unsafe.Pointer(&answer[room])), C.size_t(rest))
	}
	return parse(answer)
}

func parse(answer []byte) ([]Report, error) {
	var object struct {
		Errors []struct {
			Message    string
			Locations  []Location
			Extensions struct {
				Rule    string
				Span    *Span
				File    string
				Related []Note
				Help    []string
			}
		}
	}
	if err := json.Unmarshal(answer, &object); err != nil {
		return nil, err
	}
	reports := make([]Report, len(object.Errors))
	for k, it := range object.Errors {
		more := it.Extensions
		reports[k] = Report{it.Message, more.Rule, it.Locations, more.Span, more.File, more.Related, more.Help}
	}
	return reports, nil
}
