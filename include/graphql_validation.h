/* Validation of GraphQL schemas and documents.

   Each call takes texts as bytes in UTF-8, and writes its answer as JSON into memory of the caller. There are two ways:
   - a handle keeps a schema that was read once, and each document is validated against it: graphql_schema_read and the
     calls below it;
   - graphql_validate and the calls below it read the schema again each time, and keep nothing. Several threads may make
     them at once, if each has an `out` of its own.

   A caller owes:
   - live memory: at each pointer as many bytes (for `ends`, numbers; for `files`, files) as the length behind it says. No
     pointer is null, also if the length is 0;
   - an `out` and a handle that overlap nothing else that is passed, and that no other thread uses during the call. All else
     that is passed is only read, and may be shared;
   - of a handle: all bytes 0 before the first call; one call at a time; no copy of it in use; and graphql_schema_free at the
     end, also if the schema was reported. A handle may go to another thread, ordered by a lock, by the start or join of a
     thread, or by a sequentially consistent atomic. Calls on different handles may be made at once, also if the handles share
     a schema: graphql_schema_share gives each thread a handle of its own over one schema in memory;
   - stack: 2 MiB are enough for the default depth. A stack that is too small ends the process. A thread with less passes a
     lower depth in its options: docs/EMBEDDING.md has the least stack of each depth;
   - memory: the library asks for it by three functions, below.

   Nothing checks that a caller keeps to this. */

#ifndef GRAPHQL_VALIDATION_H
#define GRAPHQL_VALIDATION_H

#include <stddef.h>
#include <stdint.h>

#ifdef __cplusplus
extern "C" {
#endif

/* The version of these calls that this header declares. */
#define GRAPHQL_ABI_VERSION 2

enum graphql_status {
  /* Nothing is reported. */
  GRAPHQL_ACCEPTED = 0,
  /* Something is reported. */
  GRAPHQL_REPORTED = 1,
  /* `ends` does not go up, or goes beyond `documents`; or `options` has a size that is too small. There is no answer. */
  GRAPHQL_BAD_ARGUMENTS = 2,
  /* Memory was refused, or a text has 4 GiB or more. There is no answer. */
  GRAPHQL_OUT_OF_MEMORY = 3,
  /* The handle keeps no schema. There is no answer. */
  GRAPHQL_NO_SCHEMA = 4,
  /* A text or the name of a file is no UTF-8. There is no answer. */
  GRAPHQL_NOT_UTF8 = 5
};

enum graphql_reported {
  GRAPHQL_NOWHERE = 0,
  /* In the schema. No document was looked at. */
  GRAPHQL_IN_SCHEMA = 1,
  GRAPHQL_IN_DOCUMENTS = 2
};

typedef struct {
  /* One of graphql_status. */
  uint32_t status;
  /* One of graphql_reported. */
  uint32_t reported;
  /* How many bytes the whole answer has. If `out` has less room, as much as fits was written: a handle gives the rest by
     graphql_schema_answer; without a handle call again with as much room as this. 0 if there is no answer. No byte 0 is
     behind the answer. */
  size_t length;
} graphql_outcome;

/* The answer is a JSON object, {"errors":[..]}, in the form of the errors of a GraphQL response. An error has
   - "message": what is wrong;
   - "locations", if it has a place: one, {"line":1,"column":1}, from 1, where a column counts characters;
   - "extensions": "rule", the name of the broken rule; "span" with "start" and "end", the bytes that it is about, if it has a
     place; "file": "<built-in>" for a place in the definitions that every schema has, or the name of the file of a schema, if
     it has one; "related", if there are notes on other places: each has "message", "line", "column", "span" and, as above,
     "file"; and "help", if something helps: an array of strings.
   Errors are all that is found, also beside a syntax error or what cannot be built: each fault once, in the order of files and
   places, those without a place first. */

/* A schema that is kept between calls. Begin with all bytes 0: graphql_schema schema = {0}; */
typedef struct {
  void *at;
} graphql_schema;

/* A file of a schema. A file without a name has an empty one, at any pointer that is not null. */
typedef struct {
  const uint8_t *name;
  size_t name_length;
  const uint8_t *text;
  size_t text_length;
} graphql_file;

/* What a call may take. Each number but the size may be 0, which says the default. A text that passes a bound is reported,
   and not validated. Begin with graphql_options options = GRAPHQL_DEFAULT_OPTIONS; */
typedef struct {
  /* sizeof(graphql_options): a later version may add numbers at the end. */
  size_t size;
  /* How many brackets and braces open in one another, also through the fragments of a document. Default: 500. */
  size_t depth;
  /* How many tokens a text has. Default: any number. */
  size_t tokens;
  /* How many bytes the operations of a document reach for each byte of it, of which 65536 count at least: an operation is
     validated with every fragment that it reaches, so a fragment counts for each of them. A document that nests 100 levels
     or more may reach one byte for each. Default: 4. */
  size_t reach;
  /* How much work the search for fields takes that cannot be merged. Default: 160000000 units, about a second. */
  size_t work;
  /* How many errors an answer has: the first ones. Default: all that are kept. Of each kind of report at most 1000 are kept,
     with a megabyte of messages; if there are more, the first error has the rule "MoreReports". */
  size_t max_reports;
} graphql_options;

#define GRAPHQL_DEFAULT_OPTIONS {sizeof(graphql_options), 0, 0, 0, 0, 0}

/* Reads the schema of these files, and keeps it in the handle. What the handle kept before is given back.

   With status 0 the handle keeps the schema. With status 1 it keeps no schema, but the answer. With any other status it keeps
   nothing. */
graphql_outcome graphql_schema_read(const graphql_file *files, size_t count, const graphql_options *options,
                                    graphql_schema *schema, uint8_t *out, size_t out_length);

/* Validates a document against the schema that the handle keeps, as often as wanted. The answer is that of graphql_validate
   on the same texts with the same bounds. The schema stays as it is. */
graphql_outcome graphql_schema_validate(graphql_schema *schema, const uint8_t *document, size_t document_length,
                                        const graphql_options *options, uint8_t *out, size_t out_length);

/* Gives `other` the schema that `schema` keeps, without an answer. The schema is in memory once, until the last handle over it
   is freed, in any order. What `other` kept before is given back; it is another handle than `schema`, which stays as it is.
   This is a call on both handles.

   Returns GRAPHQL_ACCEPTED; or GRAPHQL_OUT_OF_MEMORY or GRAPHQL_NO_SCHEMA, and `other` then keeps nothing. */
uint32_t graphql_schema_share(graphql_schema *schema, graphql_schema *other);

/* Writes the answer of the last graphql_schema_read or graphql_schema_validate on this handle, from the byte `from` on, as
   much as there is room for, and validates nothing. Returns how many bytes the whole answer has: 0 if there is none. */
size_t graphql_schema_answer(graphql_schema *schema, size_t from, uint8_t *out, size_t out_length);

/* Gives back the memory of the handle, which then keeps nothing: of a shared schema with the last handle over it. It may be
   used again. A second call changes nothing. */
void graphql_schema_free(graphql_schema *schema);

/* Validates a document against a schema, by the default options. */
graphql_outcome graphql_validate(const uint8_t *schema, size_t schema_length, const uint8_t *document,
                                 size_t document_length, uint8_t *out, size_t out_length);

/* Validates a schema. */
graphql_outcome graphql_validate_schema(const uint8_t *schema, size_t schema_length, uint8_t *out, size_t out_length);

/* Validates documents against one schema, which is read once. The documents lie one behind another in `documents`:
   each begins where the one before it ends, and `ends` has the end of each.

   The answer is a JSON array of objects, one for each document, in their order; but one object if it is the schema that is
   reported. */
graphql_outcome graphql_validate_all(const uint8_t *schema, size_t schema_length, const uint8_t *documents,
                                     size_t documents_length, const size_t *ends, size_t count, uint8_t *out,
                                     size_t out_length);

/* The version of these calls in the library. A caller compares it with GRAPHQL_ABI_VERSION. */
uint32_t graphql_abi_version(void);

/* The memory of the library. The shared library has these three functions over malloc, realloc and free. Of the archive, a
   caller may define its own, and may refuse memory: the call then ends with status 3, and has given back all that it had.
   Threads that call at once call these at once, and a block of a shared schema may be given back by another thread. */

typedef struct {
  /* Not 0 if there is memory. */
  uint8_t ok;
  uint8_t *block;
} graphql_memory;

/* So many bytes, aligned to `alignment`, which is 16 at most. For 0 bytes it asks for `alignment` bytes. */
graphql_memory rattle_alloc(size_t size, size_t alignment);

/* Makes the block one of `size` bytes, and keeps the first `kept`. It may move. If refused, it is as it was. */
graphql_memory rattle_realloc(uint8_t *block, size_t kept, size_t size, size_t alignment);

/* Gives a block back. */
void rattle_dealloc(uint8_t *block);

#ifdef __cplusplus
}
#endif

#endif
