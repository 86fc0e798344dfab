/* Tests the calls on handles: test_schema SCHEMA VALID FAULTY CALLS THREADS.

   It defines the memory of the library, and counts its blocks. */

#include "graphql_validation.h"

#include <pthread.h>
#include <stdatomic.h>
#include <stdio.h>
#include <stdlib.h>
#include <string.h>

enum { ROOM = 1 << 16, FILLING = 0xA5, MOST_THREADS = 64 };

static atomic_long blocks;

graphql_memory rattle_alloc(size_t size, size_t alignment) {
  graphql_memory made = {1, malloc(size ? size : alignment)};
  made.ok = made.block != NULL;
  atomic_fetch_add(&blocks, made.ok);
  return made;
}

graphql_memory rattle_realloc(uint8_t *block, size_t kept, size_t size, size_t alignment) {
  (void)kept;
  graphql_memory made = {1, realloc(block, size ? size : alignment)};
  made.ok = made.block != NULL;
  return made;
}

void rattle_dealloc(uint8_t *block) {
  atomic_fetch_sub(&blocks, 1);
  free(block);
}

typedef struct {
  uint8_t bytes[ROOM];
  size_t length;
} text;

static text schema_text, valid, faulty;
static long calls;

#define want(holds)                                                                                                    \
  do {                                                                                                                 \
    if (!(holds)) {                                                                                                    \
      fprintf(stderr, "line %d: %s\n", __LINE__, #holds);                                                              \
      exit(1);                                                                                                         \
    }                                                                                                                  \
  } while (0)

static void read_file(text *into, const char *path) {
  FILE *file = fopen(path, "rb");
  want(file != NULL);
  into->length = fread(into->bytes, 1, ROOM, file);
  fclose(file);
}

static text text_of(const char *characters) {
  text made = {{0}, strlen(characters)};
  memcpy(made.bytes, characters, made.length);
  return made;
}

static graphql_file file_of(const char *name, const text *content) {
  graphql_file file = {(const uint8_t *)name, strlen(name), content->bytes, content->length};
  return file;
}

static graphql_outcome read_one(graphql_schema *schema, const text *content, uint8_t *out) {
  graphql_options options = GRAPHQL_DEFAULT_OPTIONS;
  graphql_file file = file_of("", content);
  return graphql_schema_read(&file, 1, &options, schema, out, ROOM);
}

static graphql_outcome validate_one(graphql_schema *schema, const text *document, uint8_t *out, size_t room) {
  graphql_options options = GRAPHQL_DEFAULT_OPTIONS;
  return graphql_schema_validate(schema, document->bytes, document->length, &options, out, room);
}

/* The answer of a handle is that of graphql_validate, and the rest of it can be had from each byte on. */
static void answers_are_those_of_validate(graphql_schema *schema, const text *document) {
  static uint8_t whole[ROOM], kept[ROOM], rest[ROOM];
  graphql_outcome once = graphql_validate(schema_text.bytes, schema_text.length, document->bytes, document->length, whole, ROOM);
  want(once.length <= ROOM);
  for (size_t room = 0; room <= once.length; room++) {
    graphql_outcome outcome = validate_one(schema, document, kept, room);
    want(memcmp(&outcome, &once, sizeof once) == 0);
    want(memcmp(kept, whole, room) == 0);
    memset(rest, FILLING, ROOM);
    want(graphql_schema_answer(schema, room, rest, ROOM) == once.length);
    want(memcmp(rest, whole + room, once.length - room) == 0);
    want(rest[once.length - room] == FILLING);
  }
  want(graphql_schema_answer(schema, SIZE_MAX, rest, ROOM) == once.length);
}

static void a_closed_handle_has_no_schema(void) {
  uint8_t out[8] = {FILLING};
  graphql_schema closed = {0};
  graphql_outcome outcome = validate_one(&closed, &valid, out, sizeof out);
  want(outcome.status == GRAPHQL_NO_SCHEMA && outcome.length == 0 && out[0] == FILLING);
  want(graphql_schema_answer(&closed, 0, out, sizeof out) == 0 && out[0] == FILLING);
  graphql_schema_free(&closed);
  want(closed.at == NULL && atomic_load(&blocks) == 0);
}

static void a_reported_schema_is_not_kept(void) {
  static uint8_t out[ROOM], once[ROOM];
  text wrong = text_of("type Query { a: Nope }");
  graphql_schema schema = {0};
  want(read_one(&schema, &schema_text, out).status == GRAPHQL_ACCEPTED);
  graphql_outcome outcome = read_one(&schema, &wrong, out);
  graphql_outcome whole = graphql_validate_schema(wrong.bytes, wrong.length, once, ROOM);
  want(outcome.status == GRAPHQL_REPORTED && outcome.reported == GRAPHQL_IN_SCHEMA);
  want(memcmp(&outcome, &whole, sizeof whole) == 0 && memcmp(out, once, whole.length) == 0);
  want(graphql_schema_answer(&schema, 0, out, ROOM) == whole.length && memcmp(out, once, whole.length) == 0);
  want(validate_one(&schema, &valid, out, ROOM).status == GRAPHQL_NO_SCHEMA);
  want(read_one(&schema, &schema_text, out).status == GRAPHQL_ACCEPTED);
  want(validate_one(&schema, &valid, out, ROOM).status == GRAPHQL_ACCEPTED);
  text bytes = text_of("type Query { a: Int } \xff");
  want(read_one(&schema, &bytes, out).status == GRAPHQL_NOT_UTF8 && schema.at == NULL);
  graphql_schema_free(&schema);
  want(atomic_load(&blocks) == 0);
}

static void refusals_leave_the_schema(void) {
  static uint8_t out[ROOM];
  graphql_schema schema = {0};
  graphql_options options = GRAPHQL_DEFAULT_OPTIONS;
  want(read_one(&schema, &schema_text, out).status == GRAPHQL_ACCEPTED);
  text bytes = text_of("{ \xff }");
  want(validate_one(&schema, &bytes, out, ROOM).status == GRAPHQL_NOT_UTF8);
  want(graphql_schema_answer(&schema, 0, out, ROOM) == 0);
  options.size--;
  want(graphql_schema_validate(&schema, valid.bytes, valid.length, &options, out, ROOM).status == GRAPHQL_BAD_ARGUMENTS);
  options.size += 9;
  want(graphql_schema_validate(&schema, valid.bytes, valid.length, &options, out, ROOM).status == GRAPHQL_ACCEPTED);
  answers_are_those_of_validate(&schema, &faulty);
  graphql_schema_free(&schema);
  want(atomic_load(&blocks) == 0);
}

static long errors_in(const uint8_t *out, size_t length) {
  long found = 0;
  for (size_t k = 0; k + 9 <= length; k++)
    found += memcmp(out + k, "\"message\"", 9) == 0;
  return found;
}

/* An answer with a bound has the first errors of the one without. */
static void options_are_bounds(void) {
  static uint8_t all[ROOM], some[ROOM];
  graphql_schema schema = {0};
  text content = text_of("type Query { a: Query b: Int }"), deep = text_of("{ a { a { a { b } } } }"), wrong = text_of("{ c d e }");
  want(read_one(&schema, &content, all).status == GRAPHQL_ACCEPTED);
  graphql_options options = GRAPHQL_DEFAULT_OPTIONS;
  want(validate_one(&schema, &deep, all, ROOM).status == GRAPHQL_ACCEPTED);
  options.depth = 3;
  want(graphql_schema_validate(&schema, deep.bytes, deep.length, &options, all, ROOM).status == GRAPHQL_REPORTED);
  options.depth = 4;
  want(graphql_schema_validate(&schema, deep.bytes, deep.length, &options, all, ROOM).status == GRAPHQL_ACCEPTED);
  options.tokens = 3;
  want(graphql_schema_validate(&schema, deep.bytes, deep.length, &options, all, ROOM).status == GRAPHQL_REPORTED);
  graphql_outcome whole = validate_one(&schema, &wrong, all, ROOM);
  want(errors_in(all, whole.length) == 3);
  for (size_t most = 1; most <= 4; most++) {
    graphql_options first = GRAPHQL_DEFAULT_OPTIONS;
    first.max_reports = most;
    graphql_outcome outcome = graphql_schema_validate(&schema, wrong.bytes, wrong.length, &first, some, ROOM);
    want(errors_in(some, outcome.length) == (most < 3 ? (long)most : 3));
    want(memcmp(some, all, outcome.length - 2) == 0 && memcmp(some + outcome.length - 2, "]}", 2) == 0);
  }
  graphql_schema_free(&schema);
  want(atomic_load(&blocks) == 0);
}

/* Several files are one schema, and a report names its file. */
static void reports_name_files(void) {
  static uint8_t out[ROOM];
  graphql_schema schema = {0};
  graphql_options options = GRAPHQL_DEFAULT_OPTIONS;
  text query = text_of("type Query { a: Int }"), more = text_of("extend type Query { b: Int }"), again = text_of("type Query { c: Int }");
  graphql_file files[] = {file_of("query.graphql", &query), file_of("more.graphql", &more), file_of("again.graphql", &again)};
  want(graphql_schema_read(files, 2, &options, &schema, out, ROOM).status == GRAPHQL_ACCEPTED);
  text both = text_of("{ a b }");
  want(validate_one(&schema, &both, out, ROOM).status == GRAPHQL_ACCEPTED);
  graphql_outcome outcome = graphql_schema_read(files, 3, &options, &schema, out, ROOM - 1);
  out[outcome.length] = 0;
  want(outcome.status == GRAPHQL_REPORTED && strstr((char *)out, "\"file\":\"again.graphql\"") != NULL);
  graphql_schema_free(&schema);
  want(atomic_load(&blocks) == 0);
}

/* After many calls on a handle it has as many blocks as after one. */
static void calls_do_not_grow(void) {
  static uint8_t out[ROOM];
  graphql_schema schema = {0};
  want(read_one(&schema, &schema_text, out).status == GRAPHQL_ACCEPTED);
  static text short_document;
  short_document = text_of("{ __typename }");
  validate_one(&schema, &short_document, out, ROOM);
  long before = atomic_load(&blocks);
  for (long k = 0; k < calls; k++) {
    validate_one(&schema, &short_document, out, ROOM);
    want(atomic_load(&blocks) == before);
  }
  graphql_schema_free(&schema);
  want(atomic_load(&blocks) == 0);
}

/* Handles over one schema answer alike, and each keeps the schema as long as it wants. */
static void handles_share_a_schema(void) {
  static uint8_t out[ROOM];
  graphql_schema first = {0}, second = {0}, third = {0};
  want(graphql_schema_share(&first, &second) == GRAPHQL_NO_SCHEMA && second.at == NULL);
  want(read_one(&first, &schema_text, out).status == GRAPHQL_ACCEPTED);
  long before = atomic_load(&blocks);
  graphql_outcome outcome = validate_one(&first, &faulty, out, ROOM);
  want(graphql_schema_share(&first, &second) == GRAPHQL_ACCEPTED);
  want(graphql_schema_answer(&first, 0, out, ROOM) == outcome.length && graphql_schema_answer(&second, 0, out, ROOM) == 0);
  want(atomic_load(&blocks) <= before + 2);
  answers_are_those_of_validate(&second, &faulty);
  answers_are_those_of_validate(&first, &valid);
  want(graphql_schema_share(&second, &third) == GRAPHQL_ACCEPTED && graphql_schema_share(&first, &third) == GRAPHQL_ACCEPTED);
  graphql_schema_free(&first);
  want(graphql_schema_share(&first, &third) == GRAPHQL_NO_SCHEMA && third.at == NULL);
  graphql_schema_free(&first);
  answers_are_those_of_validate(&second, &faulty);
  graphql_schema_free(&second);
  want(atomic_load(&blocks) == 0);
}

/* A handle, and how many calls were made on handles that share its schema. The lock is held to share it alone. */
static graphql_schema root;
static pthread_mutex_t root_lock = PTHREAD_MUTEX_INITIALIZER;
static atomic_long answered;

static void answers_in_turn(graphql_schema *schema, uint8_t *out) {
  for (int k = 0; k < 100; k++) {
    want(validate_one(schema, &valid, out, ROOM).status == GRAPHQL_ACCEPTED);
    want(validate_one(schema, &faulty, out, ROOM).status == GRAPHQL_REPORTED);
    atomic_fetch_add(&answered, 2);
  }
}

/* With a handle that was made for it, with others that it shares itself, and with a schema of its own. */
static void *thread_with_handles(void *given) {
  uint8_t *out = malloc(ROOM);
  want(out != NULL);
  answers_in_turn(given, out);
  graphql_schema_free(given);
  for (int round = 0; round < 3; round++) {
    graphql_schema shared = {0}, own = {0};
    pthread_mutex_lock(&root_lock);
    want(graphql_schema_share(&root, &shared) == GRAPHQL_ACCEPTED);
    pthread_mutex_unlock(&root_lock);
    answers_in_turn(&shared, out);
    want(read_one(&own, &schema_text, out).status == GRAPHQL_ACCEPTED);
    answers_in_turn(&own, out);
    graphql_schema_free(&own);
    graphql_schema_free(&shared);
  }
  free(out);
  return NULL;
}

static void *thread_with_a_handle(void *given) {
  uint8_t *out = malloc(ROOM);
  want(out != NULL);
  answers_in_turn(given, out);
  graphql_schema_free(given);
  free(out);
  return NULL;
}

static void threads_share_a_schema(int threads) {
  static uint8_t out[ROOM];
  pthread_t made[MOST_THREADS];
  graphql_schema given[MOST_THREADS] = {{0}};
  want(threads <= MOST_THREADS);
  want(read_one(&root, &schema_text, out).status == GRAPHQL_ACCEPTED);
  for (int k = 0; k < threads; k++)
    want(graphql_schema_share(&root, &given[k]) == GRAPHQL_ACCEPTED);
  for (int k = 0; k < threads; k++)
    want(pthread_create(&made[k], NULL, thread_with_handles, &given[k]) == 0);
  for (int k = 0; k < threads; k++)
    want(pthread_join(made[k], NULL) == 0);
  want(atomic_load(&answered) == 1400L * threads);
  graphql_schema_free(&root);
  want(atomic_load(&blocks) == 0);
}

/* The first handle is freed, and threads use the schema until the last of them frees it. */
static void threads_keep_a_schema(int threads) {
  static uint8_t out[ROOM];
  pthread_t made[MOST_THREADS];
  graphql_schema given[MOST_THREADS] = {{0}}, first = {0};
  want(read_one(&first, &schema_text, out).status == GRAPHQL_ACCEPTED);
  for (int k = 0; k < threads; k++)
    want(graphql_schema_share(k ? &given[k - 1] : &first, &given[k]) == GRAPHQL_ACCEPTED);
  for (int k = 0; k < threads; k++)
    want(pthread_create(&made[k], NULL, thread_with_a_handle, &given[k]) == 0);
  graphql_schema_free(&first);
  for (int k = 0; k < threads; k++)
    want(pthread_join(made[k], NULL) == 0);
  want(atomic_load(&blocks) == 0);
}

int main(int count, char **words) {
  want(count == 6);
  read_file(&schema_text, words[1]);
  read_file(&valid, words[2]);
  read_file(&faulty, words[3]);
  calls = atol(words[4]);
  a_closed_handle_has_no_schema();
  a_reported_schema_is_not_kept();
  refusals_leave_the_schema();
  options_are_bounds();
  reports_name_files();
  calls_do_not_grow();
  handles_share_a_schema();
  threads_share_a_schema(atoi(words[5]));
  threads_keep_a_schema(atoi(words[5]));
  printf("handles: each answer is that of graphql_validate; %ld calls on one handle keep no more memory; %s threads share a schema\n", calls, words[5]);
  return 0;
}
