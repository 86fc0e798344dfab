/* Defines the memory of the library, and refuses its requests: refuse_each_call SCHEMA VALID FAULTY.

   Each call is made once with all memory; then, for each of its requests, once with that one refused, and once with that
   and all further ones refused. It has to end with status 3, and `out` as it was, or with the same answer; and all that it
   was given has to be given back.

   Three calls are made on handles. Without memory graphql_schema_read closes its handle, graphql_schema_validate leaves the
   schema as it was, and graphql_schema_share does so too and closes the other handle. */

#include "graphql_validation.h"

#include <stdio.h>
#include <stdlib.h>
#include <string.h>

enum { ROOM = 1 << 16, FILLING = 0xA5 };

static long requests, blocks, refused_from, refused_to;

static int is_refused(void) {
  requests++;
  return refused_from <= requests && requests <= refused_to;
}

graphql_memory rattle_alloc(size_t size, size_t alignment) {
  graphql_memory none = {0, (uint8_t *)alignment};
  if (is_refused())
    return none;
  graphql_memory made = {1, malloc(size ? size : alignment)};
  if (!made.block)
    return none;
  blocks++;
  return made;
}

graphql_memory rattle_realloc(uint8_t *block, size_t kept, size_t size, size_t alignment) {
  (void)kept;
  graphql_memory none = {0, (uint8_t *)alignment};
  if (is_refused())
    return none;
  graphql_memory made = {1, realloc(block, size ? size : alignment)};
  return made.block ? made : none;
}

void rattle_dealloc(uint8_t *block) {
  blocks--;
  free(block);
}

typedef struct {
  uint8_t bytes[ROOM];
  size_t length;
} text;

static text schema, valid, faulty, both;
static size_t ends[2];

static void stop(const char *why) {
  fprintf(stderr, "request %ld, refused %ld to %ld: %s\n", requests, refused_from, refused_to, why);
  exit(1);
}

static void read_file(text *into, const char *path) {
  FILE *file = fopen(path, "rb");
  if (!file)
    stop(path);
  into->length = fread(into->bytes, 1, ROOM, file);
  fclose(file);
}

enum { READ_ACCEPTED = 6, READ_REPORTED = 7, VALIDATE_KEPT = 8, SHARE = 9 };

static graphql_schema handle, other;

static const graphql_options options = GRAPHQL_DEFAULT_OPTIONS;

static graphql_outcome read_schema(const text *content, uint8_t *out) {
  graphql_file file = {(const uint8_t *)"schema.graphql", 14, content->bytes, content->length};
  return graphql_schema_read(&file, 1, &options, &handle, out, ROOM);
}

static graphql_outcome validate_kept(graphql_schema *kept, uint8_t *out) {
  return graphql_schema_validate(kept, faulty.bytes, faulty.length, &options, out, ROOM);
}

static graphql_outcome share(void) {
  graphql_outcome outcome = {graphql_schema_share(&handle, &other), GRAPHQL_NOWHERE, 0};
  return outcome;
}

static graphql_outcome call(int which, uint8_t *out) {
  switch (which) {
  case 0:
    return graphql_validate(schema.bytes, schema.length, valid.bytes, valid.length, out, ROOM);
  case 1:
    return graphql_validate(schema.bytes, schema.length, faulty.bytes, faulty.length, out, ROOM);
  case 2:
    return graphql_validate(faulty.bytes, faulty.length, valid.bytes, valid.length, out, ROOM);
  case 3:
    return graphql_validate_schema(schema.bytes, schema.length, out, ROOM);
  case 4:
    return graphql_validate_schema(valid.bytes, valid.length, out, ROOM);
  case 5:
    return graphql_validate_all(schema.bytes, schema.length, both.bytes, both.length, ends, 2, out, ROOM);
  case READ_ACCEPTED:
    return read_schema(&schema, out);
  case READ_REPORTED:
    return read_schema(&valid, out);
  case VALIDATE_KEPT:
    return validate_kept(&handle, out);
  default:
    return share();
  }
}

/* The status that each call has with all memory. */
static const uint32_t statuses[] = {0, 1, 1, 0, 1, 1, 0, 1, 1, 0};

static uint8_t wanted[ROOM], got[ROOM], untouched[ROOM];

/* Makes the handle as a call wants it. Which blocks the call may leave. */
static long begin(int which) {
  graphql_schema_free(&handle);
  graphql_schema_free(&other);
  if (blocks != 0)
    stop("a handle that is freed keeps memory");
  refused_from = refused_to = 0;
  if (which >= VALIDATE_KEPT && read_schema(&schema, got).status != GRAPHQL_ACCEPTED)
    stop("no schema is kept");
  if (which == SHARE && share().status != GRAPHQL_ACCEPTED)
    stop("no schema is shared");
  requests = 0;
  return blocks;
}

/* A handle that keeps the schema answers as one that read it. */
static void check_schema(graphql_schema *kept) {
  static uint8_t once[ROOM];
  graphql_outcome whole = graphql_validate(schema.bytes, schema.length, faulty.bytes, faulty.length, once, ROOM);
  graphql_outcome outcome = validate_kept(kept, got);
  if (outcome.status != GRAPHQL_REPORTED || memcmp(&outcome, &whole, sizeof whole) != 0 || memcmp(got, once, whole.length) != 0)
    stop("another schema is kept");
}

/* The handles, after a call with status 3. */
static void check_handles(int which) {
  refused_from = refused_to = 0;
  if (which == READ_ACCEPTED || which == READ_REPORTED) {
    if (handle.at != NULL)
      stop("something is kept without memory");
  } else if (which == VALIDATE_KEPT) {
    if (graphql_schema_answer(&handle, 0, got, ROOM) != 0)
      stop("an answer is kept without memory");
    check_schema(&handle);
  } else if (which == SHARE) {
    if (other.at != NULL)
      stop("something is shared without memory");
    if (graphql_schema_answer(&handle, 0, got, ROOM) == 0)
      stop("an answer is lost");
    if (share().status != GRAPHQL_ACCEPTED)
      stop("no schema is shared");
    check_schema(&handle);
    check_schema(&other);
  }
}

/* Makes a call with these requests refused. Whether it ended with status 3. */
static int ends_well(int which, graphql_outcome whole, long from, long to) {
  long before = begin(which);
  refused_from = from;
  refused_to = to;
  memset(got, FILLING, ROOM);
  graphql_outcome outcome = call(which, got);
  if (outcome.status == GRAPHQL_OUT_OF_MEMORY) {
    if (blocks > before)
      stop("memory is not given back");
    if (outcome.length != 0 || outcome.reported != 0 || memcmp(got, untouched, ROOM) != 0)
      stop("something is answered without memory");
    check_handles(which);
    return 1;
  }
  if (which < READ_ACCEPTED && blocks != 0)
    stop("memory is not given back");
  if (memcmp(&outcome, &whole, sizeof whole) != 0 || memcmp(got, wanted, ROOM) != 0)
    stop("another answer");
  return 0;
}

int main(int count, char **words) {
  if (count != 4)
    stop("three files are needed");
  read_file(&schema, words[1]);
  read_file(&valid, words[2]);
  read_file(&faulty, words[3]);
  memcpy(both.bytes, valid.bytes, valid.length);
  memcpy(both.bytes + valid.length, faulty.bytes, faulty.length);
  both.length = valid.length + faulty.length;
  ends[0] = valid.length;
  ends[1] = both.length;
  memset(untouched, FILLING, ROOM);
  long refused = 0, ended = 0;
  for (int which = 0; which < (int)(sizeof statuses / sizeof *statuses); which++) {
    begin(which);
    memset(wanted, FILLING, ROOM);
    graphql_outcome whole = call(which, wanted);
    if (whole.status != statuses[which])
      stop("the call without refusals");
    long all = requests;
    for (long at = 1; at <= all; at++, refused += 2)
      ended += ends_well(which, whole, at, at) + ends_well(which, whole, at, all);
  }
  begin(0);
  if (refused == 0 || ended == 0)
    stop("nothing was refused");
  printf("%ld calls with refused memory: %ld ended with status 3, the others with the same answer\n", refused, ended);
  return 0;
}
