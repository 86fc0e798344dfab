/* Makes calls on a thread with so little stack: stack_of_call KILOBYTES DEPTH SCHEMA DOCUMENT. It ends with status 0 if the calls
   answer; a stack that is too small ends the process by a signal. */

#include "graphql_validation.h"

#include <pthread.h>
#include <stdio.h>
#include <stdlib.h>

enum { ROOM = 1 << 20 };

static uint8_t texts[2][ROOM], out[ROOM];
static size_t lengths[2];
static graphql_options options = GRAPHQL_DEFAULT_OPTIONS;

static void read_file(int which, const char *path) {
  FILE *file = fopen(path, "rb");
  if (!file)
    exit(2);
  lengths[which] = fread(texts[which], 1, ROOM, file);
  fclose(file);
}

static void *calls(void *unused) {
  graphql_schema schema = {0};
  graphql_file file = {(const uint8_t *)"", 0, texts[0], lengths[0]};
  graphql_outcome outcome = graphql_schema_read(&file, 1, &options, &schema, out, ROOM);
  if (outcome.status == GRAPHQL_ACCEPTED)
    outcome = graphql_schema_validate(&schema, texts[1], lengths[1], &options, out, ROOM);
  graphql_schema_free(&schema);
  if (outcome.status > GRAPHQL_REPORTED)
    exit(3);
  return unused;
}

int main(int count, char **words) {
  pthread_attr_t attributes;
  pthread_t thread;
  if (count != 5)
    return 2;
  options.depth = (size_t)atol(words[2]);
  read_file(0, words[3]);
  read_file(1, words[4]);
  pthread_attr_init(&attributes);
  if (pthread_attr_setstacksize(&attributes, (size_t)atol(words[1]) * 1024) != 0 || pthread_create(&thread, &attributes, calls, NULL) != 0)
    return 2;
  return pthread_join(thread, NULL) != 0;
}
