/* The addon: `read` makes a handle, and `validate` validates a document by it. Both give the status, what is reported, and the
   answer as JSON. index.js makes objects of these. */

#include "graphql_validation.h"

#include <node_api.h>
#include <stdlib.h>

enum { ROOM = 4096 };

/* Bytes of a JavaScript string. */
typedef struct {
  uint8_t *bytes;
  size_t length;
} text;

static napi_value fail(napi_env env, const char *why) {
  napi_throw_error(env, NULL, why);
  return NULL;
}

/* The text of a string. Without memory its bytes are null. */
static text text_of(napi_env env, napi_value value) {
  text made = {NULL, 0};
  if (napi_get_value_string_utf8(env, value, NULL, 0, &made.length) != napi_ok)
    return made;
  made.bytes = malloc(made.length + 1);
  if (made.bytes)
    napi_get_value_string_utf8(env, value, (char *)made.bytes, made.length + 1, NULL);
  return made;
}

static size_t number_of(napi_env env, napi_value object, const char *name) {
  napi_value value;
  int64_t number = 0;
  if (napi_get_named_property(env, object, name, &value) == napi_ok)
    napi_get_value_int64(env, value, &number);
  return number > 0 ? (size_t)number : 0;
}

static graphql_options options_of(napi_env env, napi_value object) {
  graphql_options options = {
      sizeof(graphql_options),
      number_of(env, object, "depth"),
      number_of(env, object, "tokens"),
      number_of(env, object, "reach"),
      number_of(env, object, "work"),
      number_of(env, object, "maxReports"),
  };
  return options;
}

static void set_number(napi_env env, napi_value object, const char *name, uint32_t number) {
  napi_value value;
  napi_create_uint32(env, number, &value);
  napi_set_named_property(env, object, name, value);
}

/* An object with the status, and if something is reported, what, and the whole answer, of which the beginning is in `out`. */
static napi_value answer_of(napi_env env, graphql_schema *schema, graphql_outcome outcome, const uint8_t *out) {
  napi_value object, json;
  uint8_t *whole = NULL;
  if (outcome.status == GRAPHQL_ACCEPTED) {
    napi_create_object(env, &object);
    set_number(env, object, "status", outcome.status);
    return object;
  }
  if (outcome.length > ROOM) {
    whole = malloc(outcome.length);
    if (!whole)
      return fail(env, "out of memory");
    graphql_schema_answer(schema, 0, whole, outcome.length);
  }
  napi_create_object(env, &object);
  set_number(env, object, "status", outcome.status);
  set_number(env, object, "reported", outcome.reported);
  if (napi_create_string_utf8(env, (const char *)(whole ? whole : out), outcome.length, &json) == napi_ok)
    napi_set_named_property(env, object, "json", json);
  free(whole);
  return object;
}

/* Node calls this on the thread of the environment that made the handle. */
static void free_handle(napi_env env, void *data, void *hint) {
  (void)env, (void)hint;
  graphql_schema_free(data);
  free(data);
}

static void free_files(graphql_file *files, uint32_t count) {
  for (uint32_t k = 0; k < count; k++) {
    free((uint8_t *)files[k].name);
    free((uint8_t *)files[k].text);
  }
  free(files);
}

/* Fills in files from an array of names and texts, in turn. Whether there was memory. */
static int fill_files(napi_env env, napi_value parts, graphql_file *files, uint32_t count) {
  for (uint32_t k = 0; k < count; k++) {
    napi_value name, content;
    napi_get_element(env, parts, 2 * k, &name);
    napi_get_element(env, parts, 2 * k + 1, &content);
    text name_text = text_of(env, name), content_text = text_of(env, content);
    graphql_file file = {name_text.bytes, name_text.length, content_text.bytes, content_text.length};
    files[k] = file;
    if (!file.name || !file.text)
      return 0;
  }
  return 1;
}

/* read(parts, options): an answer, with the handle as `handle`. */
static napi_value read_schema(napi_env env, napi_callback_info info) {
  napi_value given[2], external;
  size_t count = 2;
  uint32_t length = 0;
  uint8_t out[ROOM];
  if (napi_get_cb_info(env, info, &count, given, NULL, NULL) != napi_ok || napi_get_array_length(env, given[0], &length) != napi_ok)
    return fail(env, "names and texts are needed");
  graphql_options options = options_of(env, given[1]);
  graphql_file *files = calloc(length / 2 + 1, sizeof *files);
  graphql_schema *schema = calloc(1, sizeof *schema);
  if (!files || !schema || !fill_files(env, given[0], files, length / 2)) {
    if (files)
      free_files(files, length / 2);
    free(schema);
    return fail(env, "out of memory");
  }
  graphql_outcome outcome = graphql_schema_read(files, length / 2, &options, schema, out, ROOM);
  free_files(files, length / 2);
  napi_value answer = answer_of(env, schema, outcome, out);
  if (!answer || napi_create_external(env, schema, free_handle, NULL, &external) != napi_ok) {
    free_handle(env, schema, NULL);
    return answer ? fail(env, "no handle can be made") : NULL;
  }
  napi_set_named_property(env, answer, "handle", external);
  return answer;
}

/* validate(handle, document, options): an answer. */
static napi_value validate(napi_env env, napi_callback_info info) {
  napi_value given[3];
  size_t count = 3;
  void *schema;
  uint8_t out[ROOM];
  if (napi_get_cb_info(env, info, &count, given, NULL, NULL) != napi_ok || napi_get_value_external(env, given[0], &schema) != napi_ok)
    return fail(env, "a handle is needed");
  text document = text_of(env, given[1]);
  if (!document.bytes)
    return fail(env, "out of memory");
  graphql_options options = options_of(env, given[2]);
  graphql_outcome outcome = graphql_schema_validate(schema, document.bytes, document.length, &options, out, ROOM);
  free(document.bytes);
  return answer_of(env, schema, outcome, out);
}

static void add(napi_env env, napi_value exports, const char *name, napi_callback call) {
  napi_value function;
  napi_create_function(env, name, NAPI_AUTO_LENGTH, call, NULL, &function);
  napi_set_named_property(env, exports, name, function);
}

NAPI_MODULE_INIT() {
  if (graphql_abi_version() != GRAPHQL_ABI_VERSION)
    return fail(env, "another version of graphql_validation");
  add(env, exports, "read", read_schema);
  add(env, exports, "validate", validate);
  return exports;
}
