// Validation of GraphQL schemas and documents, for C++17, over the calls of graphql_validation.h.

#ifndef GRAPHQL_VALIDATION_HPP
#define GRAPHQL_VALIDATION_HPP

#include "graphql_validation.h"

#include <new>
#include <stdexcept>
#include <string>
#include <string_view>
#include <utility>
#include <vector>

namespace graphql_validation {

// What a call may take. 0 says the default, which graphql_validation.h states.
struct options {
  std::size_t depth = 0;
  std::size_t tokens = 0;
  std::size_t reach = 0;
  std::size_t work = 0;
  std::size_t max_reports = 0;
};

// A file of a schema. Reports do not name a file whose name is empty.
struct file {
  std::string_view name;
  std::string_view text;
};

struct answer {
  // Whether something is reported.
  bool reported;
  // A JSON object, {"errors":[..]}.
  std::string json;
};

// There is no answer: one of graphql_status says why.
class refused : public std::runtime_error {
 public:
  explicit refused(std::uint32_t status) : std::runtime_error("no answer of graphql_validation"), status(status) {}
  std::uint32_t status;
};

// Something is reported of a schema.
class schema_reported : public std::runtime_error {
 public:
  explicit schema_reported(std::string json) : std::runtime_error("the schema is reported"), json(std::move(json)) {}
  // A JSON object, {"errors":[..]}.
  std::string json;
};

// A schema that is read once. It may go to another thread, and takes one call at a time. share() gives each thread one of its
// own over the same schema, which is in memory once.
class schema {
 public:
  explicit schema(std::string_view text, const options &given = {}) : schema(std::vector<file>{{"", text}}, given) {}

  explicit schema(const std::vector<file> &files, const options &given = {}) {
    if (graphql_abi_version() != GRAPHQL_ABI_VERSION)
      throw std::runtime_error("another version of graphql_validation");
    std::vector<graphql_file> passed{graphql_file{bytes({}), 0, bytes({}), 0}};
    passed.pop_back();
    for (const file &it : files)
      passed.push_back({bytes(it.name), it.name.size(), bytes(it.text), it.text.size()});
    const graphql_options passed_options = of(given);
    std::uint8_t out[room];
    const graphql_outcome outcome = graphql_schema_read(passed.data(), passed.size(), &passed_options, &handle, out, room);
    try {
      answer whole = whole_answer(outcome, out);
      if (whole.reported)
        throw schema_reported(std::move(whole.json));
    } catch (...) {
      graphql_schema_free(&handle);
      throw;
    }
  }

  ~schema() { graphql_schema_free(&handle); }
  schema(schema &&other) noexcept : handle(std::exchange(other.handle, graphql_schema{nullptr})) {}
  schema &operator=(schema &&other) noexcept {
    std::swap(handle, other.handle);
    return *this;
  }
  schema(const schema &) = delete;
  schema &operator=(const schema &) = delete;

  // Another one over the same schema, for another thread.
  schema share() {
    schema other;
    check(graphql_schema_share(&handle, &other.handle));
    return other;
  }

  // What is reported of a document against this schema.
  answer validate(std::string_view document, const options &given = {}) {
    const graphql_options passed = of(given);
    std::uint8_t out[room];
    const graphql_outcome outcome = graphql_schema_validate(&handle, bytes(document), document.size(), &passed, out, room);
    return whole_answer(outcome, out);
  }

 private:
  schema() = default;

  static constexpr std::size_t room = 4096;
  graphql_schema handle{nullptr};

  static const std::uint8_t *bytes(std::string_view text) {
    return reinterpret_cast<const std::uint8_t *>(text.empty() ? "" : text.data());
  }

  static graphql_options of(const options &given) {
    return {sizeof(graphql_options), given.depth, given.tokens, given.reach, given.work, given.max_reports};
  }

  static void check(std::uint32_t status) {
    if (status == GRAPHQL_OUT_OF_MEMORY)
      throw std::bad_alloc();
    if (status > GRAPHQL_REPORTED)
      throw refused(status);
  }

  answer whole_answer(const graphql_outcome &outcome, const std::uint8_t *out) {
    check(outcome.status);
    const std::size_t written = outcome.length < room ? outcome.length : room;
    std::string json(reinterpret_cast<const char *>(out), written);
    json.resize(outcome.length);
    if (written < outcome.length)
      graphql_schema_answer(&handle, written, reinterpret_cast<std::uint8_t *>(&json[written]), outcome.length - written);
    return {outcome.status == GRAPHQL_REPORTED, std::move(json)};
  }
};

}  // namespace graphql_validation

#endif
