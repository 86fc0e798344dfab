// Tests the wrapper.

#include "graphql_validation.hpp"

#include <cstdio>
#include <cstdlib>
#include <thread>
#include <vector>

using graphql_validation::file;
using graphql_validation::options;
using graphql_validation::schema;

#define want(holds)                                                   \
  do {                                                                \
    if (!(holds)) {                                                   \
      std::fprintf(stderr, "line %d: %s\n", __LINE__, #holds);        \
      std::exit(1);                                                   \
    }                                                                 \
  } while (0)

static std::size_t errors_in(const std::string &json) {
  std::size_t found = 0;
  for (std::size_t at = json.find("\"message\""); at != std::string::npos; at = json.find("\"message\"", at + 1))
    found++;
  return found;
}

template <typename Raised, typename Call>
static bool raises(Call call) {
  try {
    call();
  } catch (const Raised &) {
    return true;
  }
  return false;
}

// Threads call at once, each by a schema of its own over one that is read once, and outlive it.
static void threads_share_a_schema() {
  std::vector<std::thread> threads;
  {
    schema first("type Query { a: Int }");
    for (int k = 0; k < 8; k++)
      threads.emplace_back([mine = first.share()]() mutable {
        for (int call = 0; call < 100; call++) {
          want(!mine.validate("{ a }").reported);
          want(errors_in(mine.validate("{ b }").json) == 1);
        }
      });
  }
  for (std::thread &thread : threads)
    thread.join();
}

int main() {
  threads_share_a_schema();
  schema first("type Query { a: Query b: Int }");
  want(!first.validate("{ a { b } }").reported);
  want(first.validate("").reported);
  want(errors_in(first.validate("{ c d e }").json) == 3);
  options two;
  two.max_reports = 2;
  want(errors_in(first.validate("{ c d e }", two).json) == 2);

  std::string fields = "{";
  for (int k = 0; k < 500; k++)
    fields += " a" + std::to_string(k);
  want(errors_in(first.validate(fields + " }").json) == 500);

  schema moved(std::move(first));
  want(!moved.validate("{ b }").reported);
  want(raises<graphql_validation::refused>([&] { first.validate("{ b }"); }));
  want(raises<graphql_validation::refused>([&] { first.share(); }));
  want(raises<graphql_validation::refused>([&] { moved.validate("{ \xff }"); }));
  moved = schema("type Query { other: Int }");
  want(!moved.validate("{ other }").reported);

  want(raises<graphql_validation::schema_reported>([] { schema wrong("type Query { a: Nope }"); }));
  try {
    schema twice({{"a.graphql", "type Query { a: Int }"}, {"b.graphql", "type Query { b: Int }"}});
    want(false);
  } catch (const graphql_validation::schema_reported &error) {
    want(error.json.find("\"file\":\"b.graphql\"") != std::string::npos);
  }
  return 0;
}
