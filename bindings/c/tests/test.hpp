// What the tests in C++ share.
#pragma once
#include "zerotrie.hpp"

#include <cstdio>
#include <cstdlib>
#include <map>
#include <random>
// clang before 16 can't read the ranges of libstdc++
#if __cplusplus >= 202002L && (!defined(__clang__) || __clang_major__ >= 16)
#define HAS_RANGES
#include <ranges>
#endif

#define CHECK(what) do { if (!(what)) { std::fprintf(stderr, "%s:%d: %s\n", __FILE__, __LINE__, #what); std::exit(1); } } while (0)

using namespace std::literals;
using zerotrie::Kind;
using Map = std::map<std::string, size_t>;
constexpr Kind kinds[] = {Kind::SimpleAscii, Kind::PerfectHash, Kind::ExtendedCapacity, Kind::IgnoreCase};

// Each test, in its order: test_NAME of a file test_*.cpp
#define TESTS(X) \
    X(combinations) X(changes) X(view) X(builds) X(causes) X(owner) X(saves) X(rooms) X(keys_that_go) \
    X(bytes_that_stay) X(dense) X(against_a_map) X(against_a_scan) X(malformed_searches) X(parts) X(sealed_files) \
    X(indexes) X(files_of_indexes)
#define DECLARED(name) void test_##name();
TESTS(DECLARED)
#undef DECLARED

// How many calls are compared with a std::map, and how many rounds of searches with a scan.
struct Amounts {
    size_t calls = 1000000, rounds = 400;
};
extern Amounts amounts;
// Random numbers, which each test begins anew.
size_t below(size_t n);
size_t random_value();
// A key of some letters, which are ASCII or bytes from 160 on.
std::string key_of(bool ascii, size_t letters);

// What a call throws.
template <class Call> zerotrie::Error thrown(Call call) {
    try {
        call();
    } catch (const zerotrie::Error &error) {
        return error;
    }
    std::fprintf(stderr, "nothing was thrown\n");
    std::exit(1);
}
