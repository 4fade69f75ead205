// Does the work that its first argument names over the standard input, as often as the second says, and prints the shortest time in
// nanoseconds of the thread's processor time, how many events or values there were, and the sum of what they hold. The parser is kept from one
// round to the next, as simdjson's documents advise.
#include <simdjson.h>
#include <time.h>

#include <algorithm>
#include <cstdint>
#include <cstdio>
#include <cstdlib>
#include <iostream>
#include <iterator>
#include <string>

using namespace simdjson;

// How many events were seen, and the sum of the whole numbers and of the texts' lengths in bytes.
struct Seen {
    uint64_t count = 0;
    uint64_t sum = 0;

    void add(uint64_t weight) {
        count += 1;
        sum += weight;
    }
};

static void number(ondemand::number number, Seen &seen) {
    switch (number.get_number_type()) {
    case ondemand::number_type::signed_integer:
        seen.add(uint64_t(number.get_int64()));
        break;
    case ondemand::number_type::unsigned_integer:
        seen.add(number.get_uint64());
        break;
    default: {
        double value = number.get_double();
        asm volatile("" : : "g"(value) : "memory");
        seen.add(0);
    }
    }
}

// Passes a value and counts its events: each text is decoded and each number converted.
static void walk(ondemand::value value, Seen &seen) {
    switch (value.type()) {
    case ondemand::json_type::array:
        seen.add(0);
        for (ondemand::value item : value.get_array()) walk(item, seen);
        seen.add(0);
        break;
    case ondemand::json_type::object:
        seen.add(0);
        for (auto member : value.get_object()) {
            std::string_view key = member.unescaped_key();
            seen.add(key.size());
            walk(member.value(), seen);
        }
        seen.add(0);
        break;
    case ondemand::json_type::string: {
        std::string_view text = value.get_string();
        seen.add(text.size());
        break;
    }
    case ondemand::json_type::number:
        number(value.get_number(), seen);
        break;
    case ondemand::json_type::boolean:
        seen.add(bool(value.get_bool()));
        break;
    case ondemand::json_type::null:
        if (!value.is_null()) exit(1);
        seen.add(0);
        break;
    }
}

static Seen walk(ondemand::parser &parser, const padded_string &input) {
    Seen seen;
    ondemand::document document = parser.iterate(input);
    walk(document.get_value(), seen);
    return seen;
}

// Makes the tape of the whole document, which is simdjson's tree.
static Seen tape(dom::parser &parser, const padded_string &input) {
    dom::element root = parser.parse(input);
    Seen seen;
    seen.add(0);
    asm volatile("" : : "g"(&root) : "memory");
    return seen;
}

// Finds the status of each line.
static Seen lines(ondemand::parser &parser, const padded_string &input) {
    Seen seen;
    ondemand::document_stream stream = parser.iterate_many(input);
    for (ondemand::document_reference document : stream) seen.add(document["status"].get_uint64());
    return seen;
}

// The processor time of this thread in nanoseconds.
static uint64_t now() {
    timespec time;
    clock_gettime(CLOCK_THREAD_CPUTIME_ID, &time);
    return uint64_t(time.tv_sec) * 1000000000 + uint64_t(time.tv_nsec);
}

template <typename Work> static void best(unsigned long rounds, Work work) {
    uint64_t least = UINT64_MAX;
    Seen seen;
    for (unsigned long round = 0; round < rounds; round++) {
        uint64_t start = now();
        seen = work();
        least = std::min(least, now() - start);
    }
    printf("%llu %llu %llu\n", (unsigned long long)least, (unsigned long long)seen.count, (unsigned long long)seen.sum);
}

int main(int count, char **arguments) {
    std::string way = count > 1 ? arguments[1] : "";
    if (way == "kernel") {
        printf("%s %s\n", builtin_implementation()->name().c_str(), get_active_implementation()->name().c_str());
        return 0;
    }
    unsigned long rounds = count > 2 ? strtoul(arguments[2], nullptr, 10) : 1;
    std::string given((std::istreambuf_iterator<char>(std::cin)), std::istreambuf_iterator<char>());
    padded_string input(given);
    if (way == "walk") {
        ondemand::parser parser;
        best(rounds, [&] { return walk(parser, input); });
    } else if (way == "log") {
        ondemand::parser parser;
        best(rounds, [&] { return lines(parser, input); });
    } else if (way == "tape") {
        dom::parser parser;
        best(rounds, [&] { return tape(parser, input); });
    } else {
        return 2;
    }
}
