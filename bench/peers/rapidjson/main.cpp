// Does the work that its first argument names over the standard input, as often as the second says, and prints the shortest time in
// nanoseconds of the thread's processor time, how many events or values there were, and the sum of what they hold. The encoding is checked, as
// this library checks it, and RapidJSON's kernels for the processor are on.
#if defined(__SSE4_2__)
#define RAPIDJSON_SSE42
#elif defined(__SSE2__)
#define RAPIDJSON_SSE2
#endif
#include <rapidjson/document.h>
#include <rapidjson/encodedstream.h>
#include <rapidjson/memorystream.h>
#include <rapidjson/reader.h>
#include <rapidjson/stringbuffer.h>
#include <rapidjson/writer.h>
#include <time.h>

#include <algorithm>
#include <cstdint>
#include <cstdio>
#include <cstdlib>
#include <iostream>
#include <iterator>
#include <string>

using namespace rapidjson;

constexpr unsigned FLAGS = kParseValidateEncodingFlag;

// How many events were seen, and the sum of the whole numbers and of the texts' lengths in bytes.
struct Seen {
    uint64_t count = 0;
    uint64_t sum = 0;

    bool add(uint64_t weight) {
        count += 1;
        sum += weight;
        return true;
    }
};

// Counts the events that a reader tells.
struct Counter : BaseReaderHandler<UTF8<>, Counter> {
    Seen seen;

    bool Null() { return seen.add(0); }
    bool Bool(bool value) { return seen.add(value); }
    bool Int(int value) { return seen.add(uint64_t(int64_t(value))); }
    bool Uint(unsigned value) { return seen.add(value); }
    bool Int64(int64_t value) { return seen.add(uint64_t(value)); }
    bool Uint64(uint64_t value) { return seen.add(value); }
    bool Double(double value) {
        asm volatile("" : : "g"(value) : "memory");
        return seen.add(0);
    }
    bool String(const char *, SizeType length, bool) { return seen.add(length); }
    bool Key(const char *, SizeType length, bool) { return seen.add(length); }
    bool StartObject() { return seen.add(0); }
    bool EndObject(SizeType) { return seen.add(0); }
    bool StartArray() { return seen.add(0); }
    bool EndArray(SizeType) { return seen.add(0); }
};

[[noreturn]] static void refuse(const char *why) {
    std::fprintf(stderr, "rapidjson: %s\n", why);
    std::exit(1);
}

static Seen sax(const std::string &input) {
    MemoryStream bytes(input.data(), input.size());
    EncodedInputStream<UTF8<>, MemoryStream> stream(bytes);
    Counter counter;
    Reader reader;
    if (!reader.Parse<FLAGS>(stream, counter)) refuse("the input is refused");
    return counter.seen;
}

static void read(Document &document, const std::string &input) {
    document.Parse<FLAGS>(input.data(), input.size());
    if (document.HasParseError()) refuse("the input is refused");
}

// Reads a document and drops it.
static Seen dom(const std::string &input) {
    Document document;
    read(document, input);
    return {1, 0};
}

static Seen write(const Document &document) {
    StringBuffer text;
    Writer<StringBuffer> writer(text);
    document.Accept(writer);
    return {1, text.GetSize()};
}

// The processor time of this thread in nanoseconds.
static uint64_t now() {
    timespec time;
    clock_gettime(CLOCK_THREAD_CPUTIME_ID, &time);
    return uint64_t(time.tv_sec) * 1000000000 + uint64_t(time.tv_nsec);
}

template <typename Work> static void best(uint64_t rounds, Work work) {
    uint64_t least = UINT64_MAX;
    Seen seen;
    for (uint64_t round = 0; round < rounds; round++) {
        uint64_t start = now();
        seen = work();
        least = std::min(least, now() - start);
    }
    std::printf("%llu %llu %llu\n", (unsigned long long)least, (unsigned long long)seen.count, (unsigned long long)seen.sum);
}

int main(int count, char **arguments) {
    if (count < 3) return 2;
    std::string work = arguments[1];
    uint64_t rounds = std::strtoull(arguments[2], nullptr, 10);
    std::string input((std::istreambuf_iterator<char>(std::cin)), std::istreambuf_iterator<char>());
    if (work == "sax") {
        best(rounds, [&] { return sax(input); });
    } else if (work == "dom") {
        best(rounds, [&] { return dom(input); });
    } else if (work == "write") {
        Document document;
        read(document, input);
        best(rounds, [&] { return write(document); });
    } else {
        return 2;
    }
}
