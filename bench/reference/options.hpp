// The options of a program that measures, and the columns of the row that it prints.
#pragma once
#include <charconv>
#include <cstdint>
#include <cstdio>
#include <cstdlib>
#include <initializer_list>
#include <string_view>
#include <system_error>

constexpr const char *COLUMNS =
    "program,publishers,length,term,mtu,loss,rate,messages,seconds,per_second,p50,p90,p99,p999,greatest";

// A message begins with its stamp.
constexpr std::uint32_t LEAST_LENGTH = 16;

[[noreturn]] inline void refuse(std::string_view what, std::string_view word) {
    std::fprintf(stderr, "error: %.*s: %.*s\n", static_cast<int>(what.size()), what.data(), static_cast<int>(word.size()),
                 word.data());
    std::exit(2);
}

struct Options {
    std::uint32_t publishers = 1;
    std::uint32_t length = 200;
    std::uint32_t term = 65'536;
    std::uint32_t mtu = 1'408;
    std::uint32_t loss = 0;       // datagrams of a thousand
    std::uint32_t seed = 1;       // by which these are drawn
    std::uint64_t rate = 0;       // messages a second, in all; 0 is full load
    std::uint64_t messages = 100'000; // in all
    std::string_view transport;

    std::uint64_t share() const { return messages / publishers; }
    std::uint64_t wanted() const { return share() * publishers; }

    // Reads the options that a program takes. A header that is asked for is printed, and ends the program.
    static Options read(int count, char **words, std::initializer_list<std::string_view> taken) {
        Options options;
        for (int i = 1; i < count; i++) {
            std::string_view word = words[i];
            if (word == "--header") {
                std::puts(COLUMNS);
                std::exit(0);
            }
            bool is_taken = false;
            for (std::string_view name : taken) is_taken |= word == name;
            if (!is_taken || i + 1 == count) refuse("no such option, or no value", word);
            options.set(word, words[++i]);
        }
        if (options.publishers == 0 || options.messages < options.publishers) refuse("too few", "publishers or messages");
        if (options.length < LEAST_LENGTH) refuse("too short", "--length");
        return options;
    }

  private:
    template <typename Number> static void parse(std::string_view text, Number &into) {
        auto [end, error] = std::from_chars(text.begin(), text.end(), into);
        if (error != std::errc{} || end != text.end()) refuse("no such number", text);
    }

    void set(std::string_view name, std::string_view value) {
        if (name == "--publishers") parse(value, publishers);
        else if (name == "--length") parse(value, length);
        else if (name == "--term") parse(value, term);
        else if (name == "--mtu") parse(value, mtu);
        else if (name == "--loss") parse(value, loss);
        else if (name == "--seed") parse(value, seed);
        else if (name == "--rate") parse(value, rate);
        else if (name == "--messages") parse(value, messages);
        else transport = value;
    }
};
