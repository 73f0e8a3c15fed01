// Inserts frames into an image and reads each at once, and prints the time for each frame.
#include "image.hpp"
#include <array>
#include <chrono>
#include <cstdio>
#include <cstdlib>

using Clock = std::chrono::steady_clock;

constexpr std::int32_t ID = 7;
constexpr std::uint32_t TERM = 65'536;

struct Figures {
    std::uint64_t sum = 0, stored = 0;
};

// Gives an image that begins at 0 so many data frames of this length, and reads each at once.
Figures run(std::uint32_t length, std::uint64_t frames) {
    Image image({TERM, 1408, ID}, 0, 1);
    Image::Inserter inserter(image, TERM / 2);
    Image::Reader reader(image, 0);
    Figures figures;
    std::array<std::uint8_t, 1408> data, block{};
    data.fill(97);
    DataHeader header{{static_cast<std::int32_t>(length), 0, UNFRAGMENTED, Kind::Data}, 0, 7, 1001, ID, 0};
    std::memcpy(data.data(), &header, sizeof header);
    auto pass = [&](std::uint64_t position, const std::uint8_t *frame) {
        if (inserter.insert(static_cast<std::int64_t>(position), frame) == Insert::Stored) figures.stored++;
        if (auto front = reader.read(block.data())) {
            figures.sum += front->length + block[5];
            reader.advance(*front);
        }
    };
    std::uint64_t covered = align32(length), position = 0;
    for (std::uint64_t index = 0; index < frames; index++) {
        std::uint64_t rest = TERM - position % TERM;
        if (rest < covered) {
            DataHeader padding{{static_cast<std::int32_t>(rest), 0, UNFRAGMENTED, Kind::Pad}, 0, 7, 1001, ID, 0};
            pass(position, bytes_of(padding).data());
            position += rest;
        }
        pass(position, data.data());
        position += covered;
    }
    return figures;
}

int main(int count, char **words) {
    std::uint64_t frames = count > 1 ? std::strtoull(words[1], nullptr, 10) : 200'000;
    for (std::uint32_t length : {1'408u, 200u}) {
        auto began = Clock::now();
        Figures figures = run(length, frames);
        std::uint64_t nanos = std::chrono::nanoseconds(Clock::now() - began).count();
        std::printf("image %u %llu %llu %llu\n", length, static_cast<unsigned long long>(nanos * 10 / frames),
                    static_cast<unsigned long long>(figures.sum), static_cast<unsigned long long>(figures.stored));
    }
}
