// The subscriber of a stream: reads an image as one of its consumers, and joins frames to messages.
#pragma once
#include "assembler.hpp"
#include "image.hpp"

class Subscriber {
    Image::Reader reader;
    Assembler assembler;
    std::vector<std::uint8_t> block; // has room for each frame's payload

  public:
    Subscriber(Image &image, std::size_t number)
        : reader(image, number), assembler(image.shape().max_message()), block(GREATEST_DATA - HEADER) {}

    // Reads on until a message is whole, which is handed over, or no frame is left. Whether there was a message.
    template <typename Handle> bool poll(Handle handle) {
        while (auto front = reader.read(block.data())) {
            std::optional<Bytes> message;
            if (front->kind == Kind::Data) message = assembler.on_frame(front->flags, {block.data(), front->length - HEADER});
            if (message) handle(*message);
            reader.advance(*front);
            if (message) return true;
        }
        return false;
    }
};
