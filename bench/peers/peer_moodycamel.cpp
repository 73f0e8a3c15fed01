// moodycamel's concurrent queue, with all its blocks taken at the beginning.
#include "slots.hpp"
#include <concurrentqueue/concurrentqueue.h>

template <typename Held> struct Queue {
    moodycamel::ConcurrentQueue<Held> queue;
    moodycamel::ConsumerToken token{queue};

    explicit Queue(const Options &options) : queue(messages_ahead(options), 0, options.publishers) {}
    bool push(const Held &slot) { return queue.try_enqueue(slot); }
    bool pop(Held &slot) { return queue.try_dequeue(token, slot); }
};

int main(int count, char **words) {
    Options options = Options::read(count, words, {"--publishers", "--length", "--term", "--messages", "--rate"});
    with_slot(options.length, [&]<typename Held>(std::type_identity<Held>) {
        Queue<Held> queue(options);
        play_queue<Queue<Held>, Held>(options, "moodycamel", queue);
    });
}
