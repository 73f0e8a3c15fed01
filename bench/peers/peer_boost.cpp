// Boost's lock-free queue, with all its nodes taken at the beginning.
#include "slots.hpp"
#include <boost/lockfree/queue.hpp>

int main(int count, char **words) {
    Options options = Options::read(count, words, {"--publishers", "--length", "--term", "--messages", "--rate"});
    with_slot(options.length, [&]<typename Held>(std::type_identity<Held>) {
        // Its places are numbers of 16 bits, and one node is the queue's own.
        boost::lockfree::queue<Held, boost::lockfree::fixed_sized<true>> queue(std::min(messages_ahead(options), 65'533u));
        play_queue<decltype(queue), Held>(options, "boost-lockfree", queue);
    });
}
