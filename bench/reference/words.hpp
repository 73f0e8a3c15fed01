// Words that threads share, in a table that begins on a cache line of its own. Every step on a word is sequentially consistent,
// but with WEAK_STORES the stores aren't: those of words that a later store publishes are relaxed, and that one releases them.
#pragma once
#include <atomic>
#include <cstdint>
#include <memory>
#include <new>

using Word = std::atomic<std::uint64_t>;
static_assert(sizeof(Word) == 8 && Word::is_always_lock_free);

#ifdef WEAK_STORES
constexpr bool HAS_WEAK_STORES = true;
constexpr auto FILLS = std::memory_order_relaxed, PUBLISHES = std::memory_order_release;
#else
constexpr bool HAS_WEAK_STORES = false;
constexpr auto FILLS = std::memory_order_seq_cst, PUBLISHES = std::memory_order_seq_cst;
#endif

// So many words are two cache lines.
constexpr std::size_t LINE = 16;

class Words {
    struct Free {
        void operator()(Word *words) const { ::operator delete[](words, std::align_val_t{8 * LINE}); }
    };
    std::unique_ptr<Word[], Free> words;

  public:
    explicit Words(std::size_t count) : words(new (std::align_val_t{8 * LINE}) Word[count]()) {}
    Word &operator[](std::size_t place) { return words[place]; }
};
