// Counts the words of a text in four threads, and prints them in the order of the alphabet.
//
//     c++ -std=c++17 words.cpp $(pkg-config --cflags --libs clsm) -pthread -o words && ./words "some text"
//
// A key is a number. Here it has the letters of a word, the first one in its highest byte, so that
// numbers are in the order of words. Words are counted by their first eight letters.
#include <clsm.hpp>

#include <iostream>
#include <sstream>
#include <string>
#include <thread>
#include <vector>

namespace {

constexpr int threads = 4, letters = 8;

std::uint64_t key_of(const std::string &word) {
    std::uint64_t key = 0;
    for (std::size_t i = 0; i < letters; i++)
        key = key << 8 | (i < word.size() ? static_cast<unsigned char>(word[i]) : 0u);
    return key;
}

std::string word_of(std::uint64_t key) {
    std::string word;
    for (int shift = 56; shift >= 0 && (key >> shift & 0xFF) != 0; shift -= 8)
        word += static_cast<char>(key >> shift & 0xFF);
    return word;
}

// Counts every fourth word, with a caller of its own. No addition of another thread is lost.
void count_words(const clsm::store &store, const std::string &text, int own) {
    clsm::caller caller = store.caller();
    std::istringstream words(text);
    std::string word;
    for (int number = 0; words >> word; number++)
        if (number % threads == own) caller.add(key_of(word), 1);
}

} // namespace

int main(int argc, char **argv) {
    const std::string text =
        argc > 1 ? argv[1] : "the dog and the fox and the lazy cat saw the other dog on and off";
    try {
        const clsm::store store;
        std::vector<std::thread> counting;
        for (int own = 0; own < threads; own++)
            counting.emplace_back(count_words, std::cref(store), std::cref(text), own);
        for (std::thread &thread : counting) thread.join();
        const clsm::snapshot counts = store.snapshot(); // of one moment
        for (const auto &[key, count] : counts.range()) std::cout << word_of(key) << ' ' << count.front() << '\n';
    } catch (const clsm::error &error) {
        std::cerr << "words: " << error.what() << '\n';
        return 1;
    }
}
