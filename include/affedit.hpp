/*
 * Affedit for C++17: a dictionary that closes itself, and exceptions in place of answers. affedit.h says what each function does, and what its callers
 * keep to: one call at a time has a dictionary, and threads that ask at once have one each, by share(). Nothing of this page is proved.
 *
 * A call that is out of memory throws std::bad_alloc. A call that throws leaves the dictionary as it was.
 */
#ifndef AFFEDIT_HPP
#define AFFEDIT_HPP

#include <affedit.h>
#include <cstddef>
#include <cstdint>
#include <new>
#include <stdexcept>
#include <string>
#include <string_view>
#include <utility>
#include <vector>

namespace affedit {

/* A call that failed, with the answer of the function of affedit.h. */
class error : public std::runtime_error {
public:
    error(std::uint32_t answer, const std::string &why) : std::runtime_error(why), answer_(answer) {}
    std::uint32_t answer() const noexcept { return answer_; }

private:
    std::uint32_t answer_;
};

/* Files with a fault: the first one. */
class fault_error : public error {
public:
    explicit fault_error(affedit_fault fault)
        : error(AFFEDIT_FAULTY, "file " + std::to_string(fault.file) + ", line " + std::to_string(fault.line) + ": " + sentence(fault)), fault_(fault) {}
    affedit_fault fault() const noexcept { return fault_; }

private:
    affedit_fault fault_;

    /* What affedit_cause says of a fault. */
    static std::string sentence(const affedit_fault &fault) {
        std::uint8_t none = 0;
        std::vector<std::uint8_t> bytes(affedit_cause(&fault, &none, 0));
        if (bytes.empty()) return "an unknown cause";
        affedit_cause(&fault, bytes.data(), bytes.size());
        return std::string(bytes.begin(), bytes.end());
    }
};

/* A dictionary with its personal words. It can be moved and not copied; one that was moved from is closed, and its calls throw AFFEDIT_CLOSED. */
class dictionary {
public:
    /* The dictionary that the bytes of an .aff file and of a .dic file are. */
    dictionary(std::string_view aff, std::string_view dic) {
        affedit_fault fault{};
        need(affedit_open(bytes(aff), aff.size(), bytes(dic), dic.size(), &handle_, &fault), fault);
    }

    dictionary(dictionary &&other) noexcept : handle_(std::exchange(other.handle_, affedit_dictionary AFFEDIT_CLOSED_HANDLE)) {}

    dictionary &operator=(dictionary &&other) noexcept {
        dictionary taken(std::move(other));
        std::swap(handle_, taken.handle_);
        return *this;
    }

    ~dictionary() { affedit_close(&handle_); }

    /* Another one over the same dictionary in memory, as for another thread. Its personal words are its own from then on. */
    dictionary share() {
        dictionary other;
        need(affedit_share(&handle_, &other.handle_));
        return other;
    }

    /* Whether the dictionary, with the personal words, generates a word. */
    bool knows(std::string_view word) {
        std::uint32_t answer = affedit_word(&handle_, bytes(word), word.size());
        if (answer != AFFEDIT_KNOWN && answer != AFFEDIT_UNKNOWN) need(answer);
        return answer == AFFEDIT_KNOWN;
    }

    /* The marks of a text, in their order, with places in AFFEDIT_BYTES, AFFEDIT_UTF16 or AFFEDIT_CHARACTERS. */
    std::vector<affedit_mark> marks(std::string_view text, std::uint32_t unit = AFFEDIT_BYTES) {
        std::vector<affedit_mark> found;
        std::size_t count = 64;
        do {
            found.resize(count);
            need(affedit_marks_in(&handle_, bytes(text), text.size(), unit, 0, found.data(), found.size(), &count));
        } while (count > found.size());
        found.resize(count);
        return found;
    }

    /* Adds the item of a line to the personal words. A blank line has none, and false is returned. */
    bool add(std::string_view line) {
        std::uint32_t answer = affedit_add(&handle_, bytes(line), line.size());
        if (answer != AFFEDIT_BLANK) need(answer);
        return answer == AFFEDIT_DONE;
    }

    /* Takes the personal words of a list in place of those that there are. */
    void set_list(std::string_view list) {
        affedit_fault fault{};
        need(affedit_list(&handle_, bytes(list), list.size(), &fault), fault);
    }

private:
    affedit_dictionary handle_ = AFFEDIT_CLOSED_HANDLE;

    dictionary() = default;

    /* The bytes of a text. An empty one may be at null, which no pointer of a call may be. */
    static const std::uint8_t *bytes(std::string_view text) { return reinterpret_cast<const std::uint8_t *>(text.empty() ? "" : text.data()); }

    /* Throws unless the answer is AFFEDIT_DONE. */
    static void need(std::uint32_t answer, affedit_fault fault = {}) {
        switch (answer) {
        case AFFEDIT_DONE: return;
        case AFFEDIT_FAULTY: throw fault_error(fault);
        case AFFEDIT_EMPTY_WORD: throw error(answer, "the line has no word");
        case AFFEDIT_TOO_MANY: throw error(answer, "there are too many personal words");
        case AFFEDIT_NOT_UTF8: throw error(answer, "the bytes are not UTF-8");
        case AFFEDIT_TOO_LONG: throw error(answer, "the text is too long");
        case AFFEDIT_CLOSED: throw error(answer, "the dictionary is closed");
        case AFFEDIT_BAD_UNIT: throw error(answer, "no unit of places has this number");
        default: throw std::bad_alloc();
        }
    }
};

/* The word of a text that a mark is of, by places in bytes. */
inline std::string_view word_at(std::string_view text, affedit_mark mark) { return text.substr(mark.from, mark.to - mark.from); }

}

#endif
