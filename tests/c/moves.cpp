/* Calls what affedit.hpp has, and says what differs from what is due. See tests/c_examples.sh. */
#include <affedit.hpp>
#include <iostream>
#include <type_traits>

static_assert(!std::is_copy_constructible_v<affedit::dictionary> && !std::is_copy_assignable_v<affedit::dictionary>);
static_assert(std::is_nothrow_move_constructible_v<affedit::dictionary> && std::is_nothrow_move_assignable_v<affedit::dictionary>);

static int failures;

static void want(bool holds, const char *what) {
    if (holds) return;
    std::cout << "it does not hold that " << what << '\n';
    failures++;
}

#define WANT(holds) want(holds, #holds)

/* The answer that a call throws; AFFEDIT_DONE if it throws none. */
template <typename Call> static std::uint32_t thrown(Call call) {
    try {
        call();
    } catch (const affedit::error &error) {
        return error.answer();
    }
    return AFFEDIT_DONE;
}

static const char AFF[] = "SET UTF-8\nSFX S Y 1\nSFX S 0 s .\n";

static void move_handles() {
    affedit::dictionary one(AFF, "1\ncat/S\n"), two(AFF, "1\nbird\n");
    affedit::dictionary taken(std::move(one));
    WANT(taken.knows("cats"));
    WANT(thrown([&] { one.knows("cats"); }) == AFFEDIT_CLOSED);
    two = std::move(taken);
    WANT(two.knows("cats") && !two.knows("bird"));
    WANT(thrown([&] { taken.share(); }) == AFFEDIT_CLOSED);
    affedit::dictionary &same = two;
    two = std::move(same);
    WANT(two.knows("cats"));
    affedit::dictionary other = two.share();
    other.add("dog/cat");
    WANT(other.knows("dogs") && !two.knows("dogs"));
}

static void call_all() {
    affedit::dictionary one(AFF, "1\ncat/S\n");
    WANT(one.knows(std::string_view()) && one.marks(std::string_view()).empty());
    WANT(one.add("dog") && !one.add(" ") && !one.add(std::string_view()));
    WANT(thrown([&] { one.add("*"); }) == AFFEDIT_EMPTY_WORD);
    WANT(thrown([&] { one.knows("\xff"); }) == AFFEDIT_NOT_UTF8);
    one.set_list("bird\n");
    WANT(one.knows("bird") && !one.knows("dog"));
    WANT(thrown([&] { one.set_list("a\nb/\n"); }) == AFFEDIT_FAULTY);
    WANT(one.knows("bird"));
    one.set_list({});
    WANT(!one.knows("bird"));
    /* More marks than one call has room for at first. */
    std::string text;
    for (int i = 0; i < 1000; i++) text += i % 2 ? "cat " : "x ";
    std::vector<affedit_mark> marks = one.marks(text);
    WANT(marks.size() == 500 && marks.back().from == 499 * 6);
    WANT(affedit::word_at("a word", {2, 6}) == "word");
    try {
        affedit::dictionary none(AFF, "1\ncat\n\xff\n");
        WANT(false);
    } catch (const affedit::fault_error &error) {
        WANT(error.fault().file == AFFEDIT_DIC_FILE && error.fault().line == 3 && error.fault().cause == AFFEDIT_DIC_NOT_UTF8);
        WANT(std::string(error.what()) == "file 2, line 3: the line is not UTF-8");
    }
}

int main() {
    move_handles();
    call_all();
    return failures != 0;
}
