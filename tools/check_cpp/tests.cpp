/*
 * Tests of what shamir.hpp has beside the answers of the library: its types, options and loops, and that it clears what it frees.
 * The values come from the published vectors and from other programs. tools/check_cpp runs it. It prints each difference.
 */
#include <array>
#include <climits>
#include <cstdio>
#include <cstdlib>
#include <cstring>
#include <malloc.h>
#include <new>

#include "shamir.hpp"

namespace {

constexpr shamir::Text secret_digits = "bb54aac4b89dc868ba37d9cc21b2cece", plan = "2/2of3,1of1,1of1", key = "TREZOR",
                       long_key = "a passphrase that no short string has room for";
constexpr shamir::Text lines[] = {
    "academic aluminum acrobat leaf buyer drink heat negative damage union purchase photo inmate training amazing yield bucket wrote mule "
    "cluster",
    "academic aluminum acrobat lily august piece column laser headset unusual blimp nuclear sweater criminal credit eyebrow trouble silent "
    "axis skin",
    "academic aluminum acrobat lungs dive behavior mobile ting perfect ultimate weapon join paper involve clinic acrobat jerky preach gross "
    "usual",
    "academic aluminum beard leader chest elite grant group club deploy increase divorce puny cylinder romp frequent crush ruler erode "
    "bucket",
    "academic aluminum ceramic leader cylinder decorate mobile devote echo finger program firm starting dwarf grumpy harvest enforce raisin "
    "sprinkle phantom",
};
/* The first vector, and another value of the first of these lines. */
constexpr shamir::Text alone = "duckling enlarge academic academic agency result length solution fridge kidney coal piece deal husband erode duke "
                               "ajar critical decision keyboard";
constexpr shamir::Text conflicting = "academic aluminum acrobat leaf civil drink heat negative damage union purchase photo inmate training amazing "
                                     "yield bucket lend glance junk";
constexpr shamir::Text extendable = "enemy favorite academic acid cowboy phrase havoc level response walnut budget painting inside trash adjust "
                                    "froth kitchen learn tidy punish\nenemy favorite academic always academic sniff script carpet romp kind "
                                    "promise scatter center unfair training emphasis evening belong fake enforce\n";
constexpr shamir::Text anew = "cleanup pecan academic academic broken exact editor public best party forecast darkness burning yelp window mama "
                              "warmth market laundry response\n";

int differences;

void expect(const char *what, bool is_right)
{
    if (!is_right) {
        std::printf("%s: another answer than is right\n", what);
        differences++;
    }
}

/* How many more blocks of memory the tests get, and the library as plain C. */
int blocks = INT_MAX, given = INT_MAX;

/* While this is set, memory that is freed is looked at. It counts the blocks with the beginning of the secret or of a mnemonic. */
bool looks;
int left;

std::array<std::uint8_t, 16> the_secret()
{
    std::array<std::uint8_t, 16> secret{};
    for (std::size_t i = 0; i < secret.size(); i++) {
        secret[i] = static_cast<std::uint8_t>(shamir::detail::number(secret_digits.substr(2 * i, 2), 16));
    }
    return secret;
}

const auto secret = the_secret();

bool holds(const char *block, std::size_t size, const void *what, std::size_t count)
{
    return memmem(block, size, what, count) != nullptr;
}

shamir::Mnemonics papers(std::initializer_list<int> which)
{
    shamir::Mnemonics held;
    for (const int one : which) {
        held.add(lines[one]);
    }
    return held;
}

void count_up(std::uint8_t *bytes, std::size_t count)
{
    for (std::size_t i = 0; i < count; i++) {
        bytes[i] = static_cast<std::uint8_t>(i);
    }
}

/* A line that is added may be one of the object, and isn't added in part. */
void check_lines()
{
    shamir::Mnemonics held = papers({0});
    held.add(held.lines()[0]);
    expect("a line that is there", shamir::Text(held) == shamir::Text(papers({0, 0})));
    shamir::Mnemonics one;
    for (int enough = 0; shamir::Text(one).empty(); enough++) {
        blocks = enough;
        try {
            one.add(lines[0]);
        } catch (const std::bad_alloc &) {
        }
        blocks = INT_MAX;
    }
    expect("a line that is added without memory", shamir::Text(one) == shamir::Text(papers({0})));
}

void check_creation()
{
    shamir::CreateOptions options;
    options.passphrase = key;
    const auto with_defaults = shamir::create("1of1", secret, options, count_up);
    const auto share = shamir::parse(with_defaults->lines()[0]);
    expect("the defaults of the reference implementation", share->exponent == 1 && share->extendable == 1);
    options.exponent = 0;
    options.extendable = false;
    const auto made = shamir::create(plan, secret, options, count_up);
    const auto found = made ? made->lines() : std::vector<shamir::Text>();
    expect("create", found == std::vector<shamir::Text>(std::begin(lines), std::end(lines)));
    int draws = 0;
    const auto draw = [&](std::uint8_t *bytes, std::size_t count) {
        /* The first bytes give the identifier 9066 of the old backup, and the next are those of another program's example. */
        const std::uint8_t drawn[] = {0x23, 0x6a, 0x12, 0x34};
        std::copy_n(draws++ % 2 ? drawn + 2 : drawn, count, bytes);
    };
    const auto split = shamir::resplit("1of1", extendable, draw);
    expect("resplit", split && shamir::Text(*split) == anew && draws == 2);
    const auto kept = shamir::encrypted(extendable);
    const auto renewed = shamir::create_from_encrypted("1of1", *kept, draw);
    expect("create_from_encrypted", renewed && shamir::Text(*renewed) == anew && draws == 4);
    const auto nothing = [](std::uint8_t *, std::size_t) { throw std::logic_error("a refused plan takes no random bytes"); };
    expect("resplit with a wrong plan", shamir::resplit("no plan", extendable, nothing).error().code == SHAMIR_E_BAD_PLAN);
    expect("an encrypted secret with a wrong plan", shamir::create_from_encrypted("no plan", *kept, nothing).error().code == SHAMIR_E_BAD_PLAN);
}

void check_recovery()
{
    shamir::RecoverOptions options;
    options.passphrase = key;
    std::string noted = "df41d8fe";
    options.expected = noted;
    /* Options keep a copy of the fingerprint. */
    noted = "00000000";
    /* The value of an answer without a name is moved out of it, so nothing refers to what is gone. */
    static_assert(!std::is_reference_v<decltype(*shamir::recover(""))> && !std::is_reference_v<decltype(shamir::recover("").error())>);
    const auto found = shamir::recover(papers({3, 4}), options);
    expect("recover", found && std::equal(found->begin(), found->end(), secret.begin(), secret.end()));
    options.expected = "";
    expect("an empty fingerprint", shamir::recover(papers({3, 4}), options).error().code == SHAMIR_E_BAD_FINGERPRINT);
    const auto kept = shamir::encrypted(papers({3, 4}));
    expect("decrypt", *shamir::decrypt(*kept, {key, "df41d8fe"}) == *found);
    unsigned told = 0;
    const auto undone = shamir::decrypt_rounds(*kept, key, [&](unsigned rounds) { return rounds == ++told; });
    expect("decrypt_rounds", undone && **undone == *found && told == 3);
    expect("decrypt_rounds that is stopped", !*shamir::decrypt_rounds(*kept, key, [](unsigned rounds) { return rounds < 3; }));
    expect("decrypt_rounds that is refused", shamir::decrypt_rounds(*kept, "\a", [](unsigned) { return true; }).error().code == SHAMIR_E_PASSPHRASE);
}

void check_reading()
{
    const auto share = shamir::parse(lines[2]);
    expect("parse", share && share->id == 1 && share->name() == shamir::Name{0, 2} && share->member_threshold == 2 && share->value.size() == 16);
    const auto status = shamir::status(papers({0, 1, 3}));
    expect("status", status && status->enough() && status->complete == 2 && status->groups.size() == 2 && status->groups[0].threshold == 2
        && status->groups[0].names == shamir::Names{{0, 0}, {0, 1}} && !(*shamir::status(papers({4}))).enough());
    expect("reissue", shamir::Text(*shamir::reissue(plan, {{0, 2}, {2, 0}}, papers({0, 1, 4}))) == shamir::Text(papers({2, 4})));
    shamir::Text unread = lines[0].substr(0, lines[0].rfind(' ') + 1);
    expect("repair", shamir::Text(*shamir::repair(std::string(unread) + "?")) == shamir::Text(papers({0})));
    expect("version", *shamir::version() == SHAMIR_VERSION);
    expect("names", shamir::to_text({{0, 2}, {0, 10}}) == "0.2+0.10" && shamir::Name{0, 2} < shamir::Name{0, 10});
}

void check_papers()
{
    const auto beside = shamir::judge(papers({0, 1}), lines[3]);
    expect("judge", beside && beside->name() == shamir::Name{1, 0} && beside->share.id == 1 && !beside->again && beside->status.enough());
    shamir::Papers held;
    for (const shamir::Text paper : {alone, lines[3], lines[0]}) {
        const auto found = held.add(paper);
        expect("a paper", found && !found->again);
    }
    const std::string spaced = "  " + std::string(lines[3]) + std::string(700, ' ');
    const auto again = held.add(spaced);
    expect("a paper that is there", again && again->again && again->status.complete == 1);
    const auto other = held.add(conflicting);
    expect("a paper that can't be taken", !other && other.error().code == SHAMIR_E_CONFLICTING_SHARE && other.error().line == 0);
    expect("a paper with another word", held.add("academic x").error().word() == 2);
    expect("identifiers", held.ids() == std::vector<std::uint16_t>{7945, 1});
    expect("lines", shamir::Text(held.lines(1)) == shamir::Text(papers({3, 0})) && shamir::Text(held.lines(2)).empty());
    const shamir::RecoverOptions noted{key, "df41d8fe"};
    expect("too few papers", !held.enough() && held.add(lines[1]) && held.enough());
    const auto found = held.recover(noted);
    expect("papers that are enough", found && std::equal(found->secret.begin(), found->secret.end(), secret.begin(), secret.end())
        && found->failed.empty() && found->doubtful.empty());
    expect("the backup of the last paper", held.add(alone) && held.enough() && held.recover(noted) && !held.recover({"x", "df41d8fe"})
        && held.add(lines[0]) && held.enough() && held.recover(noted));
    expect("no papers", !shamir::Papers().enough() && shamir::Papers().recover().error().code == SHAMIR_E_NO_SHARES);
    expect("what is told of papers", shamir::to_text(held.add("academic x")) == "11 unknown word 2\n"
        && shamir::to_text(held.add(alone)) == "again\ngroups 1 of 1\ngroup 0 members 1 of 1 0.0\n"
        && shamir::to_text(shamir::judge("", lines[0])) == "groups 0 of 2\ngroup 0 members 1 of 2 0.0\n");
    shamir::Papers spelled;
    expect("a long line", spelled.add(spaced) && spelled.add(lines[4]) && shamir::Text(spelled.lines(1)) == shamir::Text(papers({3, 4})));
}

/* One wrong paper doesn't hide what the others give, and can be taken out. */
void check_wrong_papers()
{
    const shamir::RecoverOptions noted{key, "df41d8fe"};
    shamir::Papers held;
    for (const shamir::Text paper : {alone, conflicting, lines[1], lines[3]}) {
        expect("papers of which one is wrong", held.add(paper).has_value());
    }
    const auto refused = held.recover(noted);
    expect("no quorum that is right", !refused && refused.error().code == SHAMIR_E_DIGEST_MISMATCH && refused.error().first == 0);
    expect("papers of which two are right", held.add(lines[4]) && held.enough());
    const auto found = held.recover(noted);
    expect("papers that are recovered", found && std::equal(found->secret.begin(), found->secret.end(), secret.begin(), secret.end())
        && found->failed == std::vector<shamir::Names>{{{0, 0}, {0, 1}, {1, 0}}, {{0, 0}, {0, 1}, {2, 0}}}
        && found->doubtful == shamir::Names{{0, 0}, {0, 1}});
    expect("another secret", held.recover({key, "00000000"}).error().code == SHAMIR_E_OTHER_SECRET);
    expect("a paper that is cleared of doubt", held.add(lines[2]) && (*held.recover(noted)).doubtful == shamir::Names{{0, 0}}
        && (*held.recover(noted)).failed.size() == 4);
    expect("no paper to take out", !held.remove(1, {0, 3}) && !held.remove(2, {0, 0}) && held.enough());
    expect("a right paper beside a wrong one", held.add(lines[0]).error().code == SHAMIR_E_CONFLICTING_SHARE);
    expect("a paper that is taken out", held.remove(1, {0, 0}) && held.enough() && held.add(lines[0]) && (*held.recover(noted)).failed.empty());
    expect("others", shamir::Text(held.lines(1)) == shamir::Text(papers({1, 3, 4, 2, 0})) && held.ids() == std::vector<std::uint16_t>{7945, 1});
    expect("papers that are still enough", held.remove(1, {1, 0}) && held.remove(1, {0, 1}) && held.enough());
    expect("papers that aren't enough", held.remove(1, {2, 0}) && !held.enough());
    expect("the last paper", held.remove(1, {0, 0}) && held.remove(1, {0, 2}) && held.ids() == std::vector<std::uint16_t>{7945}
        && !held.enough() && held.recover().error().code == SHAMIR_E_NO_SHARES && held.add(alone) && held.enough());
}

/* A line feed may end one mnemonic, and no other place has one. */
void check_line_feed()
{
    const std::string ended = std::string(alone) + "\n", spelled = std::string(lines[0].substr(0, lines[0].rfind(' '))) + " ?\n";
    shamir::Papers held;
    expect("a mnemonic with a line feed", (*shamir::parse(ended)).id == 7945 && (*shamir::judge("", ended)).share.id == 7945
        && shamir::Text(*shamir::repair(spelled)) == shamir::Text(papers({0})) && held.add(ended) && (*held.add(ended)).again);
    expect("two line feeds", shamir::parse(ended + "\n").error().word() == 20 && shamir::judge("", "\n" + ended).error().word() == 1
        && shamir::repair(spelled + "\n").error().word() == 20 && held.add(ended + "\n").error().word() == 20);
}

/* Options keep their passphrase, whatever becomes of the text. */
void check_passphrase()
{
    shamir::RecoverOptions options;
    {
        std::string text(key);
        options.passphrase = text + "";
        text.assign(text.size(), 'x');
    }
    const auto found = shamir::recover(alone, options);
    expect("a passphrase whose text is gone", found && std::equal(found->begin(), found->end(), secret.begin(), secret.end()));
    expect("a passphrase that is read", shamir::Text(options.passphrase) == key && shamir::Text(shamir::Passphrase()).empty());
    options.passphrase = long_key;
    const shamir::RecoverOptions copy = options;
    expect("a passphrase that is copied", shamir::recover(alone, copy) && shamir::Text(copy.passphrase) == long_key);
}

/* A copy for which there is no memory changes nothing, and what is moved from has no papers. */
void check_copies()
{
    static_assert(std::is_nothrow_move_constructible_v<shamir::Papers>);
    shamir::Papers both, held;
    expect("papers to copy", both.add(lines[3]) && both.add(lines[4]) && held.add(alone));
    for (int enough = 0; held.ids() != both.ids(); enough++) {
        blocks = enough;
        try {
            held = both;
        } catch (const std::bad_alloc &) {
        }
        blocks = INT_MAX;
        expect("papers that are copied without memory", held.ids() == both.ids() || shamir::Text(held.lines(7945)) == std::string(alone) + "\n");
    }
    expect("papers that are copied", held.enough() && shamir::Text(held.lines(1)) == shamir::Text(papers({3, 4})));
    const shamir::Papers moved = std::move(held);
    expect("papers that are moved", moved.enough() && moved.ids() == both.ids() && !held.enough() && held.ids().empty());
}

/* What stands in shamir.h alone makes several calls. If there is no memory for one of them, it says so, and changes nothing. */
void check_no_memory_in_c()
{
    const int before = given;
    char room[4096], text[SHAMIR_STATUS_BYTES_MAX];
    shamir_papers held = {};
    held.lines = room;
    held.lines_bytes = sizeof room;
    const auto add = [&](shamir::Text line) { return shamir_papers_add(&held, line.data(), line.size(), text, sizeof text); };
    expect("papers in C", add(lines[3]).code == SHAMIR_DONE && add(alone).code == SHAMIR_DONE && held.enough);
    const shamir_papers earlier = held;
    /* There is memory to judge the paper and to write it anew, but none, or not enough, to read those that are there. */
    for (const int enough : {2, 3}) {
        given = enough;
        const shamir_answer answer = add(lines[4]);
        expect("papers in C without memory", answer.code == SHAMIR_E_NO_MEMORY && !answer.first && !answer.second && !answer.written
            && held.used == earlier.used && held.backup == earlier.backup && held.backup_bytes == earlier.backup_bytes && held.enough);
    }
    given = before;
    expect("papers in C with memory again", add(lines[4]).code == SHAMIR_DONE
        && shamir::Text(held.backup, held.backup_bytes) == shamir::Text(papers({3, 4})));
    /* There is memory to find the paper, and none to count what is left; or not even that. */
    for (const int enough : {0, 1, 2}) {
        given = enough;
        const shamir_papers there = held;
        const shamir_answer answer = shamir_papers_remove(&held, 1, 2, 0);
        given = before;
        expect("a paper in C that isn't taken out without memory", answer.code == SHAMIR_E_NO_MEMORY && !answer.first && held.used == there.used
            && held.enough && shamir::Text(held.backup, held.backup_bytes) == shamir::Text(papers({3, 4})));
    }
    /* Each call that a recovery from papers makes can lack memory. With enough for all, it recovers. */
    char wrong_room[4096], listing[4096];
    uint8_t found[SHAMIR_SECRET_BYTES_MAX];
    shamir_papers wrong = {};
    wrong.lines = wrong_room;
    wrong.lines_bytes = sizeof wrong_room;
    for (const shamir::Text line : {conflicting, lines[1], lines[3], lines[4]}) {
        expect("a paper in C", shamir_papers_add(&wrong, line.data(), line.size(), text, sizeof text).code == SHAMIR_DONE);
    }
    int enough = 0;
    shamir_answer recovered;
    do {
        given = enough++;
        recovered = shamir_papers_recover(&wrong, "TREZOR", SHAMIR_EXPONENT_MAX, "df41d8fe", found, sizeof found, listing, sizeof listing);
        given = before;
        expect("a recovery in C without memory", recovered.code == SHAMIR_E_NO_MEMORY || recovered.code == SHAMIR_DONE);
    } while (recovered.code != SHAMIR_DONE && enough < 20);
    expect("a recovery in C with memory", enough > 5 && std::equal(secret.begin(), secret.end(), found) && recovered.first == 2);
    shamir_drilling drilling =
        shamir_drill_start(held.backup, held.backup_bytes, "TREZOR", SHAMIR_EXPONENT_MAX, "df41d8fe", text, sizeof text);
    given = 1;
    const bool goes_on = shamir_drill_next(&drilling);
    given = before;
    expect("a drill in C without memory", !goes_on && drilling.answer.code == SHAMIR_E_NO_MEMORY && !shamir_drill_next(&drilling));
}

/* If there is no memory for a call, its answer says so. Only the library as plain C takes any. */
void check_no_memory()
{
    const int before = given;
    if (shamir::version() && given == before) {
        return;
    }
    const auto is_refused = [](const auto &answer) { return !answer && answer.error().code == SHAMIR_E_NO_MEMORY; };
    given = 0;
    expect("a version without memory", is_refused(shamir::version()));
    expect("words without memory", is_refused(shamir::words("aca")));
    given = 1;
    expect("a count of quorums without memory", is_refused(shamir::drill(papers({3, 4}), {}, [](const auto &, const auto &) { return true; })));
    given = before;
    shamir::Papers held;
    expect("papers to take out", held.add(lines[3]) && held.add(lines[4]));
    given = 0;
    try {
        held.remove(1, {1, 0});
        expect("a paper that is taken out without memory", false);
    } catch (const std::bad_alloc &) {
    }
    given = before;
    expect("papers that stay", held.enough() && shamir::Text(held.lines(1)) == shamir::Text(papers({3, 4})));
    check_no_memory_in_c();
}

/* Refusals say what the command shamir says, and the value of one can't be taken. */
void check_refusals()
{
    const auto unknown = shamir::recover("# a note\nacademic x");
    expect("a word", !unknown && unknown.error().word() == 2 && unknown.error().message() == "line 2: 11 unknown word 2");
    std::string changed(lines[0]);
    changed.replace(0, 8, "acid");
    expect("a wrong word", shamir::repair(changed).error().word() == 1);
    const auto few = shamir::recover(papers({3}));
    expect("too few", few.error().code == SHAMIR_E_INCOMPLETE && !few.error().word() && few.error().text() == "incomplete: 1 of 2 groups");
    try {
        static_cast<void>(few->size());
        expect("a value of a refusal", false);
    } catch (const shamir::Refused &refused) {
        expect("a refusal that is thrown", refused.refusal.second == 2 && refused.what() == few.error().message());
    }
    try {
        shamir::Mnemonics().add("academic\nacid");
        expect("a line feed inside a line", false);
    } catch (const std::invalid_argument &) {
    }
}

void check_drill()
{
    shamir::DrillOptions options;
    options.passphrase = key;
    options.fingerprints = true;
    options.at_once = 2;
    std::string told;
    const auto tell = [&](const shamir::Outcome &outcome, const shamir::Progress &progress) {
        told += shamir::to_text(outcome.names) + " " + outcome.fingerprint.value_or("none") + " ";
        return progress.listed < 3 && progress.quorums == 7;
    };
    const auto stopped = shamir::drill(papers({0, 1, 2, 3, 4}), options, tell);
    expect("a drill that is stopped", stopped && !stopped->ended && stopped->last == shamir::Names{{0, 0}, {0, 2}, {1, 0}}
        && told == "0.0+0.1+1.0 df41d8fe 0.0+0.1+2.0 df41d8fe 0.0+0.2+1.0 df41d8fe ");
    const auto cursor = shamir::names_in("0.0+0.2+1.0");
    expect("names in a text", *cursor == stopped->last && (*shamir::names_in("")).empty());
    for (const auto *other : {"0.0+", "+0.0", "0.0 0.1", "0", "00.1", "-1.0", "0.4294967296", "a.b", "0.0+0.2+1.0\n"}) {
        expect("a text that isn't names", shamir::names_in(other).error().code == SHAMIR_E_BAD_CURSOR);
    }
    options.after = *cursor;
    options.fingerprints = false;
    options.expected = "00000000";
    int others = 0;
    const auto ended = shamir::drill(papers({0, 1, 2, 3, 4}), options, [&](const auto &outcome, const auto &) {
        others += outcome.expected == false;
        return true;
    });
    expect("a drill that goes on", ended && ended->ended && others == 4);
    options.fingerprints = true;
    try {
        static_cast<void>(shamir::drill(papers({3, 4}), options, tell));
        expect("fingerprints and an expected one", false);
    } catch (const std::invalid_argument &) {
    }
}

/* Nothing that the layer frees holds the secret or a mnemonic. */
void check_memory()
{
    /* A block that isn't cleared is found. */
    looks = true;
    for (const shamir::Text text : {shamir::Text(reinterpret_cast<const char *>(secret.data()), secret.size()), lines[0], long_key}) {
        void *block = ::operator new(text.size());
        std::memcpy(block, text.data(), text.size());
        ::operator delete(block);
    }
    expect("a search of what is freed", left == 3);
    left = 0;
    check_creation();
    check_recovery();
    check_drill();
    check_papers();
    check_wrong_papers();
    check_passphrase();
    {
        shamir::Mnemonics held = papers({0, 1, 2, 3, 4});
        auto other = held;
        held = std::move(other);
        shamir::DrillOptions options;
        options.passphrase = key;
        static_cast<void>(shamir::drill(held, options, [](const auto &outcome, const auto &) { return outcome.secret->size() == 16; }));
    }
    looks = false;
    expect("what is freed", left == 0);
}

} // namespace

extern "C" void *given_block(std::size_t size) { return given-- > 0 ? std::malloc(size) : nullptr; }

/* If these were inlined, gcc would warn of a block of malloc that delete frees. */
[[gnu::noinline]] void *operator new(std::size_t size)
{
    void *block = blocks-- > 0 ? std::malloc(size ? size : 1) : nullptr;
    return block ? block : throw std::bad_alloc();
}

[[gnu::noinline]] void operator delete(void *block) noexcept
{
    const char *bytes = static_cast<const char *>(block);
    if (looks && block) {
        const std::size_t size = malloc_usable_size(block);
        left += holds(bytes, size, secret.data(), secret.size()) || holds(bytes, size, secret_digits.data(), secret_digits.size())
            || holds(bytes, size, lines[0].data() + 20, 40) || holds(bytes, size, lines[4].data() + 20, 40)
            || holds(bytes, size, long_key.data(), long_key.size());
    }
    std::free(block);
}

void operator delete(void *block, std::size_t) noexcept { operator delete(block); }

int main()
{
    check_lines();
    check_creation();
    check_recovery();
    check_reading();
    check_papers();
    check_wrong_papers();
    check_line_feed();
    check_passphrase();
    check_copies();
    check_no_memory();
    check_refusals();
    check_drill();
    check_memory();
    return differences != 0;
}
