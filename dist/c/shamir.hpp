/*
 * shamir.hpp: SLIP-0039 backups of a master secret, for C++17. It is a layer over shamir.h, which says what each call does, and in
 * which order it refuses. Link with the library as a program in C does. docs/LIBRARY.md has a first call.
 * SPDX-License-Identifier: MIT
 *
 * A text is a std::string_view (Text), and bytes are a view too (Bytes), to which arrays and vectors of std::uint8_t convert. Options
 * are structs, whose fields have defaults, and which own what they hold. A call that takes one mnemonic takes a line feed at its end too.
 *
 * A call gives an Answer: its value, or the Refusal of the library. Secrets and mnemonics are in memory that is cleared before it is
 * freed: a Secret, or Mnemonics. So are the buffers into which the library writes them. What you copy out of them isn't. An Answer
 * without a name ends with its statement. So * moves the value out of it, and -> doesn't compile: give the Answer a name first.
 *
 * The layer throws Refused if you take the value of a refused answer, std::bad_variant_access if you take the refusal of another one,
 * std::invalid_argument for a line feed inside a line and for options that can't stand together, and what the standard library throws
 * if there is no memory. It is tested, and not proved.
 */
#ifndef SHAMIR_HPP
#define SHAMIR_HPP

#include <algorithm>
#include <charconv>
#include <cstddef>
#include <cstdint>
#include <iterator>
#include <memory>
#include <new>
#include <optional>
#include <set>
#include <stdexcept>
#include <string>
#include <string_view>
#include <type_traits>
#include <utility>
#include <variant>
#include <vector>

#include "shamir.h"

namespace shamir {

/* A text that belongs to somebody else. */
using Text = std::string_view;

/* Bytes that belong to somebody else. A text doesn't convert to them, so a secret and a passphrase can't change places. */
class Bytes {
public:
    Bytes() = default;
    Bytes(const std::uint8_t *data, std::size_t size) : data_(data), size_(size) {}

    template <
        class Held, class Data = decltype(std::data(std::declval<const Held &>())),
        class = std::enable_if_t<std::is_convertible_v<Data, const std::uint8_t *>>>
    Bytes(const Held &held) : data_(std::data(held)), size_(std::size(held)) {}

    const std::uint8_t *data() const noexcept { return data_; }
    std::size_t size() const noexcept { return size_; }

private:
    const std::uint8_t *data_ = nullptr;
    std::size_t size_ = 0;
};

/* An allocator that clears memory before it frees it. */
template <class Unit> struct Clearing {
    using value_type = Unit;

    Clearing() = default;
    template <class Other> Clearing(const Clearing<Other> &) noexcept {}

    Unit *allocate(std::size_t count) { return std::allocator<Unit>().allocate(count); }
    void deallocate(Unit *units, std::size_t count) noexcept
    {
        shamir_wipe(units, count * sizeof(Unit));
        std::allocator<Unit>().deallocate(units, count);
    }

    friend bool operator==(const Clearing &, const Clearing &) noexcept { return true; }
    friend bool operator!=(const Clearing &, const Clearing &) noexcept { return false; }
};

/* A vector whose memory is cleared before it is freed, also if it grows. */
template <class Unit> using Cleared = std::vector<Unit, Clearing<Unit>>;

/* A master secret, an encrypted one, the value of a mnemonic, or random bytes. */
using Secret = Cleared<std::uint8_t>;

/* The passphrase of options: a copy of a text, in memory that is cleared before it is freed. */
class Passphrase {
public:
    Passphrase() = default;
    template <class Given, class = std::enable_if_t<std::is_convertible_v<const Given &, Text>>>
    Passphrase(const Given &given)
    {
        const Text text = given;
        text_.assign(text.begin(), text.end());
    }

    operator Text() const noexcept { return {text_.data(), text_.size()}; }
    const char *data() const noexcept { return text_.data(); }
    std::size_t size() const noexcept { return text_.size(); }

private:
    Cleared<char> text_;
};

/* Why the library refuses. The fields code, line, first and second are those of shamir_answer. */
struct Refusal : shamir_answer {
    explicit Refusal(const shamir_answer &answer) : shamir_answer(answer) {}

    /* The number of the word that isn't in the list (11) or is wrong (18), counted from 1. */
    std::optional<std::uint64_t> word() const
    {
        return code == SHAMIR_E_UNKNOWN_WORD || code == SHAMIR_E_WRONG_WORD ? std::optional(first) : std::nullopt;
    }

    /* The cause in words, as shamir_text gives it. */
    std::string text() const
    {
        char room[SHAMIR_TEXT_BYTES_MAX];
        const shamir_answer told = shamir_text(this, room, sizeof room);
        return told.code == SHAMIR_DONE ? std::string(room, static_cast<std::size_t>(told.written)) : "no memory for the text";
    }

    /* The line if there is one, the code and the text, as the command shamir prints them: "line 2: 13 bad checksum". */
    std::string message() const
    {
        return (line ? "line " + std::to_string(line) + ": " : "") + std::to_string(code) + " " + text();
    }
};

/* A refusal whose value was asked for. what() is its message. */
class Refused : public std::runtime_error {
public:
    explicit Refused(const Refusal &why) : std::runtime_error(why.message()), refusal(why) {}

    const Refusal refusal;
};

/* What a call gives: its value, or a refusal. It is true if it has a value. If it has none, taking the value throws Refused. */
template <class Value> class [[nodiscard]] Answer {
public:
    Answer(Value value) : held_(std::in_place_index<0>, std::move(value)) {}
    Answer(const Refusal &refusal) : held_(std::in_place_index<1>, refusal) {}

    explicit operator bool() const noexcept { return held_.index() == 0; }
    bool has_value() const noexcept { return held_.index() == 0; }
    Refusal error() const { return std::get<1>(held_); }

    const Value &value() const & { return checked(), std::get<0>(held_); }
    Value &value() & { return checked(), std::get<0>(held_); }
    Value value() && { return checked(), std::get<0>(std::move(held_)); }
    const Value &operator*() const & { return value(); }
    Value &operator*() & { return value(); }
    Value operator*() && { return std::move(*this).value(); }
    const Value *operator->() const & { return &value(); }
    Value *operator->() & { return &value(); }
    const Value *operator->() const && = delete;

private:
    void checked() const
    {
        if (!has_value()) {
            throw Refused(error());
        }
    }

    std::variant<Value, Refusal> held_;
};

/* The name of a mnemonic: its group and its member, both counted from 0. */
struct Name {
    unsigned group;
    unsigned member;

    friend bool operator==(const Name &one, const Name &other) noexcept { return one.group == other.group && one.member == other.member; }
    friend bool operator!=(const Name &one, const Name &other) noexcept { return !(one == other); }
    friend bool operator<(const Name &one, const Name &other) noexcept
    {
        return one.group != other.group ? one.group < other.group : one.member < other.member;
    }
};

using Names = std::vector<Name>;

/* The text of names, such as 0.1+2.0. */
inline std::string to_text(const Names &names)
{
    std::string text;
    for (const Name &name : names) {
        text += (text.empty() ? "" : "+") + std::to_string(name.group) + "." + std::to_string(name.member);
    }
    return text;
}

namespace detail {

inline std::size_t size_of(std::uint64_t size) { return static_cast<std::size_t>(size); }

/* One line, without the line feed that may end it. */
inline Text one_line(Text line)
{
    line.remove_suffix(!line.empty() && line.back() == '\n');
    return line;
}

/* Returns the parts of a text. Each ends with this sign, but the last part may lack it. The header windows.h has a macro min, which
   parentheses around the name keep away. */
inline std::vector<Text> parts(Text text, char sign)
{
    std::vector<Text> found;
    while (!text.empty()) {
        const std::size_t end = (std::min)(text.find(sign), text.size());
        found.push_back(text.substr(0, end));
        text.remove_prefix((std::min)(end + 1, text.size()));
    }
    return found;
}

inline unsigned number(Text digits, int base = 10)
{
    unsigned value = 0;
    std::from_chars(digits.data(), digits.data() + digits.size(), value, base);
    return value;
}

inline Names names(Text text)
{
    Names found;
    for (const Text name : parts(text, '+')) {
        const std::size_t dot = name.find('.');
        found.push_back({number(name.substr(0, dot)), number(name.substr(dot + 1))});
    }
    return found;
}

} // namespace detail

/* Reads names in the form of to_text, such as the cursor of an earlier drill. A text in another form is refused (61). */
inline Answer<Names> names_in(Text text)
{
    Names found = detail::names(text);
    if (to_text(found) == text) {
        return found;
    }
    shamir_answer answer = {};
    answer.code = SHAMIR_E_BAD_CURSOR;
    return Refusal(answer);
}

namespace detail {

/* Makes a call with room for its output. Returns what it writes, in memory of this length. */
template <class Unit, class Call> Answer<Cleared<Unit>> written(std::size_t room, const Call &call)
{
    Cleared<Unit> output(room);
    const shamir_answer answer = call(output.data(), output.size());
    if (answer.code != SHAMIR_DONE) {
        return Refusal(answer);
    }
    return Cleared<Unit>(output.data(), output.data() + size_of(answer.written));
}

inline Text text_of(const Cleared<char> &text) { return {text.data(), text.size()}; }

/* The library compares nothing if it gets an empty fingerprint. One that is given and empty becomes a text that it refuses. */
inline Text fingerprint_of(const std::optional<std::string> &expected)
{
    return !expected ? Text() : expected->empty() ? Text("-") : Text(*expected);
}

} // namespace detail

/* Lines of mnemonics, which may have comments and blank lines among them. They convert to the text that calls take. */
class Mnemonics {
public:
    Mnemonics() = default;
    explicit Mnemonics(Text lines)
    {
        for (const Text line : detail::parts(lines, '\n')) {
            add(line);
        }
    }

    /* Adds one line, which may end with a line feed. If there is no memory, nothing is added. */
    void add(Text line)
    {
        line = detail::one_line(line);
        if (line.find('\n') != Text::npos) {
            throw std::invalid_argument("a line holds a line feed, so it is several lines");
        }
        Cleared<char> added(line.begin(), line.end());
        added.push_back('\n');
        text_.insert(text_.end(), added.begin(), added.end());
    }

    operator Text() const noexcept { return detail::text_of(text_); }

    /* The lines, without their line feeds. They belong to this object, until a line is added. */
    std::vector<Text> lines() const & { return detail::parts(*this, '\n'); }
    std::vector<Text> lines() && = delete;

private:
    Cleared<char> text_;
};

namespace detail {

/* Makes a call that writes mnemonics. */
template <class Call> Answer<Mnemonics> mnemonics(std::size_t room, const Call &call)
{
    auto lines = written<char>(room, call);
    if (!lines) {
        return lines.error();
    }
    return Mnemonics(text_of(*lines));
}

} // namespace detail

/* The fields of a mnemonic, which shamir_share names, and its value. */
struct Share : shamir_share {
    Secret value;

    Name name() const noexcept { return {group_index, member_index}; }
};

/* An encrypted secret, and what decrypts it together with the passphrase. */
struct EncryptedSecret : shamir_parameters {
    Secret value;
};

/* A group that has members among the mnemonics. */
struct GroupStatus {
    unsigned group;
    unsigned threshold;
    Names names;
};

/* How many groups are complete, how many are needed, and each group that has members among the mnemonics. */
struct Status {
    std::uint64_t complete;
    std::uint64_t required;
    std::vector<GroupStatus> groups;

    bool enough() const noexcept { return complete >= required; }
};

/* The text of a status, as the command status prints it. */
inline std::string to_text(const Status &status)
{
    std::string text = "groups " + std::to_string(status.complete) + " of " + std::to_string(status.required) + "\n";
    for (const auto &[group, threshold, names] : status.groups) {
        text += "group " + std::to_string(group) + " members " + std::to_string(names.size()) + " of " + std::to_string(threshold) + " "
            + to_text(names) + "\n";
    }
    return text;
}

/* What a mnemonic is beside others: its fields, whether its share is among them already, and what its backup has with it. */
struct Judgement {
    shamir_share share;
    bool again;
    Status status;

    Name name() const noexcept { return {share.group_index, share.member_index}; }
};

/* The text of what a mnemonic is: the status, after a line "again" if its share is there already; or the message of the refusal, and a
   line feed. */
inline std::string to_text(const Answer<Judgement> &found)
{
    return found ? (found->again ? "again\n" : "") + to_text(found->status) : found.error().message() + "\n";
}

/* The defaults are those of python-shamir-mnemonic, the reference implementation of the standard. Leave the extendable flag out if a
   wallet that has to read the backup may not know it. */
struct CreateOptions {
    Passphrase passphrase = {};
    std::uint32_t exponent = 1;
    bool extendable = true;
};

/* If a fingerprint is expected, a secret with another one is refused (52). */
struct DecryptOptions {
    Passphrase passphrase = {};
    std::optional<std::string> expected = {};
};

struct RecoverOptions {
    Passphrase passphrase = {};
    std::optional<std::string> expected = {};
    std::uint32_t max_exponent = SHAMIR_EXPONENT_MAX;
};

/*
 * If names of a quorum are given as "after", the drill starts with the next quorum. With fingerprints, or with an expected one, no
 * secret leaves the library. The library lists at most at_once quorums in a call. A smaller number makes the progress finer, and each
 * call makes the iterations anew.
 */
struct DrillOptions {
    Passphrase passphrase = {};
    std::optional<std::string> expected = {};
    bool fingerprints = false;
    std::uint32_t max_exponent = SHAMIR_EXPONENT_MAX;
    Names after = {};
    std::uint32_t at_once = 1000;
};

/* What a quorum recovers: a secret; its fingerprint; whether it is the expected one; or the group whose digest doesn't match, which is
   SHAMIR_OF_GROUPS for the group shares. One of the four is there. */
struct Outcome {
    Names names;
    std::optional<Secret> secret;
    std::optional<std::string> fingerprint;
    std::optional<bool> expected;
    std::optional<unsigned> mismatch;
};

/* How many quorums this drill has listed, also if it began after some, and how many the mnemonics have. */
struct Progress {
    std::uint64_t listed;
    std::uint64_t quorums;
};

/* Whether a drill came to its end, and the last quorum that it listed, after which it can go on. */
struct Drilled {
    bool ended;
    Names last;
};

/* The version of the library. */
inline Answer<std::string> version()
{
    char room[SHAMIR_TEXT_BYTES_MAX];
    const shamir_answer answer = shamir_version(room, sizeof room);
    if (answer.code != SHAMIR_DONE) {
        return Refusal(answer);
    }
    return std::string(room, detail::size_of(answer.written));
}

inline Answer<Share> parse(Text line)
{
    line = detail::one_line(line);
    Share share;
    auto value = detail::written<std::uint8_t>(SHAMIR_SECRET_BYTES_MAX, [&](std::uint8_t *room, std::size_t size) {
        return shamir_parse(line.data(), line.size(), &share, room, size);
    });
    if (!value) {
        return value.error();
    }
    share.value = *std::move(value);
    return share;
}

inline Answer<std::size_t> random_needed(Text plan, std::size_t secret_bytes)
{
    const shamir_answer answer = shamir_random_needed(plan.data(), plan.size(), secret_bytes);
    if (answer.code != SHAMIR_DONE) {
        return Refusal(answer);
    }
    return detail::size_of(answer.first);
}

/* Creates a backup with these random bytes. */
inline Answer<Mnemonics> create(Text plan, Bytes secret, const CreateOptions &options, Bytes random)
{
    return detail::mnemonics(SHAMIR_MNEMONICS_BYTES_MAX, [&](char *room, std::size_t size) {
        return shamir_create(
            plan.data(), plan.size(), secret.data(), secret.size(), options.passphrase.data(), options.passphrase.size(),
            options.exponent, options.extendable, random.data(), random.size(), room, size);
    });
}

namespace detail {

template <class Draw> using IfDraws = std::enable_if_t<std::is_void_v<std::invoke_result_t<Draw &, std::uint8_t *, std::size_t>>>;

template <class Draw> Secret drawn(std::uint64_t count, Draw &draw)
{
    Secret random(size_of(count));
    draw(random.data(), random.size());
    return random;
}

} // namespace detail

/* Creates a backup. draw(bytes, count) fills this many bytes with unpredictable ones, or throws. It returns nothing, so a compiler
   refuses a function such as getentropy, which returns whether it failed. */
template <class Draw, class = detail::IfDraws<Draw>>
Answer<Mnemonics> create(Text plan, Bytes secret, const CreateOptions &options, Draw &&draw)
{
    const auto needed = random_needed(plan, secret.size());
    if (!needed && needed.error().code == SHAMIR_E_NO_MEMORY) {
        return needed.error();
    }
    return create(plan, secret, options, Bytes(needed ? detail::drawn(*needed, draw) : Secret()));
}

inline Answer<Secret> recover(Text lines, const RecoverOptions &options = {})
{
    const Text expected = detail::fingerprint_of(options.expected);
    return detail::written<std::uint8_t>(SHAMIR_SECRET_BYTES_MAX, [&](std::uint8_t *room, std::size_t size) {
        return shamir_recover(
            lines.data(), lines.size(), options.passphrase.data(), options.passphrase.size(), options.max_exponent, expected.data(),
            expected.size(), room, size);
    });
}

inline Answer<EncryptedSecret> encrypted(Text lines)
{
    EncryptedSecret secret;
    auto value = detail::written<std::uint8_t>(SHAMIR_SECRET_BYTES_MAX, [&](std::uint8_t *room, std::size_t size) {
        return shamir_encrypted(lines.data(), lines.size(), &secret, room, size);
    });
    if (!value) {
        return value.error();
    }
    secret.value = *std::move(value);
    return secret;
}

inline Answer<Secret> decrypt(const EncryptedSecret &secret, const DecryptOptions &options = {})
{
    const Text expected = detail::fingerprint_of(options.expected);
    return detail::written<std::uint8_t>(SHAMIR_SECRET_BYTES_MAX, [&](std::uint8_t *room, std::size_t size) {
        return shamir_decrypt(
            &secret, secret.value.data(), secret.value.size(), options.passphrase.data(), options.passphrase.size(), expected.data(),
            expected.size(), room, size);
    });
}

/* Undoes one round of the cipher, and gives the text. With the rounds 3, 2, 1 and 0, each with the text of the one before as its value,
   it gives the secret. */
inline Answer<Secret> decrypt_round(const EncryptedSecret &secret, std::uint8_t round, Text passphrase = {})
{
    return detail::written<std::uint8_t>(SHAMIR_SECRET_BYTES_MAX, [&](std::uint8_t *room, std::size_t size) {
        return shamir_decrypt_round(
            &secret, round, secret.value.data(), secret.value.size(), passphrase.data(), passphrase.size(), room, size);
    });
}

/* Decrypts round by round. After each of the first three rounds, go_on(undone) gets how many of the four are undone, and returns
   whether to go on, or throws. If it stops, there is no secret. No fingerprint is compared. */
template <class GoOn> Answer<std::optional<Secret>> decrypt_rounds(const EncryptedSecret &secret, Text passphrase, GoOn &&go_on)
{
    EncryptedSecret text = secret;
    for (unsigned undone = 1;; undone++) {
        auto found = decrypt_round(text, static_cast<std::uint8_t>(4 - undone), passphrase);
        if (!found) {
            return found.error();
        }
        text.value = *std::move(found);
        if (undone == 4) {
            return std::optional<Secret>(std::move(text.value));
        }
        if (!go_on(undone)) {
            return std::optional<Secret>();
        }
    }
}

namespace detail {

/* Makes a call that writes a status. */
template <class Call> Answer<Status> status(const Call &call)
{
    char room[SHAMIR_STATUS_BYTES_MAX];
    const shamir_answer answer = call(room, sizeof room);
    if (answer.code != SHAMIR_DONE) {
        return Refusal(answer);
    }
    Status status{answer.first, answer.second, {}};
    shamir_group groups[SHAMIR_GROUPS_MAX];
    const std::size_t count = shamir_groups_of(room, size_of(answer.written), groups);
    for (std::size_t at = 0; at < count; at++) {
        Names names;
        for (unsigned member = 0; member < 16; member++) {
            if (groups[at].members >> member & 1) {
                names.push_back({groups[at].group, member});
            }
        }
        status.groups.push_back({groups[at].group, groups[at].threshold, std::move(names)});
    }
    return status;
}

} // namespace detail

inline Answer<Status> status(Text lines)
{
    return detail::status([&](char *room, std::size_t size) { return shamir_status(lines.data(), lines.size(), room, size); });
}

/* Judges a mnemonic beside lines of one backup or of several. If the mnemonic is refused, the refusal has no line. */
inline Answer<Judgement> judge(Text lines, Text mnemonic)
{
    mnemonic = detail::one_line(mnemonic);
    shamir_judgement found;
    auto status = detail::status([&](char *room, std::size_t size) {
        return shamir_judge(lines.data(), lines.size(), mnemonic.data(), mnemonic.size(), &found, room, size);
    });
    if (!status) {
        return status.error();
    }
    return Judgement{found.share, found.again != 0, *std::move(status)};
}

/* Counts the quorums of mnemonics, or gives UINT64_MAX if there are more. */
inline Answer<std::uint64_t> quorums(Text lines)
{
    const shamir_answer answer = shamir_quorums(lines.data(), lines.size());
    if (answer.code != SHAMIR_DONE) {
        return Refusal(answer);
    }
    return answer.first;
}

inline Answer<Mnemonics> reissue(Text plan, const Names &names, Text lines)
{
    const std::string wanted = to_text(names);
    return detail::mnemonics(SHAMIR_MNEMONICS_BYTES_MAX, [&](char *room, std::size_t size) {
        return shamir_reissue(plan.data(), plan.size(), wanted.data(), wanted.size(), lines.data(), lines.size(), room, size);
    });
}

/* Splits a backup anew with these random bytes. */
inline Answer<Mnemonics> resplit(Text plan, Text lines, Bytes random)
{
    return detail::mnemonics(SHAMIR_MNEMONICS_BYTES_MAX, [&](char *room, std::size_t size) {
        return shamir_resplit(plan.data(), plan.size(), lines.data(), lines.size(), random.data(), random.size(), room, size);
    });
}

/* Creates a backup of an encrypted secret with these random bytes. */
inline Answer<Mnemonics> create_from_encrypted(Text plan, const EncryptedSecret &secret, Bytes random)
{
    return detail::mnemonics(SHAMIR_MNEMONICS_BYTES_MAX, [&](char *room, std::size_t size) {
        return shamir_create_from_encrypted(
            plan.data(), plan.size(), &secret, secret.value.data(), secret.value.size(), random.data(), random.size(), room, size);
    });
}

namespace detail {

/* Makes mnemonics of random bytes that are drawn, as many as a refusal needs. If they give the old identifier, as one draw in 32,768
   does, it draws others. */
template <class Draw, class Make> Answer<Mnemonics> with_other_identifier(const shamir_answer &needed, Draw &draw, const Make &make)
{
    if (needed.code != SHAMIR_E_RANDOM_LENGTH) {
        return Refusal(needed);
    }
    for (int draws = 1;; draws++) {
        auto made = make(Bytes(drawn(needed.first, draw)));
        if (made || made.error().code != SHAMIR_E_SAME_IDENTIFIER || draws == 10) {
            return made;
        }
    }
}

} // namespace detail

/* Splits a backup anew. draw is as for create. If its bytes give the old identifier, it draws others. */
template <class Draw, class = detail::IfDraws<Draw>> Answer<Mnemonics> resplit(Text plan, Text lines, Draw &&draw)
{
    const auto needed = shamir_resplit(plan.data(), plan.size(), lines.data(), lines.size(), nullptr, 0, nullptr, 0);
    return detail::with_other_identifier(needed, draw, [&](Bytes random) { return resplit(plan, lines, random); });
}

/* Creates a backup of an encrypted secret. draw is as for create. If its bytes give the old identifier, it draws others. */
template <class Draw, class = detail::IfDraws<Draw>>
Answer<Mnemonics> create_from_encrypted(Text plan, const EncryptedSecret &secret, Draw &&draw)
{
    const auto needed = shamir_create_from_encrypted(
        plan.data(), plan.size(), &secret, secret.value.data(), secret.value.size(), nullptr, 0, nullptr, 0);
    return detail::with_other_identifier(needed, draw, [&](Bytes random) { return create_from_encrypted(plan, secret, random); });
}

/* Gives the mnemonics that fit a line with ? for what can't be read: one or two. */
inline Answer<Mnemonics> repair(Text line)
{
    line = detail::one_line(line);
    return detail::mnemonics(SHAMIR_REPAIRED_BYTES_MAX, [&](char *room, std::size_t size) {
        return shamir_repair(line.data(), line.size(), room, size);
    });
}

inline Answer<std::string> fingerprint(Bytes secret)
{
    char room[SHAMIR_FINGERPRINT_BYTES_MAX];
    const shamir_answer answer = shamir_fingerprint(secret.data(), secret.size(), room, sizeof room);
    if (answer.code != SHAMIR_DONE) {
        return Refusal(answer);
    }
    return std::string(room, detail::size_of(answer.written));
}

/* Gives the words of the word list that begin with these letters. */
inline Answer<std::vector<std::string>> words(Text letters)
{
    const auto text = detail::written<char>(SHAMIR_WORDS_BYTES_MAX, [&](char *room, std::size_t size) {
        return shamir_words(letters.data(), letters.size(), room, size);
    });
    if (!text) {
        return text.error();
    }
    const auto found = detail::parts(detail::text_of(*text), '\n');
    return std::vector<std::string>(found.begin(), found.end());
}

namespace detail {

/* Reads a line of a listing. After the names it has one word, which is digits; or two words, "as expected" or "other secret"; or
   more, the last of which is a group or "groups". */
inline Outcome outcome(Text line, bool fingerprints)
{
    const auto words = parts(line, ' ');
    Outcome found{names(words[0]), {}, {}, {}, {}};
    if (words.size() == 2 && fingerprints) {
        found.fingerprint = std::string(words[1]);
    } else if (words.size() == 2) {
        Secret &secret = found.secret.emplace();
        secret.reserve(words[1].size() / 2);
        for (std::size_t i = 0; i < words[1].size(); i += 2) {
            secret.push_back(static_cast<std::uint8_t>(number(words[1].substr(i, 2), 16)));
        }
    } else if (words.size() == 3) {
        found.expected = words[1] == "as";
    } else {
        found.mismatch = words.back() == "groups" ? SHAMIR_OF_GROUPS : number(words.back());
    }
    return found;
}

/* Lists the quorums after some names. */
inline shamir_answer listed(Text lines, const DrillOptions &options, const Names &after, Cleared<char> &room)
{
    if (options.fingerprints && options.expected) {
        throw std::invalid_argument("fingerprints and an expected fingerprint can't stand together");
    }
    const auto form = options.expected ? SHAMIR_FORM_EXPECTED : options.fingerprints ? SHAMIR_FORM_FINGERPRINTS : SHAMIR_FORM_DIGITS;
    const Text expected = fingerprint_of(options.expected);
    const std::string cursor = to_text(after);
    return shamir_drill(
        lines.data(), lines.size(), options.passphrase.data(), options.passphrase.size(), options.max_exponent, cursor.data(),
        cursor.size(), options.at_once, static_cast<std::uint32_t>(form), expected.data(), expected.size(), room.data(), room.size());
}

} // namespace detail

/*
 * Runs a drill, and calls each(outcome, progress) for each quorum, which returns whether to go on, or throws. A mismatch is no refusal. If
 * the drill was stopped, give its last quorum as "after" to go on.
 */
template <class Each> Answer<Drilled> drill(Text lines, const DrillOptions &options, Each &&each)
{
    Cleared<char> room(65536);
    Drilled drilled{false, options.after};
    for (Progress progress{0, 0};;) {
        const shamir_answer answer = detail::listed(lines, options, drilled.last, room);
        if (answer.code != SHAMIR_DONE) {
            return Refusal(answer);
        }
        if (progress.listed == 0) {
            const auto counted = quorums(lines);
            if (!counted) {
                return counted.error();
            }
            progress.quorums = *counted;
        }
        for (const Text line : detail::parts(Text(room.data(), detail::size_of(answer.second)), '\n')) {
            const Outcome outcome = detail::outcome(line, options.fingerprints);
            drilled.last = outcome.names;
            progress.listed++;
            if (!each(outcome, std::as_const(progress))) {
                return drilled;
            }
        }
        drilled.ended = Text(room.data(), detail::size_of(answer.written)).substr(detail::size_of(answer.second)) == "end\n";
        if (drilled.ended) {
            return drilled;
        }
    }
}

namespace detail {

/* The names that are in some of the first quorums, and in none of the others, in ascending order. */
inline Names only_in(const std::vector<Names> &some, const std::vector<Names> &others)
{
    std::set<Name> found;
    for (const Names &names : some) {
        found.insert(names.begin(), names.end());
    }
    for (const Names &names : others) {
        for (const Name &name : names) {
            found.erase(name);
        }
    }
    return Names(found.begin(), found.end());
}

} // namespace detail

/*
 * What papers recover. If the first quorum is right, nothing else is tried. Otherwise these quorums failed: a digest doesn't match. The
 * doubtful papers are in a quorum that failed, and in none that is right: the wrong ones are among them.
 */
struct Recovered {
    Secret secret;
    std::vector<Names> failed;
    Names doubtful;
};

/* Mnemonics as they come, one after the other, of one backup or of several. The library decides about each. */
class Papers {
public:
    Papers() = default;
    Papers(const Papers &) = default;
    /* The other one has no papers then. */
    Papers(Papers &&other) noexcept { swap(other); }
    /* If there is no memory for a copy, nothing changes. */
    Papers &operator=(Papers other) noexcept { return swap(other), *this; }

    /* Judges a mnemonic beside all that are here, and keeps it unless it is here already, in lower-case words with single spaces. If it
       is refused, nothing is kept. */
    Answer<Judgement> add(Text mnemonic)
    {
        auto found = judge(all_, mnemonic);
        if (found && !found->again) {
            const auto respelled = repair(mnemonic);
            if (!respelled) {
                return respelled.error();
            }
            of_.reserve(of_.size() + 1);
            all_.add(respelled->lines()[0]);
            of_.push_back({found->share.id, found->name()});
        }
        if (found) {
            last_ = found->share.id;
            enough_ = found->status.enough();
        }
        return found;
    }

    /* Takes out the mnemonic with this name in the backup with an identifier, clears it, and returns whether it was here. So a forged one
       can make room for the right one, which is refused with 28 beside it. If there is no memory, nothing changes. */
    bool remove(std::uint16_t id, Name name)
    {
        Papers left = kept([&](const Paper &paper) { return paper.id != id || paper.name != name; });
        const auto counted = quorums(left.lines(last_));
        if (!counted && counted.error().code == SHAMIR_E_NO_MEMORY) {
            throw std::bad_alloc();
        }
        left.last_ = last_;
        left.enough_ = counted && *counted > 0;
        const bool is_found = left.of_.size() < of_.size();
        swap(left);
        return is_found;
    }

    /* Whether the backup of the mnemonic that came last has enough for a recovery. A mnemonic that is refused changes nothing. */
    bool enough() const noexcept { return enough_; }

    /* Recovers the secret from the mnemonics of that backup: from the first quorum, or, if a digest of it doesn't match, from the first
       whose digests match. Then it tries all quorums, but at most 65,536. If none matches, the refusal is that of the first (51). */
    Answer<Recovered> recover(const RecoverOptions &options = {}) const
    {
        const Mnemonics all = lines(last_);
        auto first = shamir::recover(all, options);
        if (first) {
            return Recovered{*std::move(first), {}, {}};
        }
        if (first.error().code != SHAMIR_E_DIGEST_MISMATCH) {
            return first.error();
        }
        DrillOptions drilled;
        drilled.passphrase = options.passphrase;
        drilled.fingerprints = true;
        drilled.max_exponent = options.max_exponent;
        drilled.at_once = UINT32_MAX;
        std::vector<Names> failed, right;
        const auto tried = drill(all, drilled, [&](const Outcome &outcome, const Progress &progress) {
            (outcome.mismatch ? failed : right).push_back(outcome.names);
            return progress.listed < 65536;
        });
        if (!tried || right.empty()) {
            return tried ? first.error() : tried.error();
        }
        const Names &names = right[0];
        const Papers chosen = kept([&](const Paper &paper) {
            return paper.id == last_ && std::find(names.begin(), names.end(), paper.name) != names.end();
        });
        auto secret = shamir::recover(chosen.all_, options);
        if (!secret) {
            return secret.error();
        }
        return Recovered{*std::move(secret), failed, detail::only_in(failed, right)};
    }

    /* The identifiers of the backups, in the order in which they came. */
    std::vector<std::uint16_t> ids() const
    {
        std::vector<std::uint16_t> found;
        for (const Paper &paper : of_) {
            if (std::find(found.begin(), found.end(), paper.id) == found.end()) {
                found.push_back(paper.id);
            }
        }
        return found;
    }

    /* The mnemonics of the backup with an identifier, in the order in which they came. */
    Mnemonics lines(std::uint16_t id) const
    {
        return kept([&](const Paper &paper) { return paper.id == id; }).all_;
    }

private:
    struct Paper {
        std::uint16_t id;
        Name name;
    };

    /* The papers for which a condition holds. */
    template <class Holds> Papers kept(const Holds &holds) const
    {
        Papers found;
        const auto all = all_.lines();
        for (std::size_t i = 0; i < all.size(); i++) {
            if (holds(of_[i])) {
                found.all_.add(all[i]);
                found.of_.push_back(of_[i]);
            }
        }
        return found;
    }

    void swap(Papers &other) noexcept
    {
        std::swap(all_, other.all_);
        std::swap(of_, other.of_);
        std::swap(last_, other.last_);
        std::swap(enough_, other.enough_);
    }

    Mnemonics all_;
    /* Which paper each line is. */
    std::vector<Paper> of_;
    std::uint16_t last_ = 0;
    bool enough_ = false;
};

} // namespace shamir

#endif
