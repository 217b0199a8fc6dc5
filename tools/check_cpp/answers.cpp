/*
 * Makes calls of shamir.hpp, and writes what the command shamir would print. tools/check_cpp runs it, and tools/generated_cases.py says what
 * the lines of its input and output are.
 */
#include <iostream>
#include <map>
#include <optional>
#include <string>
#include <vector>

#include "shamir.hpp"

namespace {

using Value = std::optional<std::string>;
using Values = std::vector<Value>;
using Output = shamir::Answer<std::string>;

std::string hex(const std::uint8_t *bytes, std::size_t count)
{
    static const char digits[] = "0123456789abcdef";
    std::string text;
    for (std::size_t i = 0; i < count; i++) {
        text += {digits[bytes[i] >> 4], digits[bytes[i] & 15]};
    }
    return text;
}

template <class Held> std::string hex(const Held &held) { return hex(reinterpret_cast<const std::uint8_t *>(held.data()), held.size()); }

Value value(const std::string &word)
{
    if (word == "-") {
        return {};
    }
    std::string bytes;
    for (std::size_t i = 1; i < word.size(); i += 2) {
        bytes += static_cast<char>(std::stoi(word.substr(i, 2), nullptr, 16));
    }
    return bytes;
}

shamir::Bytes bytes(const Value &it) { return {reinterpret_cast<const std::uint8_t *>(it->data()), it->size()}; }

std::uint32_t number(const Value &it) { return static_cast<std::uint32_t>(std::stoul(*it)); }

/* Gives a text of the value of an answer, or its refusal. */
template <class Held, class Tell> Output told(const shamir::Answer<Held> &answer, const Tell &tell)
{
    if (!answer) {
        return answer.error();
    }
    return std::string(tell(*answer));
}

Output lines(const shamir::Answer<shamir::Mnemonics> &answer)
{
    return told(answer, [](const auto &mnemonics) { return shamir::Text(mnemonics); });
}

Output digits(const shamir::Answer<shamir::Secret> &answer)
{
    return told(answer, [](const auto &secret) { return hex(secret) + "\n"; });
}

std::string fields(const shamir_share &share)
{
    return "identifier " + std::to_string(share.id) + " extendable " + std::to_string(share.extendable) + " exponent "
        + std::to_string(share.exponent) + " group " + std::to_string(share.group_index) + " group-threshold "
        + std::to_string(share.group_threshold) + " group-count " + std::to_string(share.group_count) + " member "
        + std::to_string(share.member_index) + " member-threshold " + std::to_string(share.member_threshold);
}

Output show(const Values &given)
{
    return told(shamir::parse(*given[0]), [](const shamir::Share &share) { return fields(share) + " value " + hex(share.value) + "\n"; });
}

/* Creates a backup twice: the random bytes are given, and drawn if there are as many as are needed. */
Output create(const Values &given)
{
    shamir::CreateOptions options;
    options.passphrase = *given[2];
    options.exponent = number(given[3]);
    options.extendable = !given[4]->empty();
    const auto made = shamir::create(*given[0], bytes(given[1]), options, bytes(given[5]));
    const auto drawn = shamir::create(*given[0], bytes(given[1]), options, [&](std::uint8_t *room, std::size_t count) {
        std::copy_n(bytes(given[5]).data(), std::min(count, given[5]->size()), room);
    });
    if (made && shamir::Text(*made) != shamir::Text(*drawn)) {
        throw std::logic_error("bytes that are given and bytes that are drawn give two backups");
    }
    return lines(made);
}

Output random_needed(const Values &given)
{
    return told(shamir::random_needed(*given[0], number(given[1])), [](const auto &count) { return std::to_string(count) + "\n"; });
}

Output recover(const Values &given)
{
    shamir::RecoverOptions options;
    options.passphrase = *given[0];
    options.expected = given[1];
    options.max_exponent = number(given[3]);
    const auto secret = shamir::recover(*given[4], options);
    if (given[2]->empty()) {
        return digits(secret);
    }
    return told(secret, [](const auto &found) { return *shamir::fingerprint(found) + "\n"; });
}

Output encrypted(const Values &given)
{
    return told(shamir::encrypted(*given[0]), [](const shamir::EncryptedSecret &secret) {
        return "identifier " + std::to_string(secret.id) + " extendable " + std::to_string(secret.extendable) + " exponent "
            + std::to_string(secret.exponent) + " value " + hex(secret.value) + "\n";
    });
}

/* Returns the encrypted secret with the numbers from this place on. */
shamir::EncryptedSecret encrypted_secret(const Values &given, std::size_t place, std::size_t value)
{
    shamir::EncryptedSecret secret{};
    secret.id = static_cast<std::uint16_t>(number(given[place]));
    secret.extendable = !given[place + 1]->empty();
    secret.exponent = static_cast<std::uint8_t>(number(given[place + 2]));
    secret.value.assign(bytes(given[value]).data(), bytes(given[value]).data() + given[value]->size());
    return secret;
}

Output decrypt(const Values &given) { return digits(shamir::decrypt(encrypted_secret(given, 0, 5), {*given[3], given[4]})); }

Output decrypt_round(const Values &given)
{
    return digits(shamir::decrypt_round(encrypted_secret(given, 1, 5), static_cast<std::uint8_t>(number(given[0])), *given[4]));
}

std::string found(const shamir::Outcome &outcome)
{
    if (outcome.secret) {
        return hex(*outcome.secret);
    }
    if (outcome.fingerprint) {
        return *outcome.fingerprint;
    }
    if (outcome.expected) {
        return *outcome.expected ? "as expected" : "other secret";
    }
    return *outcome.mismatch == SHAMIR_OF_GROUPS ? "digest mismatch of groups" : "digest mismatch in group " + std::to_string(*outcome.mismatch);
}

/* Drills as far as the limit. The library lists a few quorums in each call. */
Output drill(const Values &given)
{
    shamir::DrillOptions options;
    options.passphrase = *given[0];
    options.after = given[1] ? shamir::detail::names(*given[1]) : shamir::Names();
    options.expected = given[2];
    options.fingerprints = !given[4]->empty();
    options.max_exponent = number(given[5]);
    options.at_once = 20;
    std::string listed, last;
    const auto drilled = shamir::drill(*given[6], options, [&](const shamir::Outcome &outcome, const shamir::Progress &progress) {
        if (progress.listed > number(given[3])) {
            return false;
        }
        last = shamir::to_text(outcome.names);
        listed += last + " " + found(outcome) + "\n";
        return true;
    });
    return told(drilled, [&](const auto &it) { return listed + (it.ended ? "end" : "more after " + last) + "\n"; });
}

Output quorums(const Values &given)
{
    return told(shamir::quorums(*given[0]), [](const auto &count) { return std::to_string(count) + "\n"; });
}

Output fingerprint(const Values &given)
{
    return told(shamir::fingerprint(bytes(given[0])), [](const auto &digits) { return digits + "\n"; });
}

Output status(const Values &given) { return told(shamir::status(*given[0]), [](const auto &it) { return shamir::to_text(it); }); }

Output judge(const Values &given)
{
    return told(shamir::judge(*given[1], *given[0]), [](const shamir::Judgement &found) {
        return (found.again ? "again " : "new ") + fields(found.share) + "\n" + shamir::to_text(found.status);
    });
}

Output reissue(const Values &given) { return lines(shamir::reissue(*given[0], shamir::detail::names(*given[1]), *given[2])); }

Output create_from_encrypted(const Values &given)
{
    return lines(shamir::create_from_encrypted(*given[0], encrypted_secret(given, 1, 5), bytes(given[4])));
}

Output resplit(const Values &given) { return lines(shamir::resplit(*given[0], *given[2], bytes(given[1]))); }

Output repair(const Values &given) { return lines(shamir::repair(*given[0])); }

Output words(const Values &given)
{
    return told(shamir::words(*given[0]), [](const auto &found) {
        std::string text;
        for (const std::string &word : found) {
            text += word + "\n";
        }
        return text;
    });
}

const std::map<std::string, Output (*)(const Values &)> commands = {
    {"show", show}, {"create", create}, {"recover", recover}, {"encrypted", encrypted}, {"decrypt", decrypt}, {"drill", drill},
    {"status", status}, {"judge", judge}, {"reissue", reissue}, {"resplit", resplit}, {"repair", repair}, {"words", words},
    {"create_from_encrypted", create_from_encrypted},
    {"decrypt_round", decrypt_round}, {"random_needed", random_needed}, {"quorums", quorums}, {"fingerprint", fingerprint},
};

} // namespace

int main()
{
    for (std::string line; std::getline(std::cin, line);) {
        Values given;
        const auto parts = shamir::detail::parts(line, ' ');
        for (std::size_t i = 1; i < parts.size(); i++) {
            given.push_back(value(std::string(parts[i])));
        }
        const Output output = commands.at(std::string(parts[0]))(given);
        std::cout << "." << (output ? hex(*output) : "") << " ." << (output ? "" : hex(output.error().message())) << "\n";
    }
}
