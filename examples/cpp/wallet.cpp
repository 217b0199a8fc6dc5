/* Four clients of the library. The first line of standard input is the passphrase, except for `repair`. Papers are the
 * lines after it, or those of a file. Ctrl-C stops a drill. To stay short, it shows what is typed, in strings that keep
 * copies. A wallet hides and clears it. `g++ -std=c++17 -Iinclude examples/cpp/wallet.cpp libshamir.a` compiles it. */
#include <csignal>
#include <fstream>
#include <iostream>
#include <map>
#include <sstream>
#include <sys/random.h>

#include "shamir.hpp"

static volatile std::sig_atomic_t stopped;

static void draw(std::uint8_t *bytes, std::size_t count) {
    if (getrandom(bytes, count, 0) != static_cast<ssize_t>(count))
        throw std::runtime_error("no random bytes");
}

static void make(shamir::Text passphrase, char **words) {
    shamir::Secret secret(16);
    draw(secret.data(), secret.size());
    std::cout << shamir::Text(*shamir::create(words[2], secret, {passphrase}, draw));
    std::cout << "# fingerprint " << *shamir::fingerprint(secret) << "\n";
}

static void recover(shamir::Text passphrase, char **words) {
    shamir::Papers papers;
    for (std::string paper; std::getline(std::cin, paper);) {
        std::cout << shamir::to_text(papers.add(paper));
        if (!papers.enough())
            continue;
        const auto found = papers.recover({passphrase, words[2]});
        if (!found && found.error().code == SHAMIR_E_DIGEST_MISMATCH) {
            std::cout << found.error().message() << "\n";
            continue;
        }
        for (const shamir::Name &name : found->doubtful)
            std::cout << "doubtful " << shamir::to_text(shamir::Names{name}) << "\n";
        std::cout << "fingerprint " << *shamir::fingerprint(found->secret) << "\n";
        return;
    }
    throw std::runtime_error("more papers are needed");
}

static void drill(shamir::Text passphrase, char **words) {
    std::ostringstream papers;
    if (!(papers << std::ifstream(words[3]).rdbuf()))
        throw std::runtime_error("the file can't be read, or is empty");
    std::signal(SIGINT, [](int number) { stopped = number; });
    const auto tell = [](const shamir::Outcome &outcome, const shamir::Progress &progress) {
        std::cout << progress.listed << " of " << progress.quorums << ": " << shamir::to_text(outcome.names)
                  << (outcome.expected == true ? " as expected" : " NOT as expected") << std::endl;
        return !stopped;
    };
    const auto drilled = shamir::drill(papers.str(), {passphrase, words[2]}, tell);
    if (!drilled->ended)
        std::cout << "stopped after " << shamir::to_text(drilled->last) << "\n";
}

static void repair(shamir::Text line, char **) { std::cout << shamir::Text(*shamir::repair(line)); }

int main(int count, char **words) try {
    static const std::map<std::pair<shamir::Text, int>, void (*)(shamir::Text, char **)> clients = {
        {{"make", 3}, make}, {{"recover", 3}, recover}, {{"drill", 4}, drill}, {{"repair", 2}, repair}};
    const auto client = clients.find({count > 1 ? words[1] : "", count});
    std::string line;
    if (client == clients.end() || !std::getline(std::cin, line))
        throw std::runtime_error(
            "give make PLAN, recover FINGERPRINT, drill FINGERPRINT FILE or repair, and a line of input");
    client->second(line, words);
    return std::cout.flush() ? 0 : throw std::runtime_error("the output can't be written");
} catch (const std::exception &error) {
    std::cerr << error.what() << "\n";
    return 1;
}
