#include "ours.h"
#include <fstream>
#include <sstream>
#include <stdexcept>

// In the order in which their vectors are drawn: link 4 joined the others later.
static const int offered[] = {5, 6, 7, 8, 9, 10, 11, 12, 13, 14, 15, 16, 17, 18, 19, 20, 21, 22, 23, 25, 32, 33, 4};

// The columns of each row of a copied table, without the line number; rows that open with # are remarks.
static std::vector<std::vector<std::string>> columns_of(const std::string &path) {
    std::ifstream file(path);
    if (!file) throw std::runtime_error("cannot read " + path);
    std::vector<std::vector<std::string>> rows;
    for (std::string line; std::getline(file, line);) {
        if (line[0] == '#') continue;
        std::istringstream text(line);
        std::vector<std::string> columns;
        for (std::string column; std::getline(text, column, '\t');) columns.push_back(column);
        rows.emplace_back(columns.begin() + 1, columns.end());
    }
    return rows;
}

// The clocks of the pattern or tail of this name: `1;0;1;0;0;0 1;0;0;0;0;0 ...`.
static std::vector<Clock> clocks_of(const std::string &path, const std::string &name) {
    for (const auto &columns : columns_of(path)) {
        if (columns[0] != name) continue;
        std::vector<Clock> clocks;
        std::istringstream text(columns[2]);
        for (std::string printed; text >> printed;) {
            std::istringstream flags(printed);
            Clock clock{};
            char semicolon;
            for (int n = 0; n < 6; n++) {
                if (n > 0) flags >> semicolon;
                if (!(flags >> clock[n])) throw std::runtime_error("not six flags: " + printed);
            }
            clocks.push_back(clock);
        }
        return clocks;
    }
    throw std::runtime_error("no flags " + name + " in " + path);
}

// Link 4's k2, for which Table 4 prints 240: Table 23's payload to the satellite, behind the last stroke, and its check are k.
static int settled_k2(const std::string &tables, int k1) {
    auto rows = columns_of(tables + "/table23.txt");
    const std::string &payloads = rows.at(0).at(1), &check = rows.at(1).at(1);
    return (std::stoi(payloads.substr(payloads.rfind('/') + 1)) + std::stoi(check)) / k1;
}

static Link read_link(const std::string &tables, int number) {
    for (const auto &columns : columns_of(tables + "/table4.txt")) {
        if (std::stoi(columns[0]) != number) continue;
        Link link{};
        link.number = number;
        link.k = std::stoi(columns[2]);
        std::istringstream factors(columns[3]), primes(columns[4]);
        factors >> link.k1 >> link.k2;
        if (number == 4) link.k2 = settled_k2(tables, link.k1);
        for (int &prime : link.primes) primes >> prime;
        link.pattern = clocks_of(tables + "/table5.txt", columns[5]);
        link.tail = clocks_of(tables + "/table6.txt", columns[6]);
        if (link.k1 * link.k2 != link.k) throw std::runtime_error("k is not k1 times k2");
        return link;
    }
    throw std::runtime_error("Table 4 has no link " + std::to_string(number));
}

std::vector<Link> read_links(const std::string &tables) {
    std::vector<Link> links;
    for (int number : offered) links.push_back(read_link(tables, number));
    return links;
}

// "The s-th bit read out after interleaving is the pi(s)-th bit of the information block." The text prints p_{qj}; it is taken
// as p_q times j.
std::vector<int> interleaver(const Link &link) {
    std::vector<int> sequence;
    for (int s = 1; s <= link.k; s++) {
        int m = (s - 1) % 2;
        int i = (s - 1) / (2 * link.k2);
        int j = (s - 1) / 2 - i * link.k2;
        int t = (19 * i + 1) % (link.k1 / 2);
        int q = t % 8 + 1;
        int c = (link.primes[q - 1] * j + 21 * m) % link.k2;
        sequence.push_back(2 * (t + c * (link.k1 / 2) + 1) - m);
    }
    return sequence;
}

Bits covered_bits(const Link &link, const Bytes &datagram) {
    Bits covered = bits_of(datagram);
    covered.resize(link.k - 32, 0);
    return covered;
}

Bits bits_of(const Bytes &bytes) {
    Bits bits;
    for (uint8_t byte : bytes) {
        for (int n = 7; n >= 0; n--) bits.push_back(byte >> n & 1);
    }
    return bits;
}

std::string hex(const Bits &bits) {
    std::string digits;
    for (size_t at = 0; at < bits.size(); at += 4) {
        int digit = 0;
        for (size_t n = at; n < at + 4; n++) digit = 2 * digit + (n < bits.size() ? bits[n] : 0);
        digits += "0123456789abcdef"[digit];
    }
    return digits.empty() ? "-" : digits;
}

uint64_t Random::next() {
    uint64_t z = (state += 0x9E3779B97F4A7C15u);
    z = (z ^ (z >> 30)) * 0xBF58476D1CE4E5B9u;
    z = (z ^ (z >> 27)) * 0x94D049BB133111EBu;
    return z ^ (z >> 31);
}

Bytes Random::bytes(int count) {
    Bytes bytes;
    for (int n = 0; n < count; n++) bytes.push_back(next() & 255);
    return bytes;
}

Bits Random::bits(int count) {
    Bits bits;
    for (int n = 0; n < count; n++) bits.push_back(next() & 1);
    return bits;
}
