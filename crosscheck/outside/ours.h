// The parts of the vectors that are ours: the printed tables as data, the formula of pi, fill, and the choice of datagrams.
// Nothing here codes, checks or scrambles; packaged libraries do that (itpp_coders.h, other_coders.h).
#pragma once
#include <array>
#include <cstdint>
#include <string>
#include <vector>

using Bits = std::vector<uint8_t>;  // one bit to a byte
using Bytes = std::vector<uint8_t>;

// How many copies of X, Y0, Y1, X', Y'0 and Y'1 pass at one clock.
using Clock = std::array<int, 6>;

// A row of Table 4 with its pattern of Table 5 and its tail of Table 6.
struct Link {
    int number, k, k1, k2;
    std::array<int, 8> primes;
    std::vector<Clock> pattern, tail;

    int bytes() const { return (k - 32) / 8; }
    const Clock &passing(int s) const { return pattern[(s - 1) % pattern.size()]; }
};

// What one encoder puts out: the data clocks, then the three clocks of its ending.
struct Rows {
    Bits x, y0, y1;
    bool operator==(const Rows &other) const { return x == other.x && y0 == other.y0 && y1 == other.y1; }
};

// The links of document 01 and then link 4, with the tables as copied from M.2092-1 into this folder.
std::vector<Link> read_links(const std::string &tables);

// pi(1) to pi(k), from the text of M.2092-1, Annex 2, 1.2.4.3.
std::vector<int> interleaver(const Link &link);

// The bits before the check: the datagram, zero bytes up to the link's size, zero bits up to k - 32.
Bits covered_bits(const Link &link, const Bytes &datagram);

Bits bits_of(const Bytes &bytes);
std::string hex(const Bits &bits);  // four bits to a digit, zeros behind the last; "-" for none

// SplitMix64.
class Random {
    uint64_t state;

  public:
    explicit Random(uint64_t seed) : state(seed) {}
    uint64_t next();
    Bytes bytes(int count);
    Bits bits(int count);
};
