#include "itpp_coders.h"
#include <itpp/itcomm.h>
#include <stdexcept>

// Polynomials in IT++'s integer form, D^0 the highest binary digit of four: d = 1 + D^2 + D^3, n0 = 1 + D + D^3,
// n1 = 1 + D + D^2 + D^3. The first one is the feedback.
static const itpp::ivec polynomials = "11 13 15";  // 1011, 1101, 1111
static const int constraint_length = 4;

static itpp::bvec to_itpp(const Bits &bits) {
    itpp::bvec row(static_cast<int>(bits.size()));
    for (int n = 0; n < row.size(); n++) row(n) = bits[n];
    return row;
}

static Bits from_itpp(const itpp::bvec &row) {
    Bits bits;
    for (int n = 0; n < row.size(); n++) bits.push_back(row(n).value());
    return bits;
}

Rows itpp_encoder(const Bits &input) {
    itpp::Rec_Syst_Conv_Code code;
    code.set_generator_polynomials(polynomials, constraint_length);
    itpp::bvec in = to_itpp(input), tail;
    itpp::bmat parity;
    code.encode_tail(in, tail, parity);
    return {from_itpp(itpp::concat(in, tail)), from_itpp(parity.get_col(0)), from_itpp(parity.get_col(1))};
}

// Table 5's flags as IT++ takes them: a row each for X, Y0, Y1, Y'0, Y'1, a column for each clock. IT++ never sends X', as no
// pattern of ours does.
static itpp::bmat puncturing(const Link &link) {
    static const int outputs[5] = {0, 1, 2, 4, 5};
    itpp::bmat matrix(5, static_cast<int>(link.pattern.size()));
    for (int clock = 0; clock < matrix.cols(); clock++) {
        const Clock &flags = link.pattern[clock];
        if (flags[3] != 0) throw std::runtime_error("X' passes at a data clock");
        for (int row = 0; row < 5; row++) matrix(row, clock) = flags[outputs[row]];
    }
    return matrix;
}

// The ending: 18 bits, X Y0 Y1 of three clocks of the first encoder, then of the second.
static Bits passed_ending(const Link &link, const Bits &ending) {
    Bits passed;
    for (int clock = 0; clock < 6; clock++) {
        int first = clock < 3 ? 0 : 3;
        for (int n = 0; n < 3; n++) passed.insert(passed.end(), link.tail[clock][first + n], ending[3 * clock + n]);
    }
    return passed;
}

Bits itpp_coded(const Link &link, const Bits &block) {
    itpp::ivec sequence(link.k);
    std::vector<int> pi = interleaver(link);
    for (int s = 0; s < link.k; s++) sequence(s) = pi[s] - 1;
    itpp::bvec whole, punctured;

    itpp::Turbo_Codec turbo;
    turbo.set_parameters(polynomials, polynomials, constraint_length, sequence);
    turbo.encode(to_itpp(block), whole);

    itpp::bmat matrix = puncturing(link);
    itpp::Punctured_Turbo_Codec shorter;
    shorter.set_parameters(polynomials, polynomials, constraint_length, sequence, matrix);
    shorter.encode(to_itpp(block), punctured);

    int data = 0;
    for (int s = 1; s <= link.k; s++) {
        for (int copies : link.passing(s)) data += copies;
    }
    Bits coded = from_itpp(punctured.left(data));
    Bits ending = passed_ending(link, from_itpp(whole.right(18)));
    coded.insert(coded.end(), ending.begin(), ending.end());
    return coded;
}

// IT++ starts with a register of zeros. A register loaded with ones is the same as one of zeros with the first 32 bits
// inverted. IT++ names the generator 0x04C11DB7 CCITT-32; its "CRC-32" is another polynomial.
uint32_t itpp_check(const Bits &covered) {
    if (covered.size() < 32) throw std::runtime_error("fewer than 32 bits");
    itpp::bvec bits = to_itpp(covered), parity;
    for (int n = 0; n < 32; n++) bits(n) += itpp::bin(1);
    itpp::CRC_Code("CCITT-32").parity(bits, parity);
    uint32_t check = 0;
    for (int n = 0; n < 32; n++) check = 2 * check + parity(n).value();
    return check;
}

// Cells 14 and 15 of 15 are added; the sum is put out and goes into cell 1. The loading word, cell 1 first, is ours: the worked
// burst of M.2092-1 fixes it.
Bits itpp_scrambler(int count) {
    itpp::LFSR cells;
    cells.set_connections(itpp::bvec("1 0 0 0 0 0 0 0 0 0 0 0 0 0 1 1"));
    cells.set_state(itpp::bvec("1 0 0 1 0 1 0 1 0 0 0 0 0 0 0"));
    return from_itpp(cells.shift(count));
}
