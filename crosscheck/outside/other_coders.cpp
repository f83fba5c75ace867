#include "other_coders.h"
#include <algorithm>
#include <stdexcept>
extern "C" {
#include <libdvbv5/crc32.h>
#include <osmocom/core/conv.h>
#include <osmocom/core/crc64gen.h>
#include <osmocom/core/prbs.h>
}

// The code as libosmocore takes it, for each register 4 a(t-1) + 2 a(t-2) + a(t-3): X Y0 Y1 and the next register, for each
// input and for the ending, where the input is a(t-2) + a(t-3). libosmocore has no such code of its own (its recursive ones are
// those of GSM), and no function that makes these tables of polynomials.
struct Code {
    uint8_t output[8][2], next[8][2], ending_output[8], ending_next[8];

    Code() {
        for (int state = 0; state < 8; state++) {
            int a1 = state >> 2, a2 = state >> 1 & 1, a3 = state & 1;
            for (int u = 0; u < 2; u++) {
                int a = u ^ a2 ^ a3, y0 = a ^ a1 ^ a3, y1 = a ^ a1 ^ a2 ^ a3;
                output[state][u] = 4 * u + 2 * y0 + y1;
                next[state][u] = 4 * a + 2 * a1 + a2;
            }
            ending_output[state] = output[state][a2 ^ a3];
            ending_next[state] = next[state][a2 ^ a3];
        }
    }
};

Rows osmocom_encoder(const Bits &input) {
    static const Code code;
    osmo_conv_code described{};
    described.N = 3;
    described.K = 4;
    described.len = static_cast<int>(input.size());
    described.term = CONV_TERM_FLUSH;
    described.next_output = code.output;
    described.next_state = code.next;
    described.next_term_output = code.ending_output;
    described.next_term_state = code.ending_next;

    Bits out(3 * (input.size() + 3));
    int count = osmo_conv_encode(&described, input.data(), out.data());
    if (count != static_cast<int>(out.size())) throw std::runtime_error("another count from osmo_conv_encode");
    Rows rows;
    for (size_t at = 0; at < out.size(); at += 3) {
        rows.x.push_back(out[at]);
        rows.y0.push_back(out[at + 1]);
        rows.y1.push_back(out[at + 2]);
    }
    return rows;
}

Bits osmocom_coded(const Link &link, const Bits &block) {
    Bits interleaved;
    for (int place : interleaver(link)) interleaved.push_back(block[place - 1]);
    Rows first = osmocom_encoder(block), second = osmocom_encoder(interleaved);
    Bits coded;
    for (int s = 1; s <= link.k; s++) {
        const Bits *rows[6] = {&first.x, &first.y0, &first.y1, &second.x, &second.y0, &second.y1};
        for (int n = 0; n < 6; n++) coded.insert(coded.end(), link.passing(s)[n], (*rows[n])[s - 1]);
    }
    for (int clock = 0; clock < 6; clock++) {
        const Rows &ending = clock < 3 ? first : second;
        const Bits *rows[3] = {&ending.x, &ending.y0, &ending.y1};
        const int *copies = &link.tail[clock][clock < 3 ? 0 : 3];
        for (int n = 0; n < 3; n++) coded.insert(coded.end(), copies[n], (*rows[n])[link.k + clock % 3]);
    }
    return coded;
}

// osmo_crc32gen_compute_bits cannot be used: at 32 bits its mask is a shift by the whole width, and it answers 0. The 64-bit
// function with a check of 32 bits has no such fault.
uint32_t osmocom_check(const Bits &covered) {
    static const osmo_crc64gen_code code = {32, 0x04C11DB7, 0xFFFFFFFF, 0};
    return osmo_crc64gen_compute_bits(&code, covered.data(), static_cast<int>(covered.size()));
}

bool osmocom_has_run(const Bits &row) {
    const size_t period = (1 << 15) - 1;
    osmo_prbs_state state;
    osmo_prbs_state_init(&state, &osmo_prbs15);
    Bits sequence(period + row.size());
    osmo_prbs_get_ubits(sequence.data(), static_cast<unsigned>(sequence.size()), &state);
    return std::search(sequence.begin(), sequence.end(), row.begin(), row.end()) != sequence.end();
}

uint32_t dvb_check(const Bytes &covered) {
    Bytes bytes = covered;
    return dvb_crc32(bytes.data(), bytes.size(), 0xFFFFFFFF);
}
