// make_vectors TABLES FOLDER: reads Tables 4, 5, 6 and 23 from the first folder and writes the vectors to the second. Where two
// libraries can do the same, they must agree, or the program says on what they do not and ends with status 1.
#include "itpp_coders.h"
#include "other_coders.h"
#include <cstdio>
#include <fstream>
#include <iostream>
#include <stdexcept>

static const uint64_t seed = 2092;
static const int longest_image = 12855;

static void must(bool agree, const std::string &what) {
    if (!agree) throw std::runtime_error("the libraries do not agree on " + what);
}

static std::string eight_digits(uint32_t check) {
    char text[9];
    std::snprintf(text, sizeof text, "%08x", check);
    return text;
}

// The check by every library that takes so many bits.
static uint32_t check_of(const Bits &covered) {
    uint32_t check = osmocom_check(covered);
    std::string what = "the check of " + hex(covered);
    if (covered.size() >= 32) must(itpp_check(covered) == check, what);
    if (covered.size() % 8 == 0) {
        Bytes bytes;
        for (size_t at = 0; at < covered.size(); at += 8) {
            int byte = 0;
            for (size_t n = at; n < at + 8; n++) byte = 2 * byte + covered[n];
            bytes.push_back(byte);
        }
        must(dvb_check(bytes) == check, what);
    }
    return check;
}

static void write_encoder(std::ostream &out, Random &random) {
    out << "# One encoder: number of input bits, the input, and X, Y0, Y1 of its clocks and of the three of the ending.\n"
           "# Made by: IT++, Rec_Syst_Conv_Code; confirmed by libosmocore, osmo_conv_encode. See crosscheck/outside/README.md.\n";
    std::vector<Bits> inputs = {{1}, {1, 0, 0, 0, 0, 0, 0, 0}};
    for (int length : {1, 2, 3, 4, 5, 6, 7, 8, 23, 24, 25, 47, 48, 49, 96, 288, 999}) inputs.push_back(random.bits(length));
    for (const Bits &input : inputs) {
        Rows rows = itpp_encoder(input);
        must(rows == osmocom_encoder(input), "the encoder on " + hex(input));
        out << input.size() << '\t' << hex(input) << '\t' << hex(rows.x) << '\t' << hex(rows.y0) << '\t' << hex(rows.y1) << '\n';
    }
}

static void write_checks(std::ostream &out, Random &random) {
    out << "# Checks: number of covered bits, the covered bits, the check.\n"
           "# Made by: libosmocore, osmo_crc64gen_compute_bits; confirmed from 32 bits on by IT++, CRC_Code, and on whole bytes by\n"
           "# libdvbv5, dvb_crc32. See crosscheck/outside/README.md.\n";
    std::string nine = "123456789";
    std::vector<Bits> rows = {bits_of(Bytes(nine.begin(), nine.end())), {}};
    for (int length : {1, 2, 7, 8, 9, 16, 24, 31, 32, 33, 40, 63, 64, 65, 72, 160, 256, 640, 940, 1024}) {
        rows.push_back(random.bits(length));
        rows.push_back(Bits(length, 0));
        rows.push_back(Bits(length, 1));
    }
    for (const Bits &row : rows) out << row.size() << '\t' << hex(row) << '\t' << eight_digits(check_of(row)) << '\n';
}

static void write_scrambler(std::ostream &out) {
    out << "# The scrambler: number of bits, and the bits that it puts on the longest image.\n"
           "# Made by: IT++, LFSR; confirmed, but for the loading word, by libosmocore, osmo_prbs15. See crosscheck/outside/README.md.\n";
    Bits put_on = itpp_scrambler(longest_image);
    must(osmocom_has_run(put_on), "the scrambler's sequence");
    out << put_on.size() << '\t' << hex(put_on) << '\n';
}

static void write_image(std::ostream &out, const Link &link, const Bytes &datagram) {
    Bits block = covered_bits(link, datagram);
    uint32_t check = check_of(block);
    for (int n = 31; n >= 0; n--) block.push_back(check >> n & 1);
    Bits image = itpp_coded(link, block);
    must(image == osmocom_coded(link, block), "a block of link " + std::to_string(link.number));
    Bits put_on = itpp_scrambler(static_cast<int>(image.size()));
    for (size_t n = 0; n < image.size(); n++) image[n] ^= put_on[n];
    out << link.number << '\t' << hex(bits_of(datagram)) << '\t' << eight_digits(check) << '\t' << image.size() << '\t' << hex(image)
        << '\n';
}

static void write_images(std::ostream &out, const std::vector<Link> &links, Random &random) {
    out << "# Blocks: link, datagram, its check with the fill, N, the image as it is sent, scrambled. The first one is the worked\n"
           "# burst's datagram; then for each link one that fills it, one of half its length and the empty one.\n"
           "# Made by: IT++, Punctured_Turbo_Codec, Turbo_Codec and LFSR; confirmed by libosmocore, osmo_conv_encode. The check as in\n"
           "# checks.txt. See crosscheck/outside/README.md.\n";
    write_image(out, links[0], {0x50, 0x0E, 0xB7, 0x9A, 0x2A, 0x75, 0xBC, 0xD1, 0x62, 0x00, 0x00, 0x32});
    for (const Link &link : links) {
        for (int length : {link.bytes(), link.bytes() / 2, 0}) write_image(out, link, random.bytes(length));
    }
}

int main(int count, char **arguments) try {
    if (count != 3) throw std::runtime_error("use: make_vectors TABLES FOLDER");
    std::string tables = arguments[1], folder = arguments[2];
    Random random(seed);
    std::ofstream encoder(folder + "/encoder.txt"), checks(folder + "/checks.txt");
    std::ofstream scrambler(folder + "/scrambler.txt"), images(folder + "/images.txt");
    write_encoder(encoder, random);
    write_checks(checks, random);
    write_scrambler(scrambler);
    write_images(images, read_links(tables), random);
    for (std::ofstream *file : {&encoder, &checks, &scrambler, &images}) {
        file->close();
        if (!*file) throw std::runtime_error("cannot write to " + folder);
    }
    return 0;
} catch (const std::exception &error) {
    std::cerr << "make_vectors: " << error.what() << '\n';
    return 1;
}
