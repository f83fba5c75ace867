// What IT++ computes. Its part is said at each function.
#pragma once
#include "ours.h"

// One encoder with its ending: Rec_Syst_Conv_Code::encode_tail.
Rows itpp_encoder(const Bits &input);

// The image before scrambling. Turbo_Codec runs both encoders, lays out the second one's inputs by the sequence it is given and
// ends both; Punctured_Turbo_Codec also punctures the data clocks. Which bits of the ending pass, and how often, is ours.
Bits itpp_coded(const Link &link, const Bits &block);

// The check of 32 bits or more: CRC_Code.
uint32_t itpp_check(const Bits &covered);

// The first bits that the scrambler puts on: LFSR.
Bits itpp_scrambler(int count);
