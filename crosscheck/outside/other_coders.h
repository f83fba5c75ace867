// What libosmocore and libdvbv5 compute, to confirm IT++ on the same inputs. Their part is said at each function.
#pragma once
#include "ours.h"

// One encoder with its ending: osmo_conv_encode walks the code's table of outputs and next registers, which is ours.
Rows osmocom_encoder(const Bits &input);

// The image before scrambling: osmo_conv_encode for both encoders; the second one's inputs and what passes are ours.
Bits osmocom_coded(const Link &link, const Bits &block);

// The check of any number of bits: osmo_crc64gen_compute_bits.
uint32_t osmocom_check(const Bits &covered);

// Whether the row is a run of the sequence 1 + x^14 + x^15: osmo_prbs_get_ubits. Where the run starts is not tested.
bool osmocom_has_run(const Bits &row);

// The check of whole bytes as ITU-T H.222.0 defines it for MPEG transport streams: dvb_crc32.
uint32_t dvb_check(const Bytes &covered);
