/* Decklewren: the burst coder of a VHF data exchange (VDES) module, ITU-R M.2092-1. For C11 and C++11; the archive is for x86-64
   with the System V ABI. "Document 01" is the firm's document that sets the scope, "document 02" the list of changes to it; where
   they differ from M.2092-1, they decide.

   THE CALLS keep nothing between them and need no preparing. A slot burst that comes in parts is kept by the caller, in a state:
   a decklewren_parts. Bits travel one to a byte, with the byte 0 or 1. Datagrams are plain bytes. Every call answers a struct whose
   status is 0 (done) or the number of a refusal; only decklewren_take_part, which refuses nothing, answers nothing.

   A REFUSAL answers its number, 0 for all else, and changes no byte of the buffers; a state that was asked is fresh all the same.
   One exception: 11, 9 and 12 of a step also answer the place of the message, and 12 the number of its missing bytes. Each call
   names its refusals in the order in which they are tried: where several apply, the first of that list is answered.

   WHAT A CALLER KEEPS TO. A pointer is valid for the length that follows it, for writing where it is not const; where the length
   is 0 it may be NULL. The two pointers to a state, count and bits, are never NULL: both are valid for the sizes in decklewren_parts,
   and count is aligned as a uint32_t is. The buffers and the state of one call do not overlap, and nobody changes them while the call
   runs. The stack has room: DECKLEWREN_STACK_... below says how much. Nothing else is asked: any number may stand for a link, a
   position, a start, a type or a source and in a state's count, any bytes in the buffers and in a state's bits, and a buffer may
   begin at any address, since bytes need no alignment.

   THREADS AND INTERRUPTS. The archive has no writable data, no heap and no locks: calls may run side by side in threads and inside
   one another, as where a signal or interrupt handler calls while a call runs. But a state is for one call at a time: where an
   interrupt hands over the parts and the main loop asks, no part may come to a state while it is asked. Either use two states in
   turn, so that the interrupt fills one while the other is asked, or mask the interrupt. A handler needs the stack too. On a bare
   machine it saves the SSE registers, and it leaves alone the 128 bytes below the stack pointer that it interrupts (the ABI's red
   zone): the archive uses both. Of the C library it takes memcpy and memset.

   WHAT IS PROVED, of the Rattle sources of these calls, for all input: a call returns, touches nothing but the buffers and the state
   that it is lent, and answers and writes what its contract says. The contracts leave one answer and one content of the buffers: what
   these held before reaches neither the answer nor the bytes that it counts, and the bytes before and behind those stay as they were.
   Each refusal is answered exactly when it is the first of its call's list that applies. "Proved" at a call below says what else.

   WHAT IS NOT PROVED: this header, the compiler's back end and the C side. They are tested: every name, size and function below
   is held to the archive, and every call to a second implementation that shares no code with the library. */

#ifndef DECKLEWREN_H
#define DECKLEWREN_H

#include <stddef.h>
#include <stdint.h>

#ifdef __cplusplus
extern "C" {
#endif

/* The version, here and nowhere else. MAJOR rises where a program must change or be compiled again (a call, a struct or a name that
   was there has changed or is gone), MINOR where something is new or a call answers otherwise, PATCH with every other change. */
#define DECKLEWREN_VERSION_MAJOR 2
#define DECKLEWREN_VERSION_MINOR 0
#define DECKLEWREN_VERSION_PATCH 3

/* The same as text: "2.0.3" is a literal, made of the three numbers. */
#define DECKLEWREN_TEXT_OF(major, minor, patch) #major "." #minor "." #patch
#define DECKLEWREN_TEXT(major, minor, patch) DECKLEWREN_TEXT_OF(major, minor, patch)
#define DECKLEWREN_VERSION DECKLEWREN_TEXT(DECKLEWREN_VERSION_MAJOR, DECKLEWREN_VERSION_MINOR, DECKLEWREN_VERSION_PATCH)

/* The numbers a caller gets back as status (document 01, the table of that name; of document 02, 10 is K1's, 9, 11 and 12 are K3's,
   13, 14 and the start of 8 are K6's, and the nine bits of 5 are K7's): X(name, number, what it says). */
#define DECKLEWREN_STATUSES(X)                                                                                                       \
    X(DECKLEWREN_DONE, 0, "done")                                                                                                    \
    X(DECKLEWREN_NOT_OFFERED, 1, "link not offered; number above 63 for a link word; slot burst not of link 5, 6, 7")                \
    X(DECKLEWREN_WRONG_LENGTH, 2, "datagram longer than the link holds; link word, block or slot burst of the wrong length")         \
    X(DECKLEWREN_NO_ROOM, 3, "output buffer too short")                                                                              \
    X(DECKLEWREN_NO_BIT, 4, "a byte neither 0 nor 1")                                                                                \
    X(DECKLEWREN_NO_TRAINING, 5, "training differs in nine or more bits")                                                            \
    X(DECKLEWREN_NO_WORD, 6, "no code word within seven")                                                                            \
    X(DECKLEWREN_NO_BLOCK, 7, "no valid block's image within one")                                                                   \
    X(DECKLEWREN_PAST_END, 8, "position or start past the end")                                                                      \
    X(DECKLEWREN_SMALL_LENGTH, 9, "length below 7")                                                                                  \
    X(DECKLEWREN_BROKEN_FILL, 10, "a byte other than 0 after a 0")                                                                   \
    X(DECKLEWREN_FEW_LEFT, 11, "fewer than 3 bytes left")                                                                            \
    X(DECKLEWREN_MESSAGE_PAST_END, 12, "message past the end")                                                                       \
    X(DECKLEWREN_NO_TYPE, 13, "type 0 or 81")                                                                                        \
    X(DECKLEWREN_LONG_BODY, 14, "more than 65528 bytes after the source")

/* The links that are offered (document 01, "The links", and document 02, K4): X(link, bytes of a datagram that it holds, N bits of
   its image). Images differ in two things from M.2092-1, because document 01 says so and outranks it: link 20 has 32 check bits in
   the place of 16, and none of the Recommendation's fill bits are sent, which makes N smaller on links 12 (by 3), 13 (8), 14 (30),
   15 (51), 16 (72), 18 (243), 19 (8), 22 (4) and 23 (3). On link 4, uplink to the satellite, the Recommendation is at odds with
   itself: its Tables 7 and 23 print 11 tail bits, which would make N 1280, and its Table 6 gives 12, which decides; of the two
   factors of k = 952 the second is 238, for which its Table 4 prints 240. */
#define DECKLEWREN_LINKS(X) \
    X(4, 115, 1281)         \
    X(5, 32, 394)           \
    X(6, 80, 906)           \
    X(7, 128, 1418)         \
    X(8, 20, 396)           \
    X(9, 52, 908)           \
    X(10, 84, 1420)         \
    X(11, 50, 874)          \
    X(12, 117, 1308)        \
    X(13, 158, 1740)        \
    X(14, 108, 1804)        \
    X(15, 248, 2700)        \
    X(16, 332, 3596)        \
    X(17, 230, 3754)        \
    X(18, 500, 5388)        \
    X(19, 698, 7500)        \
    X(20, 8, 402)           \
    X(21, 88, 1112)         \
    X(22, 386, 4692)        \
    X(23, 564, 6828)        \
    X(25, 593, 9562)        \
    X(32, 35, 1269)         \
    X(33, 531, 12855)

/* The links that have slot bursts (document 01, "Slot bursts"): X(link, bits of its slot burst). */
#define DECKLEWREN_SLOT_LINKS(X) \
    X(5, 480)                    \
    X(6, 992)                    \
    X(7, 1504)

/* The same as names: DECKLEWREN_NO_BLOCK is 7, DECKLEWREN_HELD_6 is 80, DECKLEWREN_IMAGE_6 is 906, DECKLEWREN_BURST_6 is 992. */
#define DECKLEWREN_NAME_STATUS(name, number, text) name = number,
#define DECKLEWREN_NAME_SIZES(link, held, image) DECKLEWREN_HELD_##link = held, DECKLEWREN_IMAGE_##link = image,
#define DECKLEWREN_NAME_BURST(link, burst) DECKLEWREN_BURST_##link = burst,
enum { DECKLEWREN_STATUSES(DECKLEWREN_NAME_STATUS) };
enum {
    DECKLEWREN_LINKS(DECKLEWREN_NAME_SIZES)
    DECKLEWREN_SLOT_LINKS(DECKLEWREN_NAME_BURST)
    DECKLEWREN_TRAINING_BITS = 54,               /* bits of the training that opens a slot burst */
    DECKLEWREN_WORD_BITS = 32,                   /* bits of a link word */
    DECKLEWREN_HELD_MOST = DECKLEWREN_HELD_19,   /* a buffer this long takes every link's datagram, */
    DECKLEWREN_IMAGE_MOST = DECKLEWREN_IMAGE_33, /* every link's image, */
    DECKLEWREN_BURST_MOST = DECKLEWREN_BURST_7,  /* every slot burst */
    DECKLEWREN_MESSAGE_HEAD = 7,                 /* bytes of a message before its body: type, length, source */
    DECKLEWREN_BODY_MOST = 65528                 /* bytes of the longest body: head and body then make 65535, the largest length */
};
#undef DECKLEWREN_NAME_STATUS
#undef DECKLEWREN_NAME_SIZES
#undef DECKLEWREN_NAME_BURST

/* Bytes of stack that a call takes below its caller's, on any link and any input: measured on the archive, return address and red
   zone counted, and rounded up. Those of blocks, of slot bursts and of the zero fill leave 500 bytes for memcpy and memset; the
   other calls use neither. The figures hold for programs that are linked statically or with -z now, or that have called both
   functions before. Where a dynamic linker binds memcpy or memset at its first call, the linker's own work comes on top and goes past
   the figures: 27880 bytes were measured for a first decklewren_read_block. */
enum {
    DECKLEWREN_STACK_WRITE_WORD = 128,
    DECKLEWREN_STACK_READ_WORD = 128,
    DECKLEWREN_STACK_WRITE_BLOCK = 13312,
    DECKLEWREN_STACK_READ_BLOCK = 26624,
    DECKLEWREN_STACK_WRITE_SLOT = 13312,
    DECKLEWREN_STACK_READ_SLOT = 26624,
    DECKLEWREN_STACK_TAKE_PART = 128,
    DECKLEWREN_STACK_READ_PARTS = 26624,
    DECKLEWREN_STACK_STEP_MESSAGE = 1536,
    DECKLEWREN_STACK_WRITE_MESSAGE = 128,
    DECKLEWREN_STACK_ZERO_FILL = 640
};

/* A status in words, for a log or a screen; there is no number above 14. */
static inline const char *decklewren_status_text(uint32_t status) {
    switch (status) {
#define DECKLEWREN_CASE(name, number, text) case name: return text;
        DECKLEWREN_STATUSES(DECKLEWREN_CASE)
#undef DECKLEWREN_CASE
    default: return "no number of document 01";
    }
}

/* The bytes of a datagram that a link holds; 0 where the link is not offered. */
static inline size_t decklewren_held(uint32_t link) {
    switch (link) {
#define DECKLEWREN_CASE(number, held, image) case number: return held;
        DECKLEWREN_LINKS(DECKLEWREN_CASE)
#undef DECKLEWREN_CASE
    default: return 0;
    }
}

/* N, the bits of a link's image; 0 where the link is not offered. */
static inline size_t decklewren_image(uint32_t link) {
    switch (link) {
#define DECKLEWREN_CASE(number, held, image) case number: return image;
        DECKLEWREN_LINKS(DECKLEWREN_CASE)
#undef DECKLEWREN_CASE
    default: return 0;
    }
}

/* The bits of a link's slot burst; 0 where the link has none. */
static inline size_t decklewren_burst(uint32_t link) {
    switch (link) {
#define DECKLEWREN_CASE(number, burst) case number: return burst;
        DECKLEWREN_SLOT_LINKS(DECKLEWREN_CASE)
#undef DECKLEWREN_CASE
    default: return 0;
    }
}

/* What writing a link word, a block or a slot burst answers: count is the number of bytes laid at the buffer's start. */
typedef struct {
    uint32_t status;
    uint32_t count;
} decklewren_written;

/* What reading a link word answers: wrong is the number of places, 0 to 7, where it differs from the number's word. */
typedef struct {
    uint32_t status;
    uint32_t number;
    uint32_t wrong;
} decklewren_word;

/* What reading a block answers: count is the number of the datagram's bytes laid at the buffer's start, wrong the number of
   places, 0 or 1, where the image of its block differs from what came. */
typedef struct {
    uint32_t status;
    uint32_t count;
    uint32_t wrong;
} decklewren_block;

/* What reading a slot burst answers: count and wrong as reading its block does, the link that its link word names, word_wrong, the
   number of places, 0 to 7, where the link word differs, and training_wrong, how many of the training's 54 bits differ, 0 to 8. */
typedef struct {
    uint32_t status;
    uint32_t count;
    uint32_t wrong;
    uint32_t link;
    uint32_t word_wrong;
    uint32_t training_wrong;
} decklewren_slot;

/* A slot burst that comes in parts, the caller's to keep: how many bytes came, counted up to 1505, and the first 1504 of them. It is
   fresh where all is zero, as a static one is at the start and every one after it was asked. */
typedef struct {
    uint32_t count;
    uint8_t bits[DECKLEWREN_BURST_MOST];
} decklewren_parts;

/* What a step through a datagram answers: where a message starts and its total length; both are 0 where no more follow. With 11, 9
   and 12 start is the place of the message that is refused, and length 0. With 12 missing is the number of bytes that the message
   declares past the end, start + declared length - datagram_len; it is 0 in every other answer. */
typedef struct {
    uint32_t status;
    uint64_t start;
    uint64_t length;
    uint64_t missing;
} decklewren_step;

/* What laying a message or zeros into a datagram answers: count is the number of bytes laid from start on, so that the next message
   goes to start + count. It has 64 bits, for there may be more zeros than 32 bits count. */
typedef struct {
    uint32_t status;
    uint64_t count;
} decklewren_laid;

/* Writes the link word of a number (M.2092-1, Annex 2, 1.2.3.4).
   Returns:  status and count 32
   In:       number, 0 to 63, be the link of that number offered or not
   Out:      32 bytes 0 or 1 at the start of out; bytes behind stay
   Refusals: 1 number above 63, 3 out_len below 32
   Proved:   these 32 are the number's word; reading them answers the number with wrong 0 */
decklewren_written decklewren_write_word(uint32_t number, uint8_t *out, size_t out_len);

/* Reads 32 bits as a link word.
   Returns:  status, the number whose word is within seven places, and how many places are wrong
   In:       bits, 32 bytes 0 or 1
   Out:      nothing
   Refusals: 2 bits_len is not 32, 4 a byte neither 0 nor 1, 6 no code word within seven
   Proved:   a row of 32 bits is answered exactly when one of the 64 words is within seven places of it, and at most one is; that
             word's number and the places that differ are the answer */
decklewren_word decklewren_read_word(const uint8_t *bits, size_t bits_len);

/* Writes the image of a datagram's block (M.2092-1, Annex 2, 1.2.4 to 1.2.6).
   Returns:  status and count N, N being the link's in DECKLEWREN_LINKS
   In:       link; datagram, at most as many bytes as the link holds; it is filled with zero bytes
   Out:      N bytes 0 or 1 at the start of out; bytes behind stay
   Refusals: 1 link not offered, 2 datagram longer than the link holds, 3 out_len below N
   Proved:   these N are the image of the datagram's block; reading them answers the filled datagram with wrong 0 */
decklewren_written decklewren_write_block(uint32_t link, const uint8_t *datagram, size_t datagram_len, uint8_t *out, size_t out_len);

/* Reads the image of a block, with at most one bit of it wrong.
   Returns:  status, count, and how many places are wrong
   In:       link; bits, N bytes 0 or 1, N being the link's in DECKLEWREN_LINKS
   Out:      the datagram, all the bytes that the link holds, at the start of out; bytes behind stay. The zero fill is not cut
             away: a datagram may end in zeros of its own
   Refusals: 1 link not offered, 2 bits_len is not N, 3 out_len below the bytes that the link holds, 4 a byte neither 0 nor 1,
             7 no valid block's image within one place
   Proved:   N bits, with room in out, are answered exactly when the image of some block that can be written is within one place
             of them; only one such block exists, and its datagram and the places that differ are the answer. So one wrong bit of
             what was written is always mended */
decklewren_block decklewren_read_block(uint32_t link, const uint8_t *bits, size_t bits_len, uint8_t *out, size_t out_len);

/* Writes the slot burst of a datagram (M.2092-1, Annex 3, Table 23): 54 bits of training, the link word, the block.
   Returns:  status and count 86 + N: 480, 992 or 1504
   In:       link, 5, 6 or 7; datagram, at most as many bytes as the link holds (32, 80, 128); it is filled with zero bytes
   Out:      86 + N bytes 0 or 1 at the start of out; bytes behind stay
   Refusals: 1 link not 5, 6, 7, 2 datagram longer than the link holds, 3 out_len below 86 + N
   Proved:   these bits are the datagram's burst; reading them answers the link and the filled datagram, with nothing wrong */
decklewren_written decklewren_write_slot(uint32_t link, const uint8_t *datagram, size_t datagram_len, uint8_t *out, size_t out_len);

/* Reads a slot burst, with at most eight bits of its training wrong (document 02, K7), seven of its link word and one of its block.
   Returns:  status, count, how many places of the block are wrong, the link, and how many of its word and of the training are
   In:       bits, 86 + N bytes 0 or 1, N being that of the link which the link word names: 480, 992 or 1504
   Out:      the datagram, all the bytes that the link holds (32, 80, 128), at the start of out; bytes behind stay
   Refusals: 2 bits_len below 86, 4 a byte neither 0 nor 1 in these 86, 5 training differs in nine or more bits, 6 no code word
             within seven, 1 link not 5, 6, 7, 2 the rest is not N long, 3 out_len below the bytes that the link holds,
             4 a byte neither 0 nor 1 in the rest, 7 no valid block's image within one place of the rest
   Proved:   a row of bits, with room in out, is answered exactly when its first 54 are within eight places of the training, the word
             of link 5, 6 or 7 is within seven of the next 32 and the image of a block of that link within one of the rest; only one
             link and block are so near, and they are the answer, with the true number of wrong places in each of the three. So eight
             wrong bits of the training, seven of the word and one of the block are always mended */
decklewren_slot decklewren_read_slot(const uint8_t *bits, size_t bits_len, uint8_t *out, size_t out_len);

/* Takes the next part of a slot burst into a state (document 02, K2).
   Returns:  nothing
   In:       part, any number of bytes, also none. They are kept as they come: one that is no bit is judged when the state is asked.
             The part may be used again as soon as the call returns
   Out:      count, more by part_len and at most 1505; bits, with the part behind what came before, as far as there is room
   Refusals: none
   Proved:   count and bits become just that, whatever they were */
void decklewren_take_part(uint32_t *count, uint8_t bits[DECKLEWREN_BURST_MOST], const uint8_t *part, size_t part_len);

/* Asks a state for its slot burst: reads what came as decklewren_read_slot does, and leaves the state fresh (document 02, K2).
   Returns:  as decklewren_read_slot
   In:       count and bits, as the parts left them; a count above 1505 is read as 1505
   Out:      the datagram as by decklewren_read_slot; count 0 and all of bits 0, after a refusal too, so that no byte of a burst
             outlives its answer
   Refusals: as decklewren_read_slot, in the same order. After 3 the burst is gone as well: lend DECKLEWREN_HELD_7 bytes. To drop a
             burst, ask with out_len 0
   Proved:   from a fresh state and for every list of parts, the answer and the bytes in out are those of reading the joined parts
             whole, also where they are longer than 1504; the state is fresh afterwards */
decklewren_slot decklewren_read_parts(uint32_t *count, uint8_t bits[DECKLEWREN_BURST_MOST], uint8_t *out, size_t out_len);

/* The same two calls on a decklewren_parts. */
static inline void decklewren_parts_take(decklewren_parts *parts, const uint8_t *part, size_t part_len) {
    decklewren_take_part(&parts->count, parts->bits, part, part_len);
}

static inline decklewren_slot decklewren_parts_read(decklewren_parts *parts, uint8_t *out, size_t out_len) {
    return decklewren_read_parts(&parts->count, parts->bits, out, out_len);
}

/* Finds the message that begins at a position of a datagram (M.2092-1, Annex 4, 4.9), or behind the bytes 81 there: these are fill,
   which a step passes over, and may stand before, between and behind the messages. A byte 0 in the place of a type begins the zero
   fill, which goes on to the end. To walk a datagram, step from 0, each next time from start + length, until length is 0: the
   status then says whether it is finished or which refusal ended it.
   Returns:  status with the message's start and total length, or with both 0 where no more follow ("finished"); where bytes 81
             were passed over, start lies behind the position. 11, 9 and 12 come with the start of the message that is refused, and
             12 with its missing bytes
   In:       datagram, and any position
   Out:      nothing
   Refusals: 8 position past the end; then, behind the bytes 81 passed over, of a message 11 fewer than 3 bytes left, 9 length
             below 7, 12 message past the end, or of the zero fill 10 a byte other than 0 after a 0
   Proved:   start + length is at most datagram_len, whatever the bytes say; a message is answered exactly where, behind bytes 81
             alone, one begins that is as long as it declares, at least 7, and ends inside. Each of 11, 9 and 12 is answered exactly
             where, behind bytes 81 alone, a message begins of which it is true, and none before it in that order; start is that
             message's, below datagram_len, and missing is its true number, 0 with all but 12. The walk ends; between its messages
             lie only bytes 81, and where it is finished, behind the last one lie bytes 81 and then zeros. Where it comes to a
             message of which 11, 9 or 12 is true, and only there, it ends with that answer */
decklewren_step decklewren_step_message(const uint8_t *datagram, size_t datagram_len, size_t position);

/* Lays a message into a datagram, over what stands there (document 02, K6): type, total length (two bytes, high byte first), source
   (four bytes, high byte first), body. To fill a datagram, lay the first message at 0 and each next one at start + count of the last,
   and end with decklewren_zero_fill.
   Returns:  status and count 7 + body_len
   In:       datagram, the buffer, and any start; type, any but 0 and 81; source; body, what follows the source, at most 65528 bytes
   Out:      count bytes from start on; bytes before and behind stay
   Refusals: 8 start past datagram_len, 13 type 0 or 81, 14 body_len above 65528, 3 fewer than 7 + body_len bytes from start on
   Proved:   these bytes are the message: a step from start answers start and count, and type, source and body are at their places.
             Every list of messages that fits can be laid in this way; the datagram is then their bytes and zeros, and a walk finds
             exactly these messages, in their order, and is finished */
decklewren_laid decklewren_write_message(uint8_t *datagram, size_t datagram_len, size_t start, uint8_t type, uint32_t source,
                                         const uint8_t *body, size_t body_len);

/* Lays zeros into a datagram from a start to the end, over what stands there (document 02, K6).
   Returns:  status and count datagram_len - start, 0 where start is the end
   In:       datagram, the buffer, and any start
   Out:      zeros from start on; bytes before stay
   Refusals: 8 start past datagram_len
   Proved:   the bytes from start on are zeros; with decklewren_write_message as it says there */
decklewren_laid decklewren_zero_fill(uint8_t *datagram, size_t datagram_len, size_t start);

#ifdef __cplusplus
}
#endif

#endif
