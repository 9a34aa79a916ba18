/*
 * Lamptassel: judges and moves protected disk blocks.
 *
 * For C11 and C++17 on x86-64 Linux; link with -llamptassel. "Document 01" below is
 * "Blocks, commands and answers of the cabinet", whose words and numbers are used here;
 * comparing while verifying, with answer 15, and scrubbing are of document 02, its change
 * requests.
 *
 * Every function answers every input. A value out of range is refused; it is never cut to
 * fewer bits and never makes the program fail. What holds for all functions:
 *
 * - A buffer is lent as a pointer and its length in bytes. A pointer may be null where
 *   its length is 0. A pointer to a single number must never be null: `address` and `place`
 *   of a command, `kind` of a format choice, and `next`, `judged`, `faults` and
 *   `first_fault` of a scrub.
 * - What lies behind a const pointer is only read, and may overlap other buffers that are
 *   only read. What lies behind any other pointer must overlap nothing else that is lent;
 *   so `address` and `place` are two places, and a scrub's numbers have four. No alignment
 *   of buffers is asked for.
 * - Any answer but 0 leaves every lent byte as it was. Only those single numbers are written
 *   with every answer. (lamptassel_list returns a length and not an answer: it writes to
 *   `out` for every record, for a refused one the line that says so.)
 * - Nothing is kept after the call: no allocation, no global state, no lock. A call needs
 *   less than 4 KB of stack.
 * - Any number of threads may call at once, as long as nobody else touches a buffer during
 *   the call that writes it, or writes one during a call that reads it. A READ and a VERIFY
 *   only read `segment`, a WRITE and a VERIFY only read `buffer`, though they are not const:
 *   so READs, VERIFYs and scrubs of one segment may run at the same time, and what is only
 *   read may lie in read-only memory (a cast from const is allowed there).
 *
 * Six numbers describe a segment, in this order:
 *
 *   kind      P, its type of protection: 0 (none), 1, 2 or 3
 *   block     B, the bytes of user data in a block: 8 to 4,096, a multiple of 8
 *   exponent  e, 0 to 3: a block has n = 2^e intervals; 0 for types 0 and 1
 *   first     W, the address of its first block; W + N is at most 2^63
 *   count     N, the number of its blocks: 1 to 65,536
 *   ato       ATO, 0 or 1: whether application tags belong to the host
 *
 * For types 1 to 3 each interval of B / n data bytes is followed by its fields, eight
 * bytes: guard (2), application tag (2), reference tag (4), all big-endian. A stored
 * block has S = B + 8n bytes, for type 0 S = B; a segment has exactly N * S. Numbers that
 * describe no segment are refused with answer 1.
 *
 * A block has the escape if one of its intervals has the application tag FFFFh, for type 3
 * with the reference tag FFFFFFFFh.
 */
#ifndef LAMPTASSEL_H
#define LAMPTASSEL_H

#include <stddef.h>
#include <stdint.h>

#ifdef __cplusplus
extern "C" {
#endif

/*
 * The answers; comments call them by their numbers. 8 to 10 come with the address of the
 * block and the place of the interval, 15 with the address of the block alone.
 */
enum lamptassel_answer {
    LAMPTASSEL_GOOD = 0,
    LAMPTASSEL_DESCRIPTION_BAD = 1,
    LAMPTASSEL_SEGMENT_LENGTH_WRONG = 2,
    LAMPTASSEL_COMMAND_LENGTH_WRONG = 3,
    LAMPTASSEL_BUFFER_LENGTH_WRONG = 4,
    LAMPTASSEL_OPERATION_INVALID = 5,
    LAMPTASSEL_FIELD_INVALID = 6, /* in the command */
    LAMPTASSEL_ADDRESS_OUT_OF_RANGE = 7, /* or the place of a scrub */
    LAMPTASSEL_GUARD_CHECK_FAILED = 8,
    LAMPTASSEL_APPLICATION_CHECK_FAILED = 9,
    LAMPTASSEL_REFERENCE_CHECK_FAILED = 10,
    LAMPTASSEL_STRIPE_SHAPE_BAD = 11,
    LAMPTASSEL_PARAMETER_INVALID = 12,   /* a field in the parameter list */
    LAMPTASSEL_LISTING_RECORD_BAD = 13,  /* only ever printed, by lamptassel_list */
    LAMPTASSEL_TRANSFER_TOO_LARGE = 14,  /* above 4,294,967,295 bytes: never reached, no segment is so large */
    LAMPTASSEL_BLOCK_DIFFERS = 15        /* from the one sent, where a VERIFY compares them */
};

/* The senses, as lamptassel_sense gives them; the other answers have none. */
enum lamptassel_sense_of_answer {
    LAMPTASSEL_SENSE_OPERATION = 0x052000,
    LAMPTASSEL_SENSE_FIELD = 0x052400,
    LAMPTASSEL_SENSE_ADDRESS = 0x052100,
    LAMPTASSEL_SENSE_GUARD = 0x0B1001,
    LAMPTASSEL_SENSE_APPLICATION = 0x0B1002,
    LAMPTASSEL_SENSE_REFERENCE = 0x0B1003,
    LAMPTASSEL_SENSE_PARAMETER = 0x052600,
    LAMPTASSEL_SENSE_BLOCK = 0x0E1D00
};

/* The parts of a sense. */
#define LAMPTASSEL_KEY_OF(sense) ((sense) >> 16 & 0xFF)
#define LAMPTASSEL_CODE_OF(sense) ((sense) >> 8 & 0xFF)
#define LAMPTASSEL_QUALIFIER_OF(sense) ((sense) & 0xFF)

/*
 * Executes one command on a segment: READ, WRITE or VERIFY of 10, 12, 16 or 32 bytes.
 *
 *   kind .. ato       the segment's six numbers
 *   segment           its stored blocks, N * S bytes
 *   command           the command as it came, byte 0 first
 *   buffer            the transfer's blocks: for a WRITE they come from here, a READ puts
 *                     them here, a VERIFY with byte-check bits 01b compares with them. With
 *                     T the command's length in blocks: T * B bytes with protect code 000
 *                     (user data alone), T * S with any other (data and fields as stored),
 *                     0 for a VERIFY with byte-check bits 00b
 *   address, place    the address of the block and the place of the interval in the
 *                     transfer, counted from 0, where the answer is 8, 9 or 10; the address
 *                     of the block and 0 where it is 15; 0 and 0 with every other answer
 *
 * All of the transfer is judged before the first byte moves. A READ and a VERIFY never
 * change the segment, a WRITE and a VERIFY never the buffer; a good WRITE overwrites the
 * transfer's own blocks of the segment and no other.
 *
 * Not judged: code 011 checks nothing, a READ or VERIFY skips a stored block that has the
 * escape, and type 0 has no fields. Codes 000, 001 and 101 check all three fields, 010 all
 * but the guard, 100 the guard alone; and each only where it is known what it must be: the
 * guard always; the application tag with ATO 1 and a 32-byte command, under its mask; the
 * reference tag for type 1 from the low four bytes of the command's address on, for type 2
 * from the first tag of a 32-byte command on, one more for each interval, modulo 2^32; for
 * type 3 never.
 *
 * A WRITE with code 000 brings no fields to judge. For types 1 to 3 it inserts
 *   the guard
 *   the application tag: with ATO 0 0000h; with ATO 1 the expected tag of a 32-byte
 *       command, else FFFFh, which is the escape of types 1 and 2: a later READ or VERIFY
 *       does not check such a block
 *   the reference tag: as expected above; for type 2 with 10, 12 or 16 bytes the address of
 *       the block * n + the interval in the block, modulo 2^32; for type 3 0
 *
 * A VERIFY moves nothing. With byte-check bits 00b (bits 2-1 of the byte that has the
 * protect code) it checks the stored intervals as a READ does. With 01b it compares the
 * stored blocks with those in buffer, after all checks have passed:
 *   with code 000 the stored intervals are checked, and then the user data is compared;
 *       fields are not, since none are sent
 *   with any other code the intervals in buffer are checked as those of a WRITE, with no
 *       escape, and not the stored ones; then all S bytes of each block are compared
 *   for type 0 nothing is checked, and the data is compared
 * A block that has the escape is compared like any other.
 *
 * Returns
 *   0   good
 *   1   the six numbers describe no segment
 *   2   segment_length is not N * S
 *   3   the command is empty, or its length is not that of its operation
 *   4   buffer_length is not what the command asks for (see buffer)
 *   5   the operation is not served; types 0, 1 and 3 serve no 32-byte command; type 2
 *       serves commands of 10, 12 and 16 bytes only with code 000
 *   6   a field of the command is invalid: its protect code (110, 111; for type 0 any but
 *       000), the byte-check bits of a VERIFY (10b, 11b), or byte 7 of 32
 *   7   address below W, or address + T above W + N, also where T is 0
 *   8, 9, 10  guard, application tag or reference tag of an interval is not as expected;
 *       the first such interval is named, and in it the first such field
 *   14  the transfer has more than 4,294,967,295 bytes: never reached
 *   15  with byte-check bits 01b a stored block differs from the one in buffer; the first
 *       such block is named
 * Where several apply: 1, then 2, then those of the command's own bytes (3, 5, 6, in the
 * order of document 01), then 7, then 14, then 4, then 8 to 10, then 15.
 */
uint64_t lamptassel_execute(uint64_t kind, uint64_t block, uint64_t exponent, uint64_t first, uint64_t count,
                            uint64_t ato, uint8_t *segment, size_t segment_length, const uint8_t *command,
                            size_t command_length, uint8_t *buffer, size_t buffer_length, uint64_t *address,
                            uint64_t *place);

/*
 * The format choice: the type of a segment, from what the unit supports, a format command
 * and its parameter list. Nothing is formatted.
 *
 *   spt       SPT, the types that the unit supports: 0 to 7
 *   protect   PROTECT, whether it supports any: 0 or 1
 *   fmtpinfo  FMTPINFO, the protection that the format command asks for: 0 to 3
 *   usage     the protection field usage of the parameter list: 0 to 7
 *   kind      the type, 0 to 3, with answer 0; 0 with every other answer
 *
 * Returns 0; 6 for a number out of range or an FMTPINFO that the unit does not support;
 * 12 for a usage that does not go with the FMTPINFO.
 */
uint64_t lamptassel_format_choice(uint64_t spt, uint64_t protect, uint64_t fmtpinfo, uint64_t usage, uint64_t *kind);

/*
 * Fills a fresh segment: all data bytes 00h, all field bytes FFh. Types 1 to 3: every block
 * has the escape, and READ, VERIFY and a scrub check nothing in it.
 *
 *   kind .. ato  the segment's six numbers
 *   segment      room for its stored blocks, N * S bytes
 *
 * Returns 0; 1 if the six numbers describe no segment; 2 if segment_length is not N * S.
 */
uint64_t lamptassel_fill(uint64_t kind, uint64_t block, uint64_t exponent, uint64_t first, uint64_t count,
                         uint64_t ato, uint8_t *segment, size_t segment_length);

/*
 * Scrubs some blocks of a segment: judges what is stored as lamptassel_list does, and moves
 * nothing. Call by call a server goes through a segment between other work.
 *
 *   kind .. ato  the segment's six numbers
 *   segment      its stored blocks, N * S bytes
 *   place        where in the segment to begin: the number of blocks before it, 0 to N
 *   blocks       how many blocks to look at, any number: covered are the smaller of it and
 *                the N - place blocks left
 *   next         the new place, behind the blocks covered
 *   judged       how many blocks were covered: *next - place
 *   faults       how many of them have a fault
 *   first_fault  the address of the first that has one, 0 where none has. With W = 0 it may
 *                be 0 either way, and *faults tells which
 *
 * A block has a fault if an interval of it is listed in state guard or ref: if its guard is
 * wrong, or in type 1 its reference tag is not the low four bytes of the block's address.
 * Application tags are not judged. A block that has the escape, as a fresh one has, and a
 * block of type 0 have no fault; they count as covered like any other.
 *
 * Returns
 *   0   good, whether blocks have faults or not
 *   1   the six numbers describe no segment
 *   2   segment_length is not N * S
 *   7   place is above N
 * Where several apply: 1, then 2, then 7. With these three *next is place, and the other
 * numbers are 0.
 *
 * Nothing is kept between calls. A server begins at place 0, and goes on with each call where
 * the last one stopped (place is passed by value: next may point to the variable that holds
 * it). It adds up *faults, and the first fault of all is the *first_fault of the first call
 * whose *faults is above 0. It is through when *next is N. A loop may also end when *judged
 * is 0: if blocks is above 0, that call was refused or began at N.
 *
 * Nobody may write the segment during a call. Between calls anybody may: each call tells of
 * its blocks as they were during that call, so a block that is written before the scrub
 * comes to it is judged as written, and one that is written after it has passed is not
 * looked at again: the sum of faults is then not that of the segment at any one moment. If
 * nothing is written between the first call and the last, the sum of faults and the first
 * fault are those of one call over all blocks, whatever the steps.
 */
uint64_t lamptassel_scrub(uint64_t kind, uint64_t block, uint64_t exponent, uint64_t first, uint64_t count,
                          uint64_t ato, const uint8_t *segment, size_t segment_length, uint64_t place,
                          uint64_t blocks, uint64_t *next, uint64_t *judged, uint64_t *faults,
                          uint64_t *first_fault);

/*
 * Stripes: k segments of one description of type 1 to 3, the members, and their parity,
 * which is the exclusive or of their stored bytes, fields included. A part, member or
 * parity, has N * S bytes. Nothing is judged.
 *
 * All three return 0; 1 if the six numbers describe no segment; 11 for type 0, a k outside
 * 1 to 16, a lost number above k, or a buffer whose length is not the one given below.
 */

/*
 * Makes the parity.
 *
 *   kind .. ato  the six numbers of each member
 *   k            the number of members
 *   members      the members end to end, k * N * S bytes
 *   out          where the parity goes, N * S bytes; what it held does not matter
 */
uint64_t lamptassel_parity(uint64_t kind, uint64_t block, uint64_t exponent, uint64_t first, uint64_t count,
                           uint64_t ato, uint64_t k, const uint8_t *members, size_t members_length, uint8_t *out,
                           size_t out_length);

/*
 * Rebuilds a lost part from the others.
 *
 *   kind .. ato  the six numbers of each member
 *   k            the number of members
 *   lost         the lost part's number: 0 to k - 1 for a member, k for the parity
 *   parts        the k members and then the parity, end to end, (k + 1) * N * S bytes; the
 *                lost one's bytes are not used
 *   out          where the lost part goes, N * S bytes; what it held does not matter. It must
 *                not be the lost part's own place in parts, nor overlap parts at all
 */
uint64_t lamptassel_rebuild(uint64_t kind, uint64_t block, uint64_t exponent, uint64_t first, uint64_t count,
                            uint64_t ato, uint64_t k, uint64_t lost, const uint8_t *parts, size_t parts_length,
                            uint8_t *out, size_t out_length);

/*
 * Corrects the parity after one member has changed, without the other members.
 *
 *   kind .. ato  the six numbers of each member
 *   old          the member's bytes before, N * S
 *   changed      its bytes after, N * S
 *   parity       the parity that went with the old ones, N * S bytes; becomes that of the
 *                changed ones
 */
uint64_t lamptassel_correct(uint64_t kind, uint64_t block, uint64_t exponent, uint64_t first, uint64_t count,
                            uint64_t ato, const uint8_t *old, size_t old_length, const uint8_t *changed,
                            size_t changed_length, uint8_t *parity, size_t parity_length);

/*
 * Returns the guard of an interval's data: the remainder of the data times x^16, divided
 * modulo 2 by 18BB7h; no initial value, no complement. That of no bytes is 0.
 */
uint16_t lamptassel_guard(const uint8_t *data, size_t length);

/* Returns the same number, worked out bit by bit: slower, and a second way to the same end. */
uint16_t lamptassel_guard_by_division(const uint8_t *data, size_t length);

/*
 * The guards of many intervals in one call, which for short intervals is faster than one
 * call for each.
 *
 *   data  the data of the intervals end to end, without fields
 *   size  the bytes of one interval, at least 1; length is a multiple of it
 *   out   where the guards go, two bytes for each interval, big-endian
 *
 * Returns 0; 4 if size is 0, if length is not a multiple of size, or if out_length is not
 * two for each interval.
 */
uint64_t lamptassel_guards(const uint8_t *data, size_t length, size_t size, uint8_t *out, size_t out_length);

/*
 * Writes the listing of a record: a header, one line for each interval of its segment, with
 * its fields and its state (skipped, guard, ref or ok: the reference tag is judged in type 1
 * alone, the application tag never), and the totals. For a record that is refused it is one
 * line: "refused 13" if the record is bad, "refused 1" if it describes no segment,
 * "refused 2" if its segment has another length than described. Each line ends with a line
 * feed; there is no zero byte at the end.
 *
 *   input  the whole record: its length L (4 bytes, at most 65,532), then L bytes: version 1,
 *          P, e (one byte each), B (2), W (8), N (2), all big-endian, and the segment
 *   out    where the text goes; if it is too short, it takes the listing's first bytes
 *
 * Returns the length of the whole listing, at most 524,288, however much of it fits into
 * out. With out_length 0 it only counts.
 */
size_t lamptassel_list(const uint8_t *input, size_t input_length, uint8_t *out, size_t out_length);

/*
 * Returns the sense of an answer's number: sense key, additional sense code and its
 * qualifier, two hexadecimal digits each (05/20/00 is 0x052000); 0 for an answer without
 * a sense, and for a number that is not an answer's.
 */
uint32_t lamptassel_sense(uint64_t number);

#ifdef __cplusplus
}
#endif

#endif
