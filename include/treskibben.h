/*
 * Treskibben: LLVM stack map sections, versions 3 and 1, and the flat proposal of version 2.
 *
 * The functions are those of libtreskibben.a, for x86-64 Linux. Each is proved to answer every
 * input, to read and write nothing but the bytes that it is lent, and to end. None allocates, keeps
 * a pointer, or has state of its own, so threads may call them at the same time.
 */
#ifndef TRESKIBBEN_H
#define TRESKIBBEN_H

#include <stddef.h>
#include <stdint.h>

#ifdef __cplusplus
extern "C" {
#endif

/*
 * The version of this interface: of the names, structs and numbers below. It is raised by one with
 * every change that a program written for the version before could not live with.
 *
 * treskibben_version answers the version of the library that is linked. treskibben_version_3 answers
 * the same, and only a library of version 3 has it: a program that calls it, as
 * TRESKIBBEN_REQUIRE_VERSION() does, can't be linked with another.
 *
 * Version 3 moves pointers in registers too: each frame brings 32 registers, which are lent as the image is,
 * and its frame pointer and stack pointer are read from them. A frame is two numbers, and so is one of a
 * thread. Version 2 moved frames of two machines, told both pointers in the frame, and wrote memory alone.
 */
#define TRESKIBBEN_VERSION 3
uint32_t treskibben_version(void);
uint32_t treskibben_version_3(void);
#define TRESKIBBEN_REQUIRE_VERSION() ((void)treskibben_version_3())

/*
 * What a call answers. The answers to questions begin with the same two fields.
 *
 * number: 0 where the input is accepted, else the number of the refusal.
 * place:  where the fault is, as the refusal says; 0 where the input is accepted.
 * value:  what an accepted call gives beside that, as the function says; 0 on every refusal.
 */
typedef struct treskibben_answer {
    uint64_t number;
    uint64_t place;
    uint64_t value;
} treskibben_answer;

/*
 * Checks that the `length` bytes at `section` are a whole stack map section, of version 3 or 1, and
 * nothing else. `value` is 0.
 *
 * `section` must point at `length` bytes that can be read and that nobody writes during the call.
 * It must not be NULL, not even where `length` is 0; any other pointer will do then. The bytes
 * are left untouched, whatever the answer.
 *
 * The answer is the first of these that holds, in the order: 1, 2, 3 in the header, 4 for
 * functions, 4 for constants, 5, then for each record 4, 8, and its bytes from left to right
 * (3, 6, and 7 at the end of its location), and 9 last. 5 and 8 are of version 3 alone: version 1
 * doesn't say which function has a record. Bytes are counted from 0.
 *
 *   number  when                                                     place
 *   0       the section is accepted                                  0
 *   1       section under 16 or over 16,777,216 bytes                0
 *   2       version neither 1 nor 3                                  0
 *   3       a byte required to be zero isn't                         that byte
 *   4       a function, constant or record isn't wholly inside       its first byte
 *   5       record counts, added exactly, differ from NumRecords     12
 *   6       location kind not 1 to 5                                 that byte
 *   7       ConstIndex offset negative or not below NumConstants     the location's first byte
 *   8       record address over 2^64 - 1                             the record's first byte
 *   9       bytes after the last record                              the first such byte
 */
treskibben_answer treskibben_check(const uint8_t *section, size_t length);

/*
 * Questions on a section.
 *
 * `section` and `length` are lent as to treskibben_check. Each question first gives the refusal
 * that treskibben_check gives, if the section has a fault. Then come these, 27 before 10 and 10 before
 * 11:
 *
 *   number  when                                                     place
 *   0       the question is answered                                 0
 *   27      question by address of version 1, or by function and     0
 *           offset of version 3
 *   10      no record of that number or address, or no such          0
 *           function or offset
 *   11      no location or live-out of that number                   0
 *
 * All fields of a refused answer but number and place are 0. Functions, constants and records are
 * numbered from 0 through the section, locations and live-outs from 0 in each record; any number
 * may be asked for. A question costs about as much as the check.
 */

/*
 * What the question by address answers, and the one by function and offset.
 *
 * index:    the number of the first record with the address or at the offset, in section order.
 * function: the number of that record's function; of version 1, the one that was asked for.
 * sharing:  how many records have the address or are at the offset, the first one included.
 */
typedef struct treskibben_find_answer {
    uint64_t number;
    uint64_t place;
    uint64_t index;
    uint64_t function;
    uint64_t sharing;
} treskibben_find_answer;

/*
 * The first record with this address: its function's address plus its instruction offset. 10
 * exactly if there is none. The question is for version 3; 27 on version 1.
 */
treskibben_find_answer treskibben_find(const uint8_t *section, size_t length, uint64_t address);

/*
 * The first record at this instruction offset, asked for by the number of a function. 10 exactly if
 * there is no such function or no record at the offset. The question is for version 1, which doesn't
 * say which function has a record: every function finds the same records. 27 on version 3.
 */
treskibben_find_answer treskibben_find_in_function(const uint8_t *section, size_t length,
                                                   uint64_t function, uint64_t offset);

/*
 * What the question by record number answers.
 *
 * first:  the record's first byte in the section, where its ID stands.
 * length: how many bytes it has, up to its last padding byte. They are all inside the section, and
 *         no record is empty.
 */
typedef struct treskibben_record_answer {
    uint64_t number;
    uint64_t place;
    uint64_t first;
    uint64_t length;
} treskibben_record_answer;

/* Where the record of this number stands in the section. */
treskibben_record_answer treskibben_record(const uint8_t *section, size_t length, uint64_t record);

/*
 * What the question by record and location number answers.
 *
 * constant:       the 64-bit constant of kinds 4 and 5; 0 for kinds 1 to 3.
 * offset:         the signed offset, as it stands in the section for every kind.
 * size:           the value's size in bytes; of version 1 the location's second byte, which may hold
 *                 any number.
 * dwarf_register: the register's DWARF number; constants don't use it.
 * kind:           1 Register, the value is in the register;
 *                 2 Direct, the value is register + offset;
 *                 3 Indirect, the value is in memory at register + offset;
 *                 4 Constant, the value is the offset, sign-extended;
 *                 5 ConstIndex, the value is the section's constant number offset.
 * content:        where the value is held, by the kind alone: 1 in a register (kind 1), 2 in memory
 *                 (kind 3), 0 in neither.
 */
typedef struct treskibben_location_answer {
    uint64_t number;
    uint64_t place;
    uint64_t constant;
    int32_t offset;
    uint16_t size;
    uint16_t dwarf_register;
    uint8_t kind;
    uint8_t content;
} treskibben_location_answer;

/* The location of this number in the record of that number. */
treskibben_location_answer treskibben_location(const uint8_t *section, size_t length,
                                               uint64_t record, uint64_t location);

/*
 * What the question by record and live-out number answers: a register that is in use after the
 * record's instruction.
 *
 * dwarf_register: the register's DWARF number.
 * size:           how many of its bytes are in use.
 */
typedef struct treskibben_live_out_answer {
    uint64_t number;
    uint64_t place;
    uint16_t dwarf_register;
    uint8_t size;
} treskibben_live_out_answer;

/* The live-out of this number in the record of that number. */
treskibben_live_out_answer treskibben_live_out(const uint8_t *section, size_t length,
                                               uint64_t record, uint64_t live_out);

/*
 * An address index.
 *
 * An index of a section is a list of 64-bit numbers, two a record: its address and its number, by turns,
 * ordered by address and then by number. One is filled once and then asked many addresses at a time, by
 * halving, in one walk of the section: treskibben_find walks it anew for each. Only version 3 has addresses;
 * version 1 gives 27, whatever else is lent.
 *
 * An index that is lent to a call has to be the written part of the list and nothing beyond it: any
 * other list than exactly the entries that this section yields is refused by 29, also one that is
 * longer, shorter or in another order. Each call tests it, in the walk of the check. The index of a
 * section without records is empty.
 *
 * `section` is lent as to treskibben_check; an index and a list of addresses as a list to
 * treskibben_relocate, and may share their bytes; a list that is written as an output to a conversion: no
 * pointer may be NULL, all of them must be aligned, and a written list shares no byte with anything else
 * that is lent.
 */

/*
 * Fills an index of a section. `index` has room for `index_length` numbers; `value` is how many are
 * written, twice the number of records. Numbers beyond those are left untouched, and all are on a
 * refusal. A list of (length - 16) / 12 numbers is never too short. The answer is the first of these that
 * holds, in this order:
 *
 *   number  when                                                     place
 *   1 to 9  the refusal that treskibben_check gives the section      as there
 *   27      the section is of version 1                              0
 *   24      index_length below twice the number of records           0
 *   0       the index is written                                     0
 *
 * Records that lie in address order already are not sorted, which is the cheaper case by far.
 */
treskibben_answer treskibben_fill_index(const uint8_t *section, size_t length, uint64_t *index,
                                        size_t index_length);

/*
 * The question by address, asked through an index of `index_length` numbers: all fields are those of
 * treskibben_find. The answer is the first of these that holds, in this order:
 *
 *   number  when                                                     place
 *   1 to 9  the refusal that treskibben_check gives the section      as there
 *   27      the section is of version 1                              0
 *   29      index isn't exactly the entries that the section yields  0
 *   10      no record has the address                                0
 *   0       the question is answered                                 0
 *
 * The section is checked and the index tested at each call, so that a single question is not faster
 * than by treskibben_find. Ask many by treskibben_find_all_by_index.
 */
treskibben_find_answer treskibben_find_by_index(const uint8_t *section, size_t length,
                                                const uint64_t *index, size_t index_length,
                                                uint64_t address);

/*
 * The question by address for each of `address_count` addresses, asked through an index. The section is
 * checked and the index tested once.
 *
 * `answers` has room for `answers_length` numbers. Five are written for each address, in the order of the
 * addresses: number, place, index, function and sharing, the fields of a treskibben_find_answer, so that an
 * array of those can be lent. Where no record has the address, the number in the list is 10 and the others
 * are 0; that is no refusal of the call. `value` is how many numbers are written, five times
 * `address_count`. Numbers beyond those are left untouched, and all are on a refusal. The answer is the
 * first of these that holds, in this order:
 *
 *   number  when                                                     place
 *   1 to 9  the refusal that treskibben_check gives the section      as there
 *   27      the section is of version 1                              0
 *   29      index isn't exactly the entries that the section yields  0
 *   24      answers_length below five times address_count            0
 *   0       the answers are written                                  0
 */
treskibben_answer treskibben_find_all_by_index(const uint8_t *section, size_t length,
                                               const uint64_t *index, size_t index_length,
                                               const uint64_t *addresses, size_t address_count,
                                               uint64_t *answers, size_t answers_length);

/*
 * Linked sections.
 *
 * A linker puts the stack maps of several objects one after the other into one section, which
 * treskibben_check refuses by 9 where the second begins. A linked section is such maps: where the check gives
 * 9 at p, the first p bytes are a map, and the rest is cut in the same way; where it accepts the rest, that is
 * the last map. Maps are numbered from 0 in their order, and may be of either version each. A section that
 * treskibben_check accepts is a linked one of one map.
 *
 * Any other refusal of a rest is that of the whole. Its place is counted from the first byte of the whole, and
 * so is every other place below. 9 is never given: bytes after the last map that are none are refused as the
 * map that they would begin, by 1 where they are fewer than 16. The whole has at most 16,777,216 bytes.
 *
 * `section` is lent as to treskibben_check, and a list that is written as an output to a conversion: no pointer
 * may be NULL, the list must be aligned, and it shares no byte with the section.
 *
 * The frames of a thread are moved over a linked section by treskibben_edition_linked_thread, below.
 */

/*
 * The maps of a linked section. `list` has room for `list_length` numbers; two are written for each map, in
 * their order: its first byte in the section and its length. `value` is how many maps there are. Numbers beyond
 * those are left untouched, and all are on a refusal. A list of length / 8 numbers is never too short. The
 * answer is the first of these that holds, in this order:
 *
 *   number  when                                                     place
 *   1       the whole has over 16,777,216 bytes                      0
 *   1 to 8  the refusal that treskibben_check gives the rest from    the map's first byte plus the
 *           a map on, of the first map where it is not 9             place that the check gives
 *   24      list_length below two numbers a map                      0
 *   0       the list is written                                      0
 */
treskibben_answer treskibben_linked_maps(const uint8_t *section, size_t length, uint64_t *list,
                                         size_t list_length);

/*
 * What the question by address over all maps answers. All fields of a refused answer but number and place are 0.
 *
 * map:      the number of the first map that has a record with the address.
 * index:    the number of the first such record in that map, counted in it alone.
 * function: the number of that record's function in that map.
 * sharing:  how many records of all maps have the address, the first one included.
 */
typedef struct treskibben_linked_answer {
    uint64_t number;
    uint64_t place;
    uint64_t map;
    uint64_t index;
    uint64_t function;
    uint64_t sharing;
} treskibben_linked_answer;

/*
 * The first record with this address in the order of the maps, and of the records in each. Where there is one
 * map, the fields are those of treskibben_find. The answer is the first of these that holds, in this order:
 *
 *   number  when                                                     place
 *   1 to 8  the refusal that treskibben_linked_maps gives            as there
 *   27      a map is of version 1                                    the first such map's first byte
 *   10      no record of any map has the address                     0
 *   0       the question is answered                                 0
 */
treskibben_linked_answer treskibben_linked_find(const uint8_t *section, size_t length,
                                                uint64_t address);

/*
 * Conversions between a section and its listing.
 *
 * A listing says what a section says, without header, counts of locations and live-outs, zeros and
 * padding. It is a row of items: one byte of kind, then numbers, little-endian, of these widths.
 *
 *   kind  item      body
 *   1     function  address 8, stack size 8, record count 8
 *   2     constant  8
 *   3     record    ID 8, instruction offset 4
 *   4     location  kind 1, size 2, register 2, offset 4
 *   5     live-out  register 2, size 1
 *   6     end       nothing
 *   7     version   1, in one byte
 *
 * The functions come first, then the constants, then each record with its locations and then its
 * live-outs, then one end and nothing after it. Before all of them the listing of a version 1 section
 * has one item 7; its record counts are 0, as the section has none, and its sizes at most 255. A
 * listing of version 3 has no item 7. Each accepted section has one listing and each accepted listing
 * one section: a conversion and the one back give the same bytes again.
 *
 * The input is lent as a section is to treskibben_check. `output` must point at `room` bytes that
 * can be written, that nobody else reads or writes during the call, and that share no byte with the
 * input. It must not be NULL, not even where `room` is 0; any other pointer will do then.
 *
 * Where the call is accepted, the whole result is written from the first byte of `output` on, and
 * `value` is its length. The bytes beyond that length are left untouched. On a refusal `value` is 0
 * and all of `output` is left untouched. An output that is long enough is never refused:
 *
 *   the listing of a section of n bytes has at most (n - 16) * 9 / 8 + 1 bytes, and of version 1 at
 *   most (n - 16) * 25 / 16 + 3;
 *   the section of a listing of n bytes has at most (n - 1) * 24 / 13 + 16 bytes, and at most
 *   16,777,216.
 */

/*
 * Section to listing. The answer is the first of these that holds, in this order:
 *
 *   number  when                                                     place
 *   1 to 9  the refusal that treskibben_check gives the section      as there
 *   24      output shorter than the whole listing                    0
 *   0       the listing is written                                   0
 */
treskibben_answer treskibben_to_listing(const uint8_t *section, size_t length, uint8_t *output,
                                        size_t room);

/*
 * Listing to section. The answer is the first of these that holds, in this order:
 *
 *   number  when                                                     place
 *   1       listing over 33,554,432 bytes                            0
 *   22      listing breaks its grammar                               the first item that does
 *   23      over 65,535 locations or live-outs in a record           that record item
 *   28      version 1 listing with a record count not 0 or a size    that item
 *           over 255
 *   1       the section would have over 16,777,216 bytes             0
 *   5 to 8  the refusal that treskibben_check would give the         the place in the section
 *           section that is to be written; of version 1, 6 or 7
 *   24      output shorter than the whole section                    0
 *   0       the section is written                                   0
 *
 * The place of 22, 23 and 28 is the item's first byte in the listing. 22 is given for an item of
 * unknown kind, for one that may not stand where it does, for one that is cut, for an item 7 that isn't
 * the first or whose body isn't 1, and for anything after the end; a missing end has the listing's
 * length as its place.
 */
treskibben_answer treskibben_to_section(const uint8_t *listing, size_t length, uint8_t *output,
                                        size_t room);

/*
 * The move of one frame.
 *
 * The machine that frames stopped on. It says which two registers slots in memory are counted from, and
 * which registers can hold a pointer themselves, by their DWARF numbers. A section doesn't say its machine.
 *
 *   number                 machine            frame pointer   stack pointer   slots in registers
 *   TRESKIBBEN_AMD64    0  AMD64 (x86-64)     RBP, 6          RSP, 7          0 to 5, 8 to 15
 *   TRESKIBBEN_AARCH64  1  AArch64 (arm64)    X29, 29         SP, 31          0 to 28, 30
 *
 * Any other number is answered by 33.
 */
#define TRESKIBBEN_AMD64 UINT64_C(0)
#define TRESKIBBEN_AARCH64 UINT64_C(1)

/*
 * A frame of a stopped thread: where its record is.
 *
 * address:   for version 3 the address that its record has, which is the one that the call in it returns
 *            to; for version 1 the instruction offset of its record, which is that address less the
 *            function's.
 * function:  for version 1 the number of its function; for version 3 it is not read.
 */
typedef struct treskibben_frame {
    uint64_t address;
    uint64_t function;
} treskibben_frame;

/*
 * The registers of a frame: TRESKIBBEN_REGISTERS numbers, the content of register r at position r, by DWARF
 * numbers on both machines. They are what the registers hold when the call in the frame has returned: a
 * callee may have put some of them on the stack, and then they are to be fetched from there.
 *
 * The frame's part of the stack begins at the stack pointer, and the stack size of its function says how
 * long it is. Frame pointer and stack pointer are only read. On AMD64 the numbers from 16 on are neither
 * read nor written; what stands there is of no account.
 */
#define TRESKIBBEN_REGISTERS 32

/*
 * Moves the pointers of one frame of the machine with this number. `value` is the number of pointers that
 * its statepoint lists, null pairs counting one each.
 *
 * `image` is a copy of the stack, `image_length` bytes from the address `first` on. The objects that
 * have moved are in two lists, entry by entry: where each was, `old_count` numbers at `old_starts`,
 * and where it is now, `new_count` numbers at `new_starts`. The frame's registers are `registers_length`
 * numbers at `registers`, which has to be TRESKIBBEN_REGISTERS.
 *
 * A record is a statepoint if it has at least three locations, the first three are of kind 4, the
 * third isn't negative and says how many deoptimisation values follow, an even number of locations
 * is left after those, and there are no live-outs. Those left are pairs, numbered from 0: the location
 * of a base, which is the start of an object, and that of a pointer derived from it. A location of kind 3
 * is in memory, and one of kind 1 is a register; a pair may have one of each. Of version 3 a pair
 * of size 8N in memory is N pointers one after another, N from 1 to 256: pointer i has its base in the slot
 * of 8 bytes that begins 8i bytes after the first location, and stands itself in the slot 8i bytes after the
 * second. A pair with a register is one pointer, and so is every pair of version 1. A pair of two constants
 * 0 is null: it has no slots, has any sizes, and counts as one pointer.
 *
 * Where the call is accepted, each derived slot is set to its content plus the new start of its base
 * minus the old one, modulo 2^64. Everything is taken from the image and the registers as they were before
 * the call, in whatever order the pairs are, and also where the two locations of a pair share slots or a
 * register is one pair's base and derived in another. A base of 0 stays 0. All other bytes of the image and
 * all other registers are left untouched, and on a refusal all of them are. A register is no memory: it is
 * the same slot as itself and shares nothing with any other.
 *
 * `section` and each list of starts are lent as a section is to treskibben_check, and `image` and `registers`
 * as an output is to a conversion: no pointer may be NULL, not even where a length is 0, the lists and the
 * registers must be aligned, and neither the image nor the registers may share a byte with each other or with
 * anything else that is lent. The two lists of starts may share theirs.
 *
 * The answer is the first of these that holds, in this order, but that 17 comes before 18 for version 1;
 * 18 to 21 are each looked for in all pairs before the next, and the place is the lowest pair with the
 * fault, whichever of its pointers has it:
 *
 *   number  when                                                     place
 *   1 to 9  the refusal that treskibben_check gives the section      as there
 *   33      machine neither 0 nor 1                                  0
 *   13      image over 1,048,576 bytes, or first address + length    0
 *           over 2^64 - 1
 *   14      lists unequal, over 65,536 entries, old starts not       0
 *           strictly rising, or a 0 in either
 *   25      registers_length not 32                                  0
 *   10      no record of that address; of version 1, no such         0
 *           function, or no record at the offset
 *   15      more than one record at the address; of version 1, at    0
 *           the offset
 *   12      not a statepoint                                         0
 *   16      stack size unknown (2^64 - 1), or the frame not inside   0
 *           the image
 *   18      pair of wrong form: not null, and a location that is     the pair
 *           neither in memory nor a register as below, or, of
 *           version 3, unequal sizes.
 *           In memory: kind 3, counted from one of the machine's
 *           two pointers, size 8N, N from 1 to 256 (of version 1,
 *           0 or 8).
 *           A register: kind 1, one of those that can be slots on
 *           the machine, offset 0, size 8 (of version 1, 0 or 8)
 *   17      over 256 pointers, null pairs counting one each          0
 *   19      a slot in memory not wholly inside the frame; nothing    the pair
 *           wraps
 *   20      collision: two slots overlap without being equal, or     the pair
 *           a slot is derived from bases that differ, with this
 *           pair or one before it
 *   21      base neither 0 nor an old start                          the pair
 *   0       the frame is moved                                       0
 */
treskibben_answer treskibben_relocate(const uint8_t *section, size_t length, uint8_t *image,
                                      size_t image_length, uint64_t first,
                                      const uint64_t *old_starts, size_t old_count,
                                      const uint64_t *new_starts, size_t new_count,
                                      uint64_t machine, treskibben_frame frame,
                                      uint64_t *registers, size_t registers_length);

/*
 * Moves the pointers of a whole thread, all of its frames or none, which are of one machine. `value` is
 * the sum of the pointers that their statepoints list, null pairs counting one each.
 *
 * The frames are `frames_length` numbers at `frames`, two to a frame: address (of version 1, offset) and
 * function. An array of treskibben_frame is such a list, of twice as many numbers as it has frames. Their
 * registers are `registers_length` numbers at `registers`, 32 to a frame in the order of the frames: those of
 * the frame at position p begin at 32p. An array of uint64_t[TRESKIBBEN_REGISTERS] is such a list. Positions
 * in the list of frames are counted from 0. Everything else is lent as to treskibben_relocate, and the list of
 * frames as its two lists are.
 *
 * A frame's extent is its part of the stack: the bytes from the stack pointer on, as many as the stack
 * size of its function. Where the call is accepted, image and registers are those that treskibben_relocate
 * leaves when it moves the frames one by one, each with its own registers, in the order of the list or in any
 * other. On a refusal all of the image and all registers are left untouched.
 *
 * The answer is the first of these that holds, in this order:
 *
 *   number  when                                                     place
 *   1 to 9  the refusal that treskibben_check gives the section      as there
 *   33, 13, 14                                                       0
 *           as for treskibben_relocate
 *   25      frames_length odd or over 8,192 (4,096 frames), or       0
 *           registers_length not 32 for each frame
 *   10, 15, 12, 16, 18, 17, 19 to 21                                 the position of the frame
 *           a frame is refused by itself, on the image as lent:
 *           the first such frame of the list, by the number that
 *           treskibben_relocate gives it; its pair is not told
 *   26      the extent of a frame shares a byte with that of an      the position of the first
 *           earlier one in the list; empty extents share nothing     such frame
 *   0       all frames are moved                                     0
 *
 * A list of no frames, with no registers, is accepted, with 0 pointers. The section is not walked again for
 * each frame. The call needs about 263 KiB of stack, treskibben_relocate about 8 KiB and
 * treskibben_find_all_by_index about 33 KiB; treskibben_flat_find needs 1 MiB where frames name over 16,777,216 records in all.
 */
treskibben_answer treskibben_thread(const uint8_t *section, size_t length, uint8_t *image,
                                    size_t image_length, uint64_t first,
                                    const uint64_t *old_starts, size_t old_count,
                                    const uint64_t *new_starts, size_t new_count,
                                    uint64_t machine, const uint64_t *frames,
                                    size_t frames_length, uint64_t *registers,
                                    size_t registers_length);

/*
 * Moves the pointers of a whole thread as treskibben_thread does, all of its frames or none, with an index
 * of the section: `index_length` numbers at `index`, lent as the lists of starts are. With the right index the
 * answer, the image and the registers are those of treskibben_thread, whatever the frames.
 *
 * The index is tested once, between 14 and 25:
 *
 *   number  when                                                     place
 *   1 to 9, 33, 13, 14                                               as for treskibben_thread
 *   27      the section is of version 1                              0
 *   29      index isn't exactly the entries that the section yields  0
 *   25, the first refused frame's own, 26, 0                         as for treskibben_thread
 *
 * An empty index is one that is handed in: it is the right one of a section without records, and 29 for any
 * other. To hand in none, call treskibben_thread.
 */
treskibben_answer treskibben_thread_by_index(const uint8_t *section, size_t length, uint8_t *image,
                                             size_t image_length, uint64_t first,
                                             const uint64_t *old_starts, size_t old_count,
                                             const uint64_t *new_starts, size_t new_count,
                                             uint64_t machine, const uint64_t *frames,
                                             size_t frames_length, uint64_t *registers,
                                             size_t registers_length, const uint64_t *index,
                                             size_t index_length);

/*
 * Why a slot moves or does not.
 *
 * A slot of a frame is asked for: eight bytes of the stack by the address of their first one, or a register.
 * The answer is what treskibben_relocate would do to the slot, given the same, and why.
 *
 * The reason is the first of these that holds, in this order, which is not that of the numbers:
 *
 *   reason                         when
 *   TRESKIBBEN_REASON_REFUSED   4  the frame would be refused, and nothing of it moved
 *   TRESKIBBEN_REASON_MOVED     3  a pointer in the slot is derived from a base that is not 0: the move adds
 *                                  the new start of the base to the content and takes away the old one,
 *                                  modulo 2^64
 *   TRESKIBBEN_REASON_NULL_BASE 2  a pointer in the slot is derived from a base of 0: the content stays
 *   TRESKIBBEN_REASON_ONLY_BASE 1  the slot is the base of a pointer, and none in it is derived: the content
 *                                  stays
 *   TRESKIBBEN_REASON_UNLISTED  0  no pointer has the slot as base or is derived in it
 *
 * A slot in memory is its first byte, and each pointer of a pair has its own. Unlisted are an address inside a
 * slot that isn't its first byte, where the content changes with that slot's bytes; every address outside the
 * frame; and every register that is no slot on the machine, the two pointers and numbers from 32 on among
 * them. A register is never the same slot as an address, whatever its number. Null pairs and deoptimisation
 * values list nothing.
 */
#define TRESKIBBEN_REASON_UNLISTED UINT64_C(0)
#define TRESKIBBEN_REASON_ONLY_BASE UINT64_C(1)
#define TRESKIBBEN_REASON_NULL_BASE UINT64_C(2)
#define TRESKIBBEN_REASON_MOVED UINT64_C(3)
#define TRESKIBBEN_REASON_REFUSED UINT64_C(4)

/*
 * What is answered for a slot.
 *
 * reason:   one of the five above.
 * number:   of refused, the number that treskibben_relocate gives the frame; else 0.
 * place:    of refused, the place that it gives: of 18 to 21 a pair, of 1 to 9 as treskibben_check says; else 0.
 * pair:     of moved, the lowest pair with a pointer that is derived in the slot, counted from 0 among the
 *           pairs and not among the pointers; else 0.
 * old_base: of moved, what the base of that pointer holds, the old start of an object; else 0.
 * new_base: of moved, the new start of the same object; else 0.
 *
 * The first field is not the number of a refusal: it is 0 where the slot is unlisted.
 */
typedef struct treskibben_reason {
    uint64_t reason;
    uint64_t number;
    uint64_t place;
    uint64_t pair;
    uint64_t old_base;
    uint64_t new_base;
} treskibben_reason;

/*
 * The reason of the slot that begins at this address.
 *
 * All is lent that treskibben_relocate is, but that nothing is written: image and registers, too, are lent as
 * the lists of starts are, and everything here may share its bytes with anything else. A call costs about as
 * much as the move.
 */
treskibben_reason treskibben_explain_address(const uint8_t *section, size_t length,
                                             const uint8_t *image, size_t image_length,
                                             uint64_t first, const uint64_t *old_starts,
                                             size_t old_count, const uint64_t *new_starts,
                                             size_t new_count, uint64_t machine,
                                             treskibben_frame frame, const uint64_t *registers,
                                             size_t registers_length, uint64_t address);

/* The reason of the register with this DWARF number; any number may be asked for. All else is as above. */
treskibben_reason treskibben_explain_register(const uint8_t *section, size_t length,
                                              const uint8_t *image, size_t image_length,
                                              uint64_t first, const uint64_t *old_starts,
                                              size_t old_count, const uint64_t *new_starts,
                                              size_t new_count, uint64_t machine,
                                              treskibben_frame frame, const uint64_t *registers,
                                              size_t registers_length, uint64_t dwarf_register);

/*
 * Flat sections.
 *
 * A flat section is source document 002's version 2 of the format: a header with the offsets of six
 * arrays, which follow it: constants, frames, frame registers, records, locations and live-outs, all
 * of entries of a fixed length. A frame names its frame registers and records, and a record its
 * locations and live-outs, by an index and a count; entries may be shared. docs/FLAT.md has the layout.
 * Such a section is checked, looked up and read; nothing writes one, and no frame is moved by it.
 * treskibben_check gives it 2.
 *
 * `section` and `length` are lent as to treskibben_check. Every call first gives the check's refusal,
 * the first of 36 to 40 that holds; 41, 10 and 11 come after them. The place is always 0.
 *
 *   number  when
 *   0       accepted, or the question is answered
 *   36      flat section under 32 or over 16,777,216 bytes
 *   37      version not 2
 *   38      an offset or the end isn't the earliest aligned place after the array before it
 *   39      an index plus count is past its array
 *   40      a padding or reserved bit is set
 *   41      no record of any frame is at the address
 *   10      no frame or record of that number
 *   11      no constant, frame register, location or live-out of that number
 *
 * All fields of a refused answer but number and place are 0. Entries are numbered from 0 through
 * their whole array; any number may be asked for.
 */

/* Checks that the bytes are a whole flat section and nothing else: 36 to 40. `value` is 0. */
treskibben_answer treskibben_flat_check(const uint8_t *section, size_t length);

/*
 * What the lookup answers: the numbers of a frame and of one of its records.
 */
typedef struct treskibben_flat_find_answer {
    uint64_t number;
    uint64_t place;
    uint64_t frame;
    uint64_t record;
} treskibben_flat_find_answer;

/*
 * The first record at this address: a frame's function address plus the instruction offset of one of
 * its records, a sum that doesn't wrap. The frames are taken in order, and in a frame its records in
 * order. 41 exactly if there is none.
 */
treskibben_flat_find_answer treskibben_flat_find(const uint8_t *section, size_t length,
                                                 uint64_t address);

/* The constant of this number; `value` is the constant. */
treskibben_answer treskibben_flat_constant(const uint8_t *section, size_t length,
                                           uint64_t constant);

/*
 * What the question for a frame answers.
 *
 * address:        the function's address.
 * function_size:  the function's size in bytes.
 * stack_size:     the stack size in bytes.
 * flags:          1 has a frame, 2 has an alloca of variable size, 4 has stack realignment, 8 has
 *                 live-out information.
 * base_register:  the DWARF number of the frame base register.
 * num_registers:  how many frame registers it has, from the number register_index on.
 * num_records:    how many records it has, from the number record_index on.
 */
typedef struct treskibben_flat_frame_answer {
    uint64_t number;
    uint64_t place;
    uint64_t address;
    uint32_t function_size;
    uint32_t stack_size;
    uint16_t flags;
    uint16_t base_register;
    uint16_t num_registers;
    uint16_t register_index;
    uint16_t num_records;
    uint16_t record_index;
} treskibben_flat_frame_answer;

/* The frame of this number. */
treskibben_flat_frame_answer treskibben_flat_frame(const uint8_t *section, size_t length,
                                                   uint64_t frame);

/*
 * What the question for a frame register answers.
 *
 * dwarf_register: the register's DWARF number.
 * offset:         the signed offset.
 * size:           the size in bytes.
 * flags:          1 is spilled.
 */
typedef struct treskibben_flat_register_answer {
    uint64_t number;
    uint64_t place;
    uint16_t dwarf_register;
    int16_t offset;
    uint8_t size;
    uint8_t flags;
} treskibben_flat_register_answer;

/* The frame register of this number. */
treskibben_flat_register_answer treskibben_flat_frame_register(const uint8_t *section, size_t length,
                                                               uint64_t frame_register);

/*
 * What the question for a record answers.
 *
 * id:             the record's ID.
 * offset:         the instruction offset in the function.
 * num_locations:  how many locations it has, from the number location_index on.
 * num_live_outs:  how many live-outs it has, from the number live_out_index on.
 * call_size:      the size of the call in bytes.
 * flags:          1 has live-out information.
 */
typedef struct treskibben_flat_record_answer {
    uint64_t number;
    uint64_t place;
    uint64_t id;
    uint32_t offset;
    uint16_t num_locations;
    uint16_t location_index;
    uint16_t num_live_outs;
    uint16_t live_out_index;
    uint8_t call_size;
    uint8_t flags;
} treskibben_flat_record_answer;

/* The record of this number. */
treskibben_flat_record_answer treskibben_flat_record(const uint8_t *section, size_t length,
                                                     uint64_t record);

/*
 * What the question for a location answers. None of its fields is judged: a kind may be any number,
 * and so may that of a constant.
 *
 * offset:         the signed offset, the small constant of kind 4, or the number of a constant of
 *                 kind 5.
 * dwarf_register: the register's DWARF number.
 * kind:           1 Register, 2 Direct, 3 Indirect, 4 Constant, 5 ConstIndex, or any other number.
 */
typedef struct treskibben_flat_location_answer {
    uint64_t number;
    uint64_t place;
    int32_t offset;
    uint16_t dwarf_register;
    uint8_t kind;
} treskibben_flat_location_answer;

/* The location of this number. */
treskibben_flat_location_answer treskibben_flat_location(const uint8_t *section, size_t length,
                                                         uint64_t location);

/* The live-out of this number. */
treskibben_live_out_answer treskibben_flat_live_out(const uint8_t *section, size_t length,
                                                    uint64_t live_out);

/*
 * Settings by edition.
 *
 * A site keeps its settings in editions: the largest pointer count of a move, the machine, and the
 * versions that are allowed. The first edition is number 1, and a new one gets one more than the greatest
 * number ever used. The settings of an edition never change. A retired edition's place is used again, its
 * number never.
 *
 * A store has 64 places, and goes through the calls by value: the caller hands one in, and keeps the one
 * that the answer has. A refused call gives back the store as it was. A store holds numbers only, no
 * pointer, so that its sizeof(treskibben_editions) bytes can be kept in a file and handed in again.
 *
 *   number  when
 *   0       accepted
 *   51      make: the count is not 1 to 256, the machine neither 0 nor 1, a version's number neither 0
 *           nor 1, or no version is allowed
 *   32      make: the new number would be over 2^32 - 1
 *   30      make: no place is free
 *   31      retire, read: no edition of that number was made, or it was retired; 0 and numbers over
 *           2^32 - 1 are never known
 *
 * They are tested in this order, and the place is always 0. Other fields of a refused answer than number,
 * place and store are 0. Any sequence of calls from the empty store is answered as the plain list of what
 * was made and retired says.
 *
 * Every content of a store gets an answer, also one that no sequence of calls leaves. Where a number
 * stands in several places, the first is read, and all are retired. A place whose number is over 2^32 - 1,
 * or whose settings make would refuse, has no edition and is not free. Whether a place is free is told by
 * its number alone. A new number follows `greatest`, whatever the places say. So a store from a file should
 * be judged before it is trusted: the calls do not tell that it is damaged. The program treskibben keeps one
 * behind a head and before a checksum, which docs/COMMAND.md has.
 *
 * A call needs about 16 KiB of stack, with the store that goes in and the one that comes back.
 */

/*
 * The settings of an edition.
 *
 * most:      the largest pointer count of a move, 1 to 256.
 * machine:   0 AMD64, 1 AArch64.
 * version_1: 1 where sections of version 1 are allowed, else 0.
 * version_3: 1 where sections of version 3 are allowed, else 0.
 */
typedef struct treskibben_settings {
    uint64_t most;
    uint64_t machine;
    uint64_t version_1;
    uint64_t version_3;
} treskibben_settings;

/* A place of a store: the number of its edition, or 0 where it is free. */
typedef struct treskibben_edition {
    uint64_t number;
    treskibben_settings settings;
} treskibben_edition;

/*
 * A store: the greatest number ever used, and the places. The empty store, in which nothing was ever made,
 * is the one whose bytes are all 0, as TRESKIBBEN_EDITIONS_EMPTY and treskibben_editions_empty give it.
 */
#define TRESKIBBEN_EDITION_PLACES 64
typedef struct treskibben_editions {
    uint64_t greatest;
    treskibben_edition places[TRESKIBBEN_EDITION_PLACES];
} treskibben_editions;
#define TRESKIBBEN_EDITIONS_EMPTY {0, {{0, {0, 0, 0, 0}}}}
treskibben_editions treskibben_editions_empty(void);

/* What make answers: the number of the new edition, and the store that is left. */
typedef struct treskibben_edition_make_answer {
    uint64_t number;
    uint64_t place;
    uint64_t edition;
    treskibben_editions store;
} treskibben_edition_make_answer;

/* Makes an edition of these settings: 51, 32, 30, or its number. */
treskibben_edition_make_answer treskibben_edition_make(treskibben_editions store,
                                                       treskibben_settings settings);

/* What retire answers: the store that is left. */
typedef struct treskibben_edition_retire_answer {
    uint64_t number;
    uint64_t place;
    treskibben_editions store;
} treskibben_edition_retire_answer;

/* Retires the edition of this number: 31. */
treskibben_edition_retire_answer treskibben_edition_retire(treskibben_editions store,
                                                           uint64_t edition);

/* What read answers: the settings that the edition was made with. */
typedef struct treskibben_edition_read_answer {
    uint64_t number;
    uint64_t place;
    treskibben_settings settings;
} treskibben_edition_read_answer;

/* The settings of the edition of this number: 31. */
treskibben_edition_read_answer treskibben_edition_read(treskibben_editions store, uint64_t edition);

/*
 * Restores by edition.
 *
 * The calls of this part are those above that move frames or tell why, under an edition of a store. The store
 * is handed over by value and first, as to treskibben_edition_read, and is not changed; the number of the
 * edition comes next. Everything else is lent, written and answered as by the call without an edition, but
 * for three refusals:
 *
 *   number  when                                                     place
 *   31      the store has no edition of that number, before all      0
 *           else; treskibben_edition_read says when
 *   1 to 9  the refusal that treskibben_check gives the section      as there
 *   33      the edition doesn't allow the version of the section,    0
 *           or is of another machine; so every number but 0 and 1
 *           is refused under every edition
 *   13, ..  as without an edition, but that 17 reads the edition's   as there
 *           count: more pointers than its `most`, null pairs
 *           counting one each; of version 1, more pairs
 *
 * A size of 8N is of right form for N up to 256 under every edition: with N over `most` it is 17, and not 18.
 * Under an edition with 256 that allows both versions, a call for its machine answers as without one.
 *
 * With the store that it is handed, a call needs about 8 KiB of stack more than the one without an edition.
 */

/*
 * Moves the pointers of one frame as treskibben_relocate does. The order of refusals: 31, 1 to 9, 33, 13, 14, 25,
 * 10, 15, 12, 16, 18, 17, 19, 20, 21; of version 1, 17 comes before 18.
 */
treskibben_answer treskibben_edition_relocate(
    treskibben_editions store, uint64_t edition, const uint8_t *section, size_t length,
    uint8_t *image, size_t image_length, uint64_t first, const uint64_t *old_starts,
    size_t old_count, const uint64_t *new_starts, size_t new_count, uint64_t machine,
    treskibben_frame frame, uint64_t *registers, size_t registers_length);

/*
 * Moves the pointers of a whole thread as treskibben_thread does, all of its frames or none. The order of
 * refusals: 31, 1 to 9, 33, 13, 14, 25, the first refused frame's own at its position, 26 at a position.
 */
treskibben_answer treskibben_edition_thread(
    treskibben_editions store, uint64_t edition, const uint8_t *section, size_t length,
    uint8_t *image, size_t image_length, uint64_t first, const uint64_t *old_starts,
    size_t old_count, const uint64_t *new_starts, size_t new_count, uint64_t machine,
    const uint64_t *frames, size_t frames_length, uint64_t *registers, size_t registers_length);

/*
 * The same with an index of the section, as treskibben_thread_by_index does: 27 and then 29 stand between 14
 * and 25.
 */
treskibben_answer treskibben_edition_thread_by_index(
    treskibben_editions store, uint64_t edition, const uint8_t *section, size_t length,
    uint8_t *image, size_t image_length, uint64_t first, const uint64_t *old_starts,
    size_t old_count, const uint64_t *new_starts, size_t new_count, uint64_t machine,
    const uint64_t *frames, size_t frames_length, uint64_t *registers, size_t registers_length,
    const uint64_t *index, size_t index_length);

/*
 * Moves the pointers of a whole thread as treskibben_edition_thread does, over a linked section: each frame by
 * the map that has its record, all of them or none. On a section that is one map of version 3 it is
 * treskibben_edition_thread. It needs about 336 KiB of stack. The answer is the first of these that holds, in
 * this order; a refusal leaves all of the image and all registers untouched:
 *
 *   number  when                                                     place
 *   31      the store has no edition of that number                  0
 *   1 to 8  the refusal that treskibben_linked_maps gives            as there
 *   27      a map is of version 1                                    the first such map's first byte
 *   33      the edition doesn't allow version 3, or is of another    0
 *           machine, which every number but 0 and 1 is
 *   13, 14, as of treskibben_edition_thread                          0
 *   25
 *   10, 12, the first frame of the list that is refused by itself,   its position
 *   15 to   on the image as lent: 10 where no record of any map has
 *   21      its address, 15 where several records of all maps have
 *           it; the rest as in the map of its record
 *   26      as of treskibben_edition_thread                          the frame's position
 *   0       the frames are moved; `value` is the sum of their        0
 *           pointers
 */
treskibben_answer treskibben_edition_linked_thread(
    treskibben_editions store, uint64_t edition, const uint8_t *section, size_t length,
    uint8_t *image, size_t image_length, uint64_t first, const uint64_t *old_starts,
    size_t old_count, const uint64_t *new_starts, size_t new_count, uint64_t machine,
    const uint64_t *frames, size_t frames_length, uint64_t *registers, size_t registers_length);

/*
 * The reason of the slot that begins at this address, as treskibben_explain_address tells it. A refused frame
 * has the number and the place that treskibben_edition_relocate would give.
 */
treskibben_reason treskibben_edition_explain_address(
    treskibben_editions store, uint64_t edition, const uint8_t *section, size_t length,
    const uint8_t *image, size_t image_length, uint64_t first, const uint64_t *old_starts,
    size_t old_count, const uint64_t *new_starts, size_t new_count, uint64_t machine,
    treskibben_frame frame, const uint64_t *registers, size_t registers_length, uint64_t address);

/* The reason of the register with this DWARF number. All else is as above. */
treskibben_reason treskibben_edition_explain_register(
    treskibben_editions store, uint64_t edition, const uint8_t *section, size_t length,
    const uint8_t *image, size_t image_length, uint64_t first, const uint64_t *old_starts,
    size_t old_count, const uint64_t *new_starts, size_t new_count, uint64_t machine,
    treskibben_frame frame, const uint64_t *registers, size_t registers_length,
    uint64_t dwarf_register);

/*
 * A whole frame or thread explained.
 *
 * One call tells why each slot of each pointer moves or does not: what treskibben_edition_explain_address and
 * treskibben_edition_explain_register would tell of it, its pair, and what it holds.
 *
 * The answer is written to a list of numbers, TRESKIBBEN_ROW of them for each pointer: the pointers of a frame
 * in the order of its pairs, those of a pair in rising address order, and the frames in the order of their
 * list. An array of treskibben_explained_pointer is such a list, of sixteen times as many numbers as it has
 * entries. A null pair is one pointer without slots: all of its numbers after the first two are 0.
 */
#define TRESKIBBEN_ROW 16
#define TRESKIBBEN_SLOT_NONE UINT64_C(0)
#define TRESKIBBEN_SLOT_MEMORY UINT64_C(1)
#define TRESKIBBEN_SLOT_REGISTER UINT64_C(2)

/*
 * A slot of a pointer.
 *
 * kind:     one of the three above; none for a null pair alone.
 * slot:     of memory, the address of its first byte; of a register, its DWARF number.
 * content:  what it holds before the move.
 * reason:   moved, null base or only base, by the numbers of the reasons above: a slot of a pointer is never
 *           unlisted, and a frame that is refused has no rows. 0 for a null pair.
 * pair, old_base, new_base: of moved, as treskibben_reason has them; else 0.
 */
typedef struct treskibben_explained_slot {
    uint64_t kind;
    uint64_t slot;
    uint64_t content;
    uint64_t reason;
    uint64_t pair;
    uint64_t old_base;
    uint64_t new_base;
} treskibben_explained_slot;

/*
 * A pointer, as its row in the list has it.
 *
 * frame:    the position of its frame in the list of frames, counted from 0; 0 in the call for one frame.
 * pair:     the number of its pair, counted from 0 in its record.
 * base:     the slot of its base.
 * derived:  its own slot, which is derived from that.
 */
typedef struct treskibben_explained_pointer {
    uint64_t frame;
    uint64_t pair;
    treskibben_explained_slot base;
    treskibben_explained_slot derived;
} treskibben_explained_pointer;

/*
 * Explains one frame. `value` is how many numbers are written to the beginning of the `rows_length` numbers at
 * `rows`: sixteen for each pointer, so at most 4,096.
 *
 * Everything is lent as to treskibben_edition_explain_address, and the rows as an output is to a conversion:
 * aligned, not NULL, and without a byte of anything else that is lent. Numbers beyond those that are written
 * are unchanged, and on a refusal all of them are. Nothing else is written.
 *
 * The answer is the first of these that holds, in this order:
 *
 *   number  when                                                     place
 *   31, 1 to 9, 33, 13, 14, 25, 10, 15, 12, 16, 18, 17, 19 to 21     as there
 *           the refusal that treskibben_edition_relocate would give
 *   24      rows_length under sixteen for each pointer               0
 *   0       the rows are written                                     0
 */
treskibben_answer treskibben_edition_explain_frame(
    treskibben_editions store, uint64_t edition, const uint8_t *section, size_t length,
    const uint8_t *image, size_t image_length, uint64_t first, const uint64_t *old_starts,
    size_t old_count, const uint64_t *new_starts, size_t new_count, uint64_t machine,
    treskibben_frame frame, const uint64_t *registers, size_t registers_length, uint64_t *rows,
    size_t rows_length);

/*
 * Explains a whole thread: the rows of its frames, in the order of the list, each told of the image as lent.
 * `value` and the rows are as above, at most 4,096 numbers for each frame.
 *
 *   number  when                                                     place
 *   31, 1 to 9, 33, 13, 14, 25, the first refused frame's own, 26    as there
 *           the refusal that treskibben_edition_thread would give
 *   24      rows_length under sixteen for each pointer of all        0
 *           frames
 *   0       the rows are written                                     0
 */
treskibben_answer treskibben_edition_explain_thread(
    treskibben_editions store, uint64_t edition, const uint8_t *section, size_t length,
    const uint8_t *image, size_t image_length, uint64_t first, const uint64_t *old_starts,
    size_t old_count, const uint64_t *new_starts, size_t new_count, uint64_t machine,
    const uint64_t *frames, size_t frames_length, const uint64_t *registers,
    size_t registers_length, uint64_t *rows, size_t rows_length);

/*
 * Replay of a recorded restore.
 *
 * A trace is a row of items, each a byte of kind and a body whose length the kind fixes; all numbers are
 * little-endian:
 *
 *   kind  item    body
 *   1     frame   machine, 1 byte, 0 AMD64 or 1 AArch64; address, 8 bytes; function number, 8 bytes; 32
 *                 registers of 8 bytes: 273 bytes in all
 *   2     answer  the number of a refusal or 0, 1 byte; its place, or of 0 the count of pointers, 8 bytes
 *   3     end     none
 *
 * Each frame is followed by its answer, and the end stands last and once.
 */

/*
 * What a replay answers.
 *
 * number:  0, or 35 where the trace is broken.
 * place:   of 35, the first byte of the first bad item; else 0.
 * differs: 1 where an answer differs from the recorded one, else 0. The fields below are 0 then.
 * item:    the first answer item that differs, counted from 0 among the answers.
 * now:     the number of the refusal that the frame gets now, or 0.
 * value:   its place, or of 0 the count of pointers.
 */
typedef struct treskibben_replay_answer {
    uint64_t number;
    uint64_t place;
    uint64_t differs;
    uint64_t item;
    uint64_t now;
    uint64_t value;
} treskibben_replay_answer;

/*
 * Moves each frame of a trace, one after another, each on the image that the one before has left and with the
 * registers of its item, as treskibben_edition_relocate does; and tells the first answer item that differs from
 * the answer that its frame gets. After a difference the frames are moved all the same: the image ends as
 * the frames moved one by one leave it. The registers that they leave are dropped.
 *
 * The trace is `trace_length` bytes at `trace`, lent as the section is. Everything else is lent as to
 * treskibben_edition_relocate. The machine is that of each frame's item.
 *
 *   number  when                                                     place
 *   35      the trace is broken, before all else: an item of         the first byte of the first
 *           unknown kind, one that is cut, a frame whose machine     bad item; of a missing one the
 *           is neither 0 nor 1, one that may not stand where it      trace's length
 *           does, a missing one, or anything after the end. The
 *           image is unchanged
 *   0       the frames are moved                                     0
 *
 * Every other refusal, 31 too, is an answer of a frame, which is compared. The call needs about 170 KiB of
 * stack.
 */
treskibben_replay_answer treskibben_edition_replay(
    treskibben_editions store, uint64_t edition, const uint8_t *section, size_t length,
    uint8_t *image, size_t image_length, uint64_t first, const uint64_t *old_starts,
    size_t old_count, const uint64_t *new_starts, size_t new_count, const uint8_t *trace,
    size_t trace_length);

/*
 * The bench controller.
 *
 * It serves one product, whose sections keep a profile: version 3; at most 64 records; each of them a
 * statepoint whose pairs are of right form on AMD64, with at most 16 pointers, null pairs counting one each;
 * and record addresses that rise strictly. Frames are of AMD64 alone. What keeps the profile is moved exactly as
 * by the calls of the same name without it.
 */

/*
 * Checks that the bytes are a whole section, and that it keeps the profile. `value` is 0. `section` and `length`
 * are lent as to treskibben_check.
 *
 *   number  when                                                     place
 *   1 to 9  the refusal that treskibben_check gives the section      as there
 *   50      version not 3                                            0
 *   50      a record breaks the profile: it is number 64, is no      the lowest such record
 *           statepoint, has a pair that 18 would refuse or over 16
 *           pointers, or its address isn't over that of the record
 *           before it
 *   0       the section keeps the profile                            0
 */
treskibben_answer treskibben_controller_check(const uint8_t *section, size_t length);

/*
 * Moves the pointers of one frame as treskibben_edition_relocate does, where the profile is kept.
 *
 *   number  when                                                     place
 *   31, 1 to 9                                                       as for
 *           as for treskibben_edition_relocate                       treskibben_edition_relocate
 *   50      version not 3, or machine not 0                          0
 *   50      a record breaks the profile, whichever record is the     the lowest such record
 *           frame's
 *   33, 13, 14, 25, 10, 16, 17, 19, 20, 21, 0                        as for
 *           as for treskibben_edition_relocate: 15, 12 and 18        treskibben_edition_relocate
 *           can't be any more, and 17 can only under an edition
 *           with fewer than 16
 */
treskibben_answer treskibben_controller_relocate(
    treskibben_editions store, uint64_t edition, const uint8_t *section, size_t length,
    uint8_t *image, size_t image_length, uint64_t first, const uint64_t *old_starts,
    size_t old_count, const uint64_t *new_starts, size_t new_count, uint64_t machine,
    treskibben_frame frame, uint64_t *registers, size_t registers_length);

/*
 * Moves the pointers of a whole thread as treskibben_edition_thread does, where the profile is kept: 50 stands
 * between 1 to 9 and 33.
 */
treskibben_answer treskibben_controller_thread(
    treskibben_editions store, uint64_t edition, const uint8_t *section, size_t length,
    uint8_t *image, size_t image_length, uint64_t first, const uint64_t *old_starts,
    size_t old_count, const uint64_t *new_starts, size_t new_count, uint64_t machine,
    const uint64_t *frames, size_t frames_length, uint64_t *registers, size_t registers_length);

/*
 * The monthly report.
 *
 * A report counts over many sections, of versions 3 and 1, one call a section. Its totals go through the calls
 * by value: the caller hands in those of the sections before, and keeps those that the answer has. A report
 * begins with totals that are all 0, TRESKIBBEN_TOTALS_NONE. They are numbers only, no pointer, so that they can
 * be kept in a file and handed in again, and every content of them gets an answer.
 *
 * A section that treskibben_check refuses, by any of 1 to 9, is counted: it adds one to `sections` and one to
 * `refused`, and nothing else. That is no refusal of the call. A flat section is counted so, as it is refused by 2.
 *
 *   number  when                                                     place
 *   0       the totals are added                                     0
 *   34      one of the thirteen totals would pass 2^64 - 1, which    the section's position
 *           is itself allowed
 *
 * Sums are exact. A section with 34 adds nothing, not even to `sections`, and ends the report: `totals` of the
 * answer are those that were handed in, and stand. Its position is the number of sections before it, refused
 * ones counted, which is `sections` of these totals.
 *
 * The order of sections doesn't alter the totals, provided none gave 34; and where one order gives no 34, no
 * order does.
 */

/*
 * The totals of a report.
 *
 * sections:    the sections, refused ones included.
 * refused:     the refused among them.
 * functions:   the functions of the accepted sections, as are all that follow.
 * records:     the records.
 * statepoints: the records that are statepoints.
 * pairs:       the pairs of all statepoints, null ones and ones of wrong form too: half of the locations after
 *              the deopt ones. A pair counts one, however many pointers it holds.
 * kinds:       the locations of each kind, of all records: kinds[0] of kind 1, Register, to kinds[4] of kind 5,
 *              ConstIndex.
 * stack:       the sum of the stack sizes that are known, of functions with records and without.
 * unknown:     the functions whose stack size isn't known, 2^64 - 1.
 */
typedef struct treskibben_totals {
    uint64_t sections;
    uint64_t refused;
    uint64_t functions;
    uint64_t records;
    uint64_t statepoints;
    uint64_t pairs;
    uint64_t kinds[5];
    uint64_t stack;
    uint64_t unknown;
} treskibben_totals;
#define TRESKIBBEN_TOTALS_NONE {0, 0, 0, 0, 0, 0, {0, 0, 0, 0, 0}, 0, 0}

/* What a report answers: on 34 `totals` are not 0, but as they were. */
typedef struct treskibben_report_answer {
    uint64_t number;
    uint64_t place;
    treskibben_totals totals;
} treskibben_report_answer;

/* Adds a section, lent as to treskibben_check, to the totals of those before it: the new totals, or 34. */
treskibben_report_answer treskibben_report_add(const uint8_t *section, size_t length,
                                               treskibben_totals totals);

/*
 * Adds the totals of two reports, of different sections: those of one report of all the sections, or 34 at 0
 * with the totals of the first. Reports made at the same time, or on many machines, are added so.
 */
treskibben_report_answer treskibben_report_join(treskibben_totals first, treskibben_totals second);

#ifdef __cplusplus
}
#endif

#endif
