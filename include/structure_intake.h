/* The structure intake through C conventions: mmCIF text in; the same structure as text, its counts and, where records
 * are lent, its chains, residues and atoms out, or a refusal by number, line and detail. Link libstructure_intake.a.
 *
 * The caller owns every buffer. Each pointer leads to as many entries as the length beside it says, is aligned for them
 * and is not null, also where the length is 0; no two buffers overlap, and nobody else changes one during the call. The
 * processor is in its default mode for doubles: to nearest, subnormals kept. The text is only read. Nothing else is read
 * or written, nothing is allocated, there is no global state, and nothing is kept after the call: calls with buffers of
 * their own may run at the same time. Both calls come back for all texts, lengths and contents of the buffers. Of the C
 * library the archive needs memcpy and memset alone.
 *
 * No order of rows costs the square of the rows: besides a few walks over the text, a row moves at most some 2,000 records
 * and most often none, and each 2,048 rows that come from far move all records three times at most.
 */
#ifndef STRUCTURE_INTAKE_H
#define STRUCTURE_INTAKE_H

#include <stddef.h>
#include <stdint.h>

#ifdef __cplusplus
extern "C" {
#endif

/* Both calls answer one of these numbers. The result tells line and detail beside it; lines count from 1.
 *
 *  no.  given exactly when                                            line  detail
 *   0   the text is taken in                                          0     0
 *   1   the text has more than 16,777,216 bytes                       0     0
 *   2   a byte is outside the domain: 9, 10, 32 to 126, and 13        line  the first such byte
 *       only directly before 10
 *   3   a line has more than 2,048 bytes without its ending, which    line  0
 *       is 10, or 13 and 10
 *   4   a loop has a 65th header                                      line  0
 *   5   a column is missing                                           line  1 atom, 2 residue, 3 chain, 4 sequence,
 *                                                                           5 x, 6 y, 7 z
 *   6   a row is short                                                line  0
 *   7   a coordinate is no number                                     line  1 x, 2 y, 3 z
 *   8   a number is beyond reach: a word, an exponent, more than      line  1 x, 2 y, 3 z, 4 occupancy
 *       15 digits, leading zeros counted, or a magnitude above
 *       1,000,000
 *   9   a name has more than 8 bytes                                  line  1 atom, 2 residue, 3 chain
 *  10   there is no room for what a row brings                        line  1 chain, 2 residue, 3 atom
 *  11   a residue is unknown and not marked HETATM                    0     the first such residue's place in the
 *                                                                           model, from 1
 *  12   a model is not well formed; no text that is read gives one    0     0
 *  13   a name has both quotes, or an insertion code is a blank, a    0     the first such atom's number in the
 *       tab, a quote, `.` or `?`: it could not be read again                model, from 1
 *  14   the output is too short                                       0     the bytes that are needed
 *  26   the result is not 28 bytes long; before all others            none: nothing is changed
 *
 * 1 and 2 come before all lines; 3 to 10 at the first line that earns one, 3 before the others; then 11 to 14 in order. */
enum structure_intake_answer {
    STRUCTURE_INTAKE_TAKEN = 0,
    STRUCTURE_INTAKE_TEXT_TOO_LONG = 1,
    STRUCTURE_INTAKE_OUTSIDE_DOMAIN = 2,
    STRUCTURE_INTAKE_LINE_TOO_LONG = 3,
    STRUCTURE_INTAKE_TOO_MANY_HEADERS = 4,
    STRUCTURE_INTAKE_COLUMN_MISSING = 5,
    STRUCTURE_INTAKE_ROW_SHORT = 6,
    STRUCTURE_INTAKE_OUTSIDE_GRAMMAR = 7,
    STRUCTURE_INTAKE_BEYOND_REACH = 8,
    STRUCTURE_INTAKE_NAME_TOO_LONG = 9,
    STRUCTURE_INTAKE_NO_ROOM = 10,
    STRUCTURE_INTAKE_UNKNOWN_RESIDUE = 11,
    STRUCTURE_INTAKE_NOT_WELL_FORMED = 12,
    STRUCTURE_INTAKE_CANNOT_BE_WRITTEN = 13,
    STRUCTURE_INTAKE_OUTPUT_TOO_SHORT = 14,
    STRUCTURE_INTAKE_RESULT_LENGTH = 26
};

/* The result: seven 32-bit numbers, each with its lowest byte first. These are the places of their first bytes.
 * After a refusal all but line and detail are 0. rows = skipped + outdone + the model's atoms. */
enum structure_intake_result {
    STRUCTURE_INTAKE_LINE = 0,
    STRUCTURE_INTAKE_DETAIL = 4,
    STRUCTURE_INTAKE_BYTES_WRITTEN = 8,
    STRUCTURE_INTAKE_ROWS = 12,    /* of all atom loops */
    STRUCTURE_INTAKE_SKIPPED = 16, /* rows with `.` or `?` for a coordinate */
    STRUCTURE_INTAKE_OUTDONE = 20, /* unskipped rows that are not the kept row of their atom */
    STRUCTURE_INTAKE_ASSUMED = 24, /* unskipped rows whose occupancy was taken as 1.0: no column, `.`, `?` or no number */
    STRUCTURE_INTAKE_RESULT_BYTES = 28
};

/* The number of the result whose first byte is at that place. */
static inline uint32_t structure_intake_number(const uint8_t *result, size_t place)
{
    const uint8_t *byte = result + place;
    return (uint32_t)byte[0] | (uint32_t)byte[1] << 8 | (uint32_t)byte[2] << 16 | (uint32_t)byte[3] << 24;
}

/* Takes in a text of at most 64 chains, 512 residues and 1,024 atoms; its records are its own, on the stack, of which it
 * takes less than 70,000 bytes on x86-64.
 *
 * After 0 the first bytes of `out`, as many as the result says, are the text written. All other bytes of `out` stay as
 * they were; after a refusal all of them do. */
uint32_t structure_intake(const uint8_t *text, size_t text_length,
                          uint8_t *out, size_t out_length,
                          uint8_t *result, size_t result_length);

/* A record of the chain list. */
struct structure_intake_chain {
    uint64_t name;
};

/* The same with the caller's records: a slice of chain records, and for residues and atoms one slice to a field. There is
 * room for as many chains, residues and atoms as the shortest slice of each kind has entries, and for at most 4,096,
 * 65,536 and 1,048,576 of them. What the slices hold beforehand does not matter. It takes less than 42,000 bytes of the
 * stack on x86-64, most of them for the names of the chains.
 *
 * After 0 the first records of each kind are the model: chains in the order in which they are first met; residues by
 * chain, sequence and insertion code, none first; atoms by residue and name. Every record past the model is zero, in all
 * slices to their ends. How many there are, the names tell: those of the model are not zero, and those past it are. After
 * a refusal every record is zero. After 26 the records too are as they were.
 *
 * So each call clears all that it is lent: the greatest records have 53 MB, which take a small text several milliseconds.
 * Lend what the text can need: a row has at least 14 bytes, and brings at most one chain, one residue and one atom.
 *
 *  slice               entry       holds
 *  chains              a record    the chain's name, packed
 *  residue_keys        uint64_t    chain's place from 0 * 2^40 + (sequence + 2^31) * 2^8 + insertion code, 0 for none
 *  residue_names       uint64_t    the residue's name, packed: the canonical one for a standard residue
 *  residue_codes       uint8_t     the standard residue, 0 for none, from 1 on: ALA ARG ASN ASP CYS GLN GLU GLY HIS ILE
 *                                  LEU LYS MET PHE PRO SER THR TRP TYR VAL A C G U I DA DC DG DT DI HOH
 *  residue_categories  uint8_t     1 standard, 2 hetero, 3 ion
 *  residue_positions   uint8_t     0 none, 1 internal, 2 N-terminal, 3 C-terminal, 4 5'-terminal, 5 3'-terminal
 *  atom_keys           uint64_t    the key of the atom's residue
 *  atom_names          uint64_t    the atom's name, packed
 *  elements            uint8_t     the atomic number, 0 for unknown
 *  positions           double[3]   x, y, z
 *  occupancies         double      the occupancy of the row that was kept
 *
 * A packed name has its first byte highest and zeros after its last: `CA` is 0x4341000000000000. */
uint32_t structure_intake_lent(const uint8_t *text, size_t text_length,
                               uint8_t *out, size_t out_length,
                               uint8_t *result, size_t result_length,
                               struct structure_intake_chain *chains, size_t chains_length,
                               uint64_t *residue_keys, size_t residue_keys_length,
                               uint64_t *residue_names, size_t residue_names_length,
                               uint8_t *residue_codes, size_t residue_codes_length,
                               uint8_t *residue_categories, size_t residue_categories_length,
                               uint8_t *residue_positions, size_t residue_positions_length,
                               uint64_t *atom_keys, size_t atom_keys_length,
                               uint64_t *atom_names, size_t atom_names_length,
                               uint8_t *elements, size_t elements_length,
                               double (*positions)[3], size_t positions_length,
                               double *occupancies, size_t occupancies_length);

/* A name as it is packed, to compare with those of the records; 0, which is no name, where it has more than 8 bytes. */
static inline uint64_t structure_intake_packed(const char *name)
{
    uint64_t packed = 0;
    for (int place = 0; place < 8; place++) {
        packed = packed << 8 | (uint8_t)*name;
        name += *name != 0;
    }
    return *name == 0 ? packed : 0;
}

/* Writes a packed name as a string, and gives its length. */
static inline size_t structure_intake_unpacked(uint64_t packed, char name[9])
{
    size_t length = 0;
    for (; packed != 0; packed <<= 8)
        name[length++] = (char)(packed >> 56);
    name[length] = 0;
    return length;
}

/* The key of a residue, and what a key is made of. */
static inline uint64_t structure_intake_key(uint64_t chain_place, int32_t sequence, uint8_t insertion_code)
{
    return chain_place << 40 | (uint64_t)(sequence + ((int64_t)1 << 31)) << 8 | insertion_code;
}

static inline uint64_t structure_intake_key_chain_place(uint64_t key)
{
    return key >> 40;
}

static inline int32_t structure_intake_key_sequence(uint64_t key)
{
    return (int32_t)((int64_t)(uint32_t)(key >> 8) - ((int64_t)1 << 31));
}

static inline uint8_t structure_intake_key_insertion_code(uint64_t key)
{
    return (uint8_t)key;
}

#ifdef __cplusplus
}
#endif

#endif
