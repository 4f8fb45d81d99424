/* case TEXT WRITTEN: takes in the file TEXT, document 01's whole case, by both calls of the header, and holds the answer,
 * the result, every byte of the output and every record to what they must be; WRITTEN is the text that must be written.
 * Tries the header's small functions too. Prints one line and ends with status 0, or says what is wrong and ends with 1. */
#include "structure_intake.h"

#include <stdio.h>
#include <stdlib.h>
#include <string.h>

/* One record more of each kind than the case needs. */
enum { CHAINS = 2, RESIDUES = 3, ATOMS = 3, LONGEST = 4096, PATTERN = 0xa5 };

struct records {
    struct structure_intake_chain chains[CHAINS];
    uint64_t residue_keys[RESIDUES];
    uint64_t residue_names[RESIDUES];
    uint8_t residue_codes[RESIDUES];
    uint8_t residue_categories[RESIDUES];
    uint8_t residue_positions[RESIDUES];
    uint64_t atom_keys[ATOMS];
    uint64_t atom_names[ATOMS];
    uint8_t elements[ATOMS];
    double positions[ATOMS][3];
    double occupancies[ATOMS];
};

struct buffer {
    uint8_t bytes[LONGEST];
    size_t length;
};

/* What one call was given and gave. */
struct call {
    uint32_t answer;
    uint8_t out[LONGEST];
    uint8_t result[STRUCTURE_INTAKE_RESULT_BYTES];
    struct records records;
};

static void check(int holds, const char *what)
{
    if (!holds) {
        fprintf(stderr, "case: %s\n", what);
        exit(1);
    }
}

static struct buffer read_file(const char *name)
{
    struct buffer file;
    FILE *stream = fopen(name, "rb");
    check(stream != NULL, "a file cannot be opened");
    file.length = fread(file.bytes, 1, sizeof file.bytes, stream);
    check(file.length < sizeof file.bytes, "a file is too long");
    fclose(stream);
    return file;
}

/* Both calls find everything dirty. */
static void intake(struct call *call, const struct buffer *text, size_t out_length, size_t result_length)
{
    memset(call, PATTERN, sizeof *call);
    call->answer = structure_intake(text->bytes, text->length, call->out, out_length, call->result, result_length);
}

static void intake_lent(struct call *call, const struct buffer *text, size_t out_length, size_t result_length)
{
    struct records *to = &call->records;
    memset(call, PATTERN, sizeof *call);
    call->answer = structure_intake_lent(
        text->bytes, text->length, call->out, out_length, call->result, result_length,
        to->chains, CHAINS,
        to->residue_keys, RESIDUES, to->residue_names, RESIDUES, to->residue_codes, RESIDUES,
        to->residue_categories, RESIDUES, to->residue_positions, RESIDUES,
        to->atom_keys, ATOMS, to->atom_names, ATOMS, to->elements, ATOMS, to->positions, ATOMS, to->occupancies, ATOMS);
}

static int all_are(const void *bytes, size_t length, uint8_t value)
{
    const uint8_t *byte = bytes;
    while (length > 0 && *byte == value) {
        byte++;
        length--;
    }
    return length == 0;
}

static void check_taken(const struct call *call, const struct buffer *written)
{
    const uint32_t expected[] = {0, 0, (uint32_t)written->length, 3, 0, 1, 1};
    check(call->answer == STRUCTURE_INTAKE_TAKEN, "the case is not taken in");
    for (size_t place = 0; place < 7; place++)
        check(structure_intake_number(call->result, 4 * place) == expected[place], "a number of the result is wrong");
    check(memcmp(call->out, written->bytes, written->length) == 0, "another text is written");
    check(all_are(call->out + written->length, sizeof call->out - written->length, PATTERN), "bytes past the text have changed");
}

static void check_refused(const struct call *call, uint32_t answer, uint32_t line, uint32_t detail)
{
    check(call->answer == answer, "another refusal is answered");
    check(structure_intake_number(call->result, STRUCTURE_INTAKE_LINE) == line, "the refusal has another line");
    check(structure_intake_number(call->result, STRUCTURE_INTAKE_DETAIL) == detail, "the refusal has another detail");
    check(all_are(call->result + STRUCTURE_INTAKE_BYTES_WRITTEN, 20, 0), "a refusal has counts");
    check(all_are(call->out, sizeof call->out, PATTERN), "a refusal has changed the output");
}

/* Each slice by itself: the bytes between two of them are no one's. Zeros past the model are part of what must be held. */
#define CHECK_SLICE(field) check(memcmp(held->field, model->field, sizeof model->field) == 0, #field " are not what they must be")

static void check_records(const struct records *held, const struct records *model)
{
    CHECK_SLICE(chains);
    CHECK_SLICE(residue_keys);
    CHECK_SLICE(residue_names);
    CHECK_SLICE(residue_codes);
    CHECK_SLICE(residue_categories);
    CHECK_SLICE(residue_positions);
    CHECK_SLICE(atom_keys);
    CHECK_SLICE(atom_names);
    CHECK_SLICE(elements);
    CHECK_SLICE(positions);
    CHECK_SLICE(occupancies);
}

static void check_untouched(const struct call *call)
{
    check(call->answer == STRUCTURE_INTAKE_RESULT_LENGTH, "a result of another length is not refused");
    check(all_are(call->out, sizeof call->out, PATTERN), "with a result of another length the output has changed");
    check(all_are(call->result, sizeof call->result, PATTERN), "with a result of another length it has changed");
    check(all_are(&call->records, sizeof call->records, PATTERN), "with a result of another length the records have changed");
}

static void check_case(const struct buffer *text, const struct buffer *written)
{
    const uint64_t met = structure_intake_key(0, 7, 0), qqq = structure_intake_key(0, 9, 0);
    const struct records model = {
        .chains = {{structure_intake_packed("A")}},
        .residue_keys = {met, qqq},
        .residue_names = {structure_intake_packed("MET"), structure_intake_packed("QQQ")},
        .residue_codes = {13, 0},
        .residue_categories = {1, 3},
        .residue_positions = {2, 0},
        .atom_keys = {met, qqq},
        .atom_names = {structure_intake_packed("CA"), structure_intake_packed("O'")},
        .elements = {6, 8},
        .positions = {{1.5, -0.0004, 2}, {0.25, 0, -3}},
        .occupancies = {0.6, 1},
    };
    struct call call;
    intake(&call, text, LONGEST, STRUCTURE_INTAKE_RESULT_BYTES);
    check_taken(&call, written);
    intake_lent(&call, text, written->length, STRUCTURE_INTAKE_RESULT_BYTES);
    check_taken(&call, written);
    check_records(&call.records, &model);
}

static void check_refusal(const struct buffer *text, size_t out_length, uint32_t answer, uint32_t line, uint32_t detail)
{
    static const struct records zeros;
    struct call call;
    intake(&call, text, out_length, STRUCTURE_INTAKE_RESULT_BYTES);
    check_refused(&call, answer, line, detail);
    intake_lent(&call, text, out_length, STRUCTURE_INTAKE_RESULT_BYTES);
    check_refused(&call, answer, line, detail);
    check_records(&call.records, &zeros);
}

static void check_other_results(const struct buffer *text)
{
    struct call call;
    intake(&call, text, LONGEST, STRUCTURE_INTAKE_RESULT_BYTES - 1);
    check_untouched(&call);
    intake_lent(&call, text, LONGEST, STRUCTURE_INTAKE_RESULT_BYTES - 1);
    check_untouched(&call);
}

static void check_name(const char *name, uint64_t packed)
{
    char unpacked[9];
    check(structure_intake_packed(name) == packed, "a name is packed otherwise");
    check(structure_intake_unpacked(packed, unpacked) == strlen(name), "a name has another length");
    check(strcmp(unpacked, name) == 0, "another name is unpacked");
}

static void check_key(uint64_t chain_place, int32_t sequence, uint8_t insertion_code, uint64_t key)
{
    check(structure_intake_key(chain_place, sequence, insertion_code) == key, "a key is made otherwise");
    check(structure_intake_key_chain_place(key) == chain_place, "a key has another chain");
    check(structure_intake_key_sequence(key) == sequence, "a key has another sequence number");
    check(structure_intake_key_insertion_code(key) == insertion_code, "a key has another insertion code");
}

static void check_helpers(void)
{
    check_name("CA", 0x4341000000000000);
    check_name("ABCDEFGH", 0x4142434445464748);
    check(structure_intake_packed("ABCDEFGHI") == 0, "a name that is too long is packed");
    check_key(0, INT32_MIN, 0, 0);
    check_key(1, -1, 'A', 0x0000017fffffff41);
    check_key(4095, INT32_MAX, '~', 0x000fffffffffff7e);
}

int main(int count, char **arguments)
{
    static const struct buffer no_residues = {"loop_\n_atom_site.label_atom_id\nCA\n", 34};
    check(count == 3, "usage: case TEXT WRITTEN");
    const struct buffer text = read_file(arguments[1]);
    const struct buffer written = read_file(arguments[2]);
    const uint32_t needed = (uint32_t)written.length;

    check_helpers();
    check_case(&text, &written);
    check_refusal(&no_residues, LONGEST, STRUCTURE_INTAKE_COLUMN_MISSING, 3, 2);
    check_refusal(&text, written.length - 1, STRUCTURE_INTAKE_OUTPUT_TOO_SHORT, 0, needed);
    check_other_results(&text);
    puts("case: both calls answer as the header says");
    return 0;
}
