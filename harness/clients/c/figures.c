/* Drawn sequences, parameter sets and designs, and a line for each call on them: its name, its reply and
 * place, and on an answer its figures, doubles as their bits. ../python/figures.py draws and prints the
 * same by the Python module, and harness/run-clients holds the two against each other. */

#include <inttypes.h>
#include <stdio.h>
#include <string.h>

#include "mujplesten.h"

/* ---- drawing, as figures.py does */

static uint64_t drawn = 32;

/* A number below n. */
static size_t draw(size_t n)
{
    drawn = drawn * UINT64_C(6364136223846793005) + UINT64_C(1442695040888963407);
    return (size_t)(drawn >> 33) % n;
}

/* A multiple of 1/64 from -8 up to 8. */
static double draw_energy(void)
{
    return (double)draw(1024) / 64.0 - 8.0;
}

static uint8_t text[4096];
static size_t used;

/* So many letters of an alphabet, behind the text. */
static size_t draw_letters(const char *alphabet, size_t n)
{
    size_t start = used;
    for (size_t i = 0; i < n; i++)
        text[used++] = (uint8_t)alphabet[draw(strlen(alphabet))];
    return start;
}

/* ---- printing */

static void line(const char *name, uint32_t reply, uint64_t place)
{
    static int lines;
    printf("%s%s %" PRIu32, lines++ == 0 ? "" : "\n", name, reply);
    if (place != MJ_NOWHERE)
        printf(" at %" PRIu64, place);
}

static void figure(double x)
{
    uint64_t bits;
    memcpy(&bits, &x, sizeof bits);
    printf(" %016" PRIx64, bits);
}

static void whole(uint64_t n)
{
    printf(" %" PRIu64, n);
}

static void entries(const uint8_t *occupants, size_t n)
{
    for (size_t i = 0; i < n; i++)
        whole(occupants[i]);
}

static void weight(uint32_t digits, int32_t power)
{
    printf(" %" PRIu32 "*2^%" PRId32 " %016" PRIx64, digits, power, mj_weight(digits, power));
}

static void sum(const char *name, uint32_t reply, uint64_t place, uint32_t digits, int32_t power)
{
    line(name, reply, place);
    if (reply == 0)
        weight(digits, power);
}

static void two(uint32_t reply, uint64_t place, double x, double y)
{
    line("two", reply, place);
    if (reply == 0) {
        figure(x);
        figure(y);
    }
}

static void one(const char *name, uint32_t reply, uint64_t place, double x)
{
    line(name, reply, place);
    if (reply == 0)
        figure(x);
}

/* ---- sequences */

static void sequences(void)
{
    static const char bases[] = "acgtACGT", odd[] = "acgtn";
    double x, y, z;
    used = 0;
    size_t m = draw(12), n = draw(8) == 0 ? draw(12) : m;
    size_t a = draw_letters(draw(16) == 0 ? odd : bases, m), b = draw_letters(bases, n);
    double excess = draw(64) == 0 ? 1025.0 : 4.0 * draw_energy();
    uint32_t reply = mj_sequence(text + a, m, &x, &y);
    two(reply, MJ_NOWHERE, x, y);
    reply = mj_published_reply(text + a, m);
    line("published", reply, MJ_NOWHERE);
    if (reply == 0)
        printf(" %016" PRIx64 " %016" PRIx64, mj_published_dg(text + a, m), mj_published_ds(text + a, m));
    reply = mj_pair(text + a, m, text + b, n, &x, &y);
    two(reply, MJ_NOWHERE, x, y);
    reply = mj_sequence_strength(text + a, m, excess, &x);
    one("sequence strength", reply, MJ_NOWHERE, x);
    reply = mj_pair_strength(text + a, m, text + b, n, excess, &x);
    one("pair strength", reply, MJ_NOWHERE, x);
    size_t length = draw(264);
    reply = mj_loop_penalty(length, (uint32_t)draw(4), &x);
    one("loop", reply, MJ_NOWHERE, x);
    reply = mj_ambient(190.15 + (double)draw(320), &x, &y, &z);
    one("ambient", reply, MJ_NOWHERE, x);
    if (reply == 0) {
        figure(y);
        figure(z);
    }
    double argument = draw_energy();
    reply = mj_ln(argument, &x);
    one("ln", reply, MJ_NOWHERE, x);
    uint32_t digits;
    int32_t power;
    reply = mj_exp(16.0 * argument, &digits, &power);
    sum("exp", reply, MJ_NOWHERE, digits, power);
}

/* ---- decks */

static void decks(void)
{
    uint8_t configuration[4], read[128];
    uint32_t words[129], moved[129];
    uint64_t place, count, counted;
    size_t n = draw(5);
    uint32_t form = (uint32_t)draw(2);
    for (size_t i = 0; i < n; i++)
        configuration[i] = (uint8_t)draw(3);
    mj_deck_write(form, configuration, n, words, 129, &count);
    line("deck", 0, MJ_NOWHERE);
    for (size_t i = 0; i < count; i++)
        whole(words[i]);
    if (draw(4) == 0)
        words[draw(count)]++;
    uint32_t reply = mj_deck_read(form, words, count, read, 128, &place, &counted);
    line("read", reply, place);
    entries(read, counted);
    reply = mj_deck_move(form, words, count, moved, 129, &place, &counted);
    line("moved", reply, place);
    for (size_t i = 0; i < counted; i++)
        whole(moved[i]);
}

/* ---- designs */

static size_t positions, strands;
static uint8_t scaffold[6], marks[6], glues[18];
static double dg[4096], ds[4096], amounts[6], told[3];
static uint32_t given;

#define DESIGN                                                                                     \
    scaffold, positions, marks, positions, glues, 3 * strands, dg, 4096, ds, 4096, amounts,        \
        strands, given, told[0], told[1], told[2]

/* One in so many is absent; one in 32 has two stars. */
static void draw_name(size_t *row, const char *alphabet, size_t absent)
{
    row[0] = draw(absent) != 0;
    row[1] = row[2] = 0;
    if (row[0] == 0)
        return;
    row[1] = draw_letters(alphabet, 1);
    row[2] = 1 + (draw(32) == 0 ? 2 : draw(2));
    for (size_t i = 1; i < row[2]; i++)
        text[used++] = '*';
}

static void draw_entry(size_t *row, double *energies)
{
    size_t first[3], second[3], sequence = draw(2), bases = sequence ? 2 + draw(8) : 0;
    draw_name(first, "ab", SIZE_MAX);
    draw_name(second, "abc", 2);
    row[0] = first[1];
    row[1] = first[2];
    memcpy(row + 2, second, sizeof second);
    row[5] = sequence;
    row[6] = sequence ? draw_letters("acgt", bases) : 0;
    row[7] = bases;
    energies[0] = sequence ? 0.0 : draw_energy();
    energies[1] = sequence ? 0.0 : draw_energy() / 1024.0;
}

/* Strands from 1 on, of which the last two, quencher and reporter, may not be there. */
static void draw_rest(int quencher, int reporter)
{
    for (size_t i = 0; i < positions; i++)
        marks[i] = draw(8) == 0;
    given = (uint32_t)draw(2);
    for (size_t i = 1; i < strands; i++) {
        amounts[i] = 0.0;
        if (i + 2 < strands || (i + 2 == strands ? quencher : reporter))
            amounts[i] = given ? (draw_energy() + 8.25) / 64.0 : draw_energy();
    }
    if (draw(8) == 0)
        amounts[1] = -2000.0;
    mj_ambient(300.15 + (double)draw(50), &told[0], &told[1], &told[2]);
    if (draw(16) == 0)
        told[1] = 1025.0;
}

/* The parameter set's reply; on an answer the design is whole. */
static uint32_t draw_design(void)
{
    size_t users = 1 + draw(3), count = draw(7), rows[9 * 3], sites[6 * 3], table[6 * 8];
    double energies[6 * 2], penalty = draw_energy() / 8.0;
    used = 0;
    for (size_t i = 0; i < 3 * users; i++)
        draw_name(rows + 3 * i, "ab", 8);
    positions = draw(7);
    for (size_t i = 0; i < positions; i++)
        draw_name(sites + 3 * i, "ab", 8);
    for (size_t i = 0; i < count; i++)
        draw_entry(table + 8 * i, energies + 2 * i);
    size_t quencher = draw(users + 1), reporter = draw(users + 1);
    uint32_t build = (uint32_t)draw(2);
    strands = users + 3;
    draw_rest(quencher != 0, reporter != 0);
    return mj_params(build, text, used, users, rows, 9 * users, sites, 3 * positions, table, 8 * count, energies,
                     2 * count, penalty, penalty / 1024.0, quencher, reporter, glues, 3 * strands, scaffold, positions,
                     dg, 4096, ds, 4096);
}

/* The configuration that the search finds, or all places empty. */
static void energies_of(uint8_t *state)
{
    uint64_t place, count;
    double x, y;
    uint32_t reply = mj_search(DESIGN, state, positions, &place, &x);
    one("search", reply, place, x);
    if (reply == 0)
        entries(state, positions);
    else
        memset(state, 0, 6);
    reply = mj_state_energy(DESIGN, state, positions, &place, &x);
    one("state energy", reply, place, x);
    reply = mj_chain_energy(DESIGN, state, positions, &place, &x, &y);
    two(reply, place, x, y);
    reply = mj_states(DESIGN, &place, &count);
    line("states", reply, place);
    if (reply == 0)
        whole(count);
    size_t rank = draw(6);
    reply = mj_state(DESIGN, rank, state, positions, &place);
    line("state", reply, place);
    if (reply == 0)
        entries(state, positions);
    reply = mj_first_state_under(DESIGN, draw_energy(), state, positions, &place, &x);
    one("under", reply, place, x);
    if (reply == 0)
        entries(state, positions);
    reply = mj_ring_energy(DESIGN, state, positions, &place, &x);
    one("ring energy", reply, place, x);
    reply = mj_ring_search(DESIGN, state, positions, &place, &x);
    one("ring search", reply, place, x);
    if (reply == 0)
        entries(state, positions);
}

static void bonds(void)
{
    uint8_t friends[64], x = (uint8_t)draw(7), y = (uint8_t)draw(7);
    uint64_t place, count;
    double bond;
    size_t position = draw(7);
    uint32_t reply = mj_strand_bond(DESIGN, x, y, &place, &bond);
    one("strand bond", reply, place, bond);
    reply = mj_scaffold_bond(DESIGN, position, x, &place, &bond);
    one("scaffold bond", reply, place, bond);
    reply = mj_friends(DESIGN, position, friends, 64, &place, &count);
    line("friends", reply, place);
    entries(friends, count);
}

static void sums(void)
{
    uint8_t numbers[18];
    size_t starts[6], lengths[6], count = 0;
    uint32_t digits, cells[36];
    int32_t power, powers[36];
    uint64_t place;
    for (size_t i = 0; i < positions; i++) {
        starts[i] = count;
        lengths[i] = draw(3);
        for (size_t j = 0; j < lengths[i]; j++)
            numbers[count++] = (uint8_t)draw(4);
    }
#define LISTS numbers, count, starts, positions, lengths, positions
    uint32_t reply = mj_free_sum_of_energies(DESIGN, &place, &digits, &power);
    sum("free", reply, place, digits, power);
    reply = mj_constrained_sum_of_energies(DESIGN, LISTS, &place, &digits, &power);
    sum("constrained", reply, place, digits, power);
    reply = mj_probability(DESIGN, LISTS, &place, &digits, &power);
    sum("probability", reply, place, digits, power);
    reply = mj_occupants(DESIGN, cells, positions * strands, powers, positions * strands, &place);
    line("occupants", reply, place);
    for (size_t i = 0; reply == 0 && i < positions * strands; i++)
        weight(cells[i], powers[i]);
}

int main(void)
{
    for (int round = 0; round < 400; round++) {
        uint8_t state[6];
        sequences();
        decks();
        uint32_t reply = draw_design();
        line("params", reply, MJ_NOWHERE);
        if (reply != 0)
            continue;
        entries(glues, 3 * strands);
        entries(scaffold, positions);
        energies_of(state);
        bonds();
        sums();
    }
    printf("\n");
    return 0;
}
