/* A C program over libexports.a: calls every function and checks what it answers. */

#include <float.h>
#include <math.h>
#include <stdio.h>
#include <string.h>

#include "mujplesten.h"

static unsigned passed, failed;

static void count(const char *what, int holds)
{
    if (holds) {
        passed++;
    } else {
        failed++;
        printf("%s: not as expected\n", what);
    }
}

static void reply(const char *what, uint32_t given, uint32_t expected)
{
    count(what, given == expected);
}

/* The bits are compared: 0.0 is not -0.0. */
static void bits(const char *what, uint64_t given, double expected)
{
    uint64_t wanted;
    memcpy(&wanted, &expected, sizeof wanted);
    count(what, given == wanted);
}

static void figure(const char *what, double given, double expected)
{
    uint64_t told;
    memcpy(&told, &given, sizeof told);
    bits(what, told, expected);
}

/* What a number that a call is to write holds before it: no call answers it. */
static const double unwritten = -1.25e-77;
static const uint64_t unread = 0xa5a5a5a5a5a5a5a5;

/* A sequence as the two arguments that it is passed as. */
#define SEQ(text) (const uint8_t *)(text), strlen(text)

static uint8_t many[257];

static void refused_sequence(const uint8_t *s, size_t n, uint32_t number)
{
    double dg = unwritten, ds = unwritten;
    reply("one call", mj_sequence(s, n, &dg, &ds), number);
    figure("its dG", dg, 0.0);
    figure("its dS", ds, 0.0);
    reply("a refused sequence", mj_sequence_reply(s, n), number);
    bits("its dG", mj_sequence_dg(s, n), 0.0);
    bits("its dS", mj_sequence_ds(s, n), 0.0);
    reply("refused as published", mj_published_reply(s, n), number);
    bits("its published dG", mj_published_dg(s, n), 0.0);
    bits("its published dS", mj_published_ds(s, n), 0.0);
}

static void one_sequence(void)
{
    double dg = unwritten, ds = unwritten;
    reply("one call", mj_sequence(SEQ("AC"), &dg, &ds), 0);
    figure("its dG", dg, -1.44 + 1.96);
    figure("its dS", ds, -0.0224 + 0.0057);
    reply("AC", mj_sequence_reply(SEQ("AC")), 0);
    bits("AC dG", mj_sequence_dg(SEQ("AC")), -1.44 + 1.96);
    bits("AC dS", mj_sequence_ds(SEQ("AC")), -0.0224 + 0.0057);
    bits("cga dG", mj_sequence_dg(SEQ("cga")), (-2.17 + -1.30) + 1.96);
    bits("AC published dG", mj_published_dg(SEQ("AC")), -1.44 + 1.96 + 0.05);
    bits("AC published dS", mj_published_ds(SEQ("AC")), -0.0224 - 0.0057 + 0.0069);
    bits("gC published dG", mj_published_dg(SEQ("gC")), -2.24 + 1.96 + 0.43);
    reply("256 bases", mj_sequence_reply(many, 256), 0);
    refused_sequence(many, 257, 1);
    refused_sequence(SEQ("acxg"), 2);
    refused_sequence(SEQ("\xff"), 2);
    refused_sequence(SEQ("A"), 3);
    refused_sequence(NULL, 0, 3);
}

static void refused_pair(const uint8_t *a, size_t m, const uint8_t *b, size_t n, uint32_t number)
{
    double dg = unwritten, ds = unwritten;
    reply("one call", mj_pair(a, m, b, n, &dg, &ds), number);
    figure("its dG", dg, 0.0);
    figure("its dS", ds, 0.0);
    reply("a refused pair", mj_pair_reply(a, m, b, n), number);
    bits("its dG", mj_pair_dg(a, m, b, n), 0.0);
    bits("its dS", mj_pair_ds(a, m, b, n), 0.0);
}

static void two_sequences(void)
{
    double dg = unwritten, ds = unwritten;
    reply("one call", mj_pair(SEQ("AAC"), SEQ("TAG"), &dg, &ds), 0);
    figure("its dG", dg, 0.61 + 0.17);
    figure("its dS", ds, 0.0);
    reply("AAC TAG", mj_pair_reply(SEQ("AAC"), SEQ("TAG")), 0);
    bits("AAC TAG dG", mj_pair_dg(SEQ("AAC"), SEQ("TAG")), 0.61 + 0.17);
    bits("AAC TAG dS", mj_pair_ds(SEQ("AAC"), SEQ("TAG")), 0.0);
    reply("a loop of 3", mj_pair_reply(SEQ("AAAAAA"), SEQ("TAAATT")), 0);
    bits("a loop of 3, dG", mj_pair_dg(SEQ("AAAAAA"), SEQ("TAAATT")), 0.61 + 0.69 - 1.0 + 3.2);
    bits("a loop of 3, dS", mj_pair_ds(SEQ("AAAAAA"), SEQ("TAAATT")), -0.0213);
    reply("no bases", mj_pair_reply(NULL, 0, NULL, 0), 0);
    refused_pair(many, 257, SEQ("t"), 1);
    refused_pair(SEQ("ac"), SEQ("tn"), 2);
    refused_pair(SEQ("ac"), SEQ("tga"), 4);
    refused_pair(SEQ("AAAAA"), SEQ("TAATT"), 5);
}

static void a_loop(size_t length, uint32_t kind, uint32_t number, double expected)
{
    double dg = unwritten;
    reply("a loop", mj_loop_penalty(length, kind, &dg), number);
    figure("its dG", dg, expected);
}

static void loops(void)
{
    a_loop(30, 0, 0, 6.6);
    a_loop(3, 1, 0, 3.1);
    a_loop(12, 2, 0, 5.0);
    a_loop(2, 1, 5, 0.0);
    a_loop(255, 0, 5, 0.0);
    a_loop(3, 3, 5, 0.0);
    a_loop(SIZE_MAX, 0, 5, 0.0);
    /* Between the table's lengths: 6.6 + 0.00198720425864083 x 310.15 x 2.44 x ln(31 / 30). */
    double dg = unwritten;
    reply("a loop of 31", mj_loop_penalty(31, 0, &dg), 0);
    count("its dG", fabs(dg - 6.649310929736642) < 0x1p-29);
}

static void refused_excess(double excess)
{
    double strength = unwritten;
    reply("an excess", mj_sequence_strength(SEQ("AC"), excess, &strength), 9);
    figure("its strength", strength, 0.0);
    strength = unwritten;
    reply("an excess", mj_pair_strength(SEQ("AAC"), SEQ("TAG"), excess, &strength), 9);
    figure("its strength", strength, 0.0);
    reply("a short one", mj_sequence_strength(SEQ("A"), excess, &strength), 3);
}

static void strengths(void)
{
    const double excess = 12.5;
    const double of_one = (-1.44 + 1.96) - excess * (-0.0224 + 0.0057);
    const double of_two = ((0.61 + 0.17) + 1.96) - excess * (0.0 + 0.0057);
    double strength = unwritten;
    reply("AC", mj_sequence_strength(SEQ("AC"), excess, &strength), 0);
    figure("AC strength", strength, of_one);
    reply("AAC TAG", mj_pair_strength(SEQ("AAC"), SEQ("TAG"), excess, &strength), 0);
    figure("AAC TAG strength", strength, of_two);
    refused_excess((double)NAN);
    refused_excess((double)INFINITY);
    refused_excess(1024.0 + 1024.0 * DBL_EPSILON);
}

static void a_logarithm(double x, uint32_t number, double expected)
{
    double logarithm = unwritten;
    reply("a logarithm", mj_ln(x, &logarithm), number);
    count("its figure", number == 0 ? fabs(logarithm - expected) <= 0x1p-40 : logarithm == 0.0);
}

static void logarithms(void)
{
    a_logarithm(1.0, 0, 0.0);
    a_logarithm(2.0, 0, 0.6931471805599453);
    a_logarithm(1e-9, 0, -20.72326583694641);
    a_logarithm(0x1p-60, 0, -41.58883083359672);
    a_logarithm(0x1p10, 0, 6.931471805599453);
    a_logarithm(0x0.fffffffffffff8p-60, 15, 0.0);
    a_logarithm(0x1.0000000000001p10, 15, 0.0);
    a_logarithm(0.0, 15, 0.0);
    a_logarithm(-1.0, 15, 0.0);
    a_logarithm((double)NAN, 15, 0.0);
    a_logarithm((double)INFINITY, 15, 0.0);
}

static void an_ambient(double kelvin, uint32_t number, double product, double excess)
{
    double rt = unwritten, strand_excess = unwritten, scaffold_excess = unwritten;
    reply("a kelvin", mj_ambient(kelvin, &rt, &strand_excess, &scaffold_excess), number);
    figure("its RT", rt, product);
    figure("its strand excess", strand_excess, excess);
    figure("its scaffold excess", scaffold_excess, excess);
}

static void ambients(void)
{
    static const double inside[] = {200.0, 310.15, 323.15, 500.0};
    static const double outside[] = {199.0, 501.0, (double)NAN};
    for (size_t i = 0; i < sizeof inside / sizeof *inside; i++)
        an_ambient(inside[i], 0, (1.98720425864083 / 1000.0) * inside[i], inside[i] - 310.15);
    for (size_t i = 0; i < sizeof outside / sizeof *outside; i++)
        an_ambient(outside[i], 9, 0.0, 0.0);
}

static void decks(void)
{
    static const uint32_t deck[] = {0x10000004, 0x20000001, 0x30000002, 0x20000002};
    static const uint32_t faulty[] = {0x10000002, 0x30000001, 0x30000001};
    static const uint8_t configuration[] = {1, 0, 0, 2};
    uint8_t entries[128];
    uint32_t words[129];
    uint64_t place = unread, n = unread;
    memset(entries, 0xa5, sizeof entries);
    memset(words, 0xa5, sizeof words);
    reply("a faulty deck", mj_deck_read(0, faulty, 3, entries, 128, &place, &n), 14);
    count("its place", place == 2);
    count("its count", n == 0);
    reply("too few entries", mj_deck_read(0, deck, 4, entries, 127, &place, &n), 1);
    count("its place", place == MJ_NOWHERE);
    count("entries are kept", entries[0] == 0xa5);
    place = unread;
    reply("a deck", mj_deck_read(0, deck, 4, entries, 128, &place, &n), 0);
    count("its count", n == 4);
    count("its place", place == MJ_NOWHERE);
    count("its configuration", memcmp(entries, configuration, 4) == 0 && entries[4] == 0xa5);
    entries[0] = 64;
    reply("a strand of 64", mj_deck_write(0, entries, 1, words, 129, &n), 9);
    count("its count", n == 0);
    count("words are kept", words[0] == 0xa5a5a5a5);
    reply("a configuration", mj_deck_write(0, configuration, 4, words, 129, &n), 0);
    count("its count", n == 4);
    count("its deck", memcmp(words, deck, sizeof deck) == 0 && words[4] == 0xa5a5a5a5);
}

/* The sequences of 2 to 8 bases: the fifth, the last, and past it. */
static void short_sequences(void)
{
    uint8_t bytes[9];
    uint64_t n = unread;
    memset(bytes, 0xa5, sizeof bytes);
    reply("the sequence at rank 4", mj_short_sequence(4, bytes, 8, &n), 0);
    count("its bases", n == 2);
    count("its letters", memcmp(bytes, "ca\xa5", 3) == 0);
    reply("the last sequence", mj_short_sequence(87375, bytes, 8, &n), 0);
    count("its bases", n == 8);
    count("its letters", memcmp(bytes, "tttttttt\xa5", 9) == 0);
    reply("a rank past the last", mj_short_sequence(87376, bytes, 8, &n), 13);
    count("its bases", n == 0);
    reply("nine bytes", mj_short_sequence(0, bytes, 9, &n), 1);
    count("bytes are kept", memcmp(bytes, "tttttttt\xa5", 9) == 0);
}

/* The form with runs: a deck of it, the same deck in document 01's form, and back. */
static void decks_with_runs(void)
{
    static const uint32_t singles[] = {0x10000004, 0x30000001, 0x20000007, 0x20000007, 0x20000007};
    static const uint32_t runs[] = {0x10000004, 0x30000001, 0x40000087};
    static const uint8_t configuration[] = {0, 7, 7, 7};
    uint8_t entries[128];
    uint32_t words[129], back[129];
    uint64_t place = unread, n = unread;
    memset(entries, 0xa5, sizeof entries);
    memset(words, 0xa5, sizeof words);
    memset(back, 0xa5, sizeof back);
    reply("a deck with runs", mj_deck_read(1, runs, 3, entries, 128, &place, &n), 0);
    count("its count", n == 4);
    count("its configuration", memcmp(entries, configuration, 4) == 0 && entries[4] == 0xa5);
    reply("runs in document 01's form", mj_deck_read(0, runs, 3, entries, 128, &place, &n), 14);
    count("its place", place == 2);
    reply("an unknown form", mj_deck_read(2, runs, 3, entries, 128, &place, &n), 1);
    count("its place", place == MJ_NOWHERE);
    reply("a configuration with a run", mj_deck_write(1, configuration, 4, words, 129, &n), 0);
    count("its deck", memcmp(words, runs, sizeof runs) == 0 && words[3] == 0xa5a5a5a5);
    reply("moving a deck with runs", mj_deck_move(1, runs, 3, words, 129, &place, &n), 0);
    count("its count", n == 5);
    count("its place", place == MJ_NOWHERE);
    count("its words", memcmp(words, singles, sizeof singles) == 0 && words[5] == 0xa5a5a5a5);
    reply("moving it back", mj_deck_move(0, words, 5, back, 129, &place, &n), 0);
    count("its words", memcmp(back, runs, sizeof runs) == 0 && back[3] == 0xa5a5a5a5);
    reply("moving it by the other rules", mj_deck_move(0, runs, 3, back, 129, &place, &n), 14);
    count("its place", place == 2);
}

/* The bench table's two positions: strand 1 with dG -0.5, then strand 2 with dG -2, potentials -1,
 * RT 0.5, strand bonds 0. */
static uint8_t scaffold[2] = {1, 2};
static uint8_t blocked[2] = {0, 0};
static uint8_t glues[9] = {0, 0, 0, 0, 1, 0, 0, 2, 0};
static double dg[64][64], ds[64][64];
static double potentials[3] = {0.0, -1.0, -1.0};

#define DESIGN                                                                                     \
    scaffold, 2, blocked, 2, glues, 9, dg[0], 4096, ds[0], 4096, potentials, 3, 0, 0.5, 0.0, 0.0

static void bonds_and_friends(void)
{
    uint8_t entries[64];
    uint64_t place = unread, n = unread;
    double bond = unwritten;
    reply("a strand bond", mj_strand_bond(DESIGN, 1, 2, &place, &bond), 0);
    count("its place", place == MJ_NOWHERE);
    figure("its bond", bond, 0.0);
    bond = unwritten;
    reply("no such strand", mj_strand_bond(DESIGN, 1, 3, &place, &bond), 1);
    figure("no bond", bond, 0.0);
    reply("a scaffold bond", mj_scaffold_bond(DESIGN, 1, 2, &place, &bond), 0);
    figure("its bond", bond, -4.0);
    memset(entries, 0xa5, sizeof entries);
    reply("too few entries", mj_friends(DESIGN, 1, entries, 63, &place, &n), 1);
    count("no count", n == 0);
    count("entries kept", entries[0] == 0xa5);
    reply("friends", mj_friends(DESIGN, 1, entries, 64, &place, &n), 0);
    count("their count", n == 1);
    count("friends written", entries[0] == 2 && entries[1] == 0xa5);
}

static void states_and_energies(void)
{
    static const uint8_t both[2] = {1, 2}, stranger[2] = {2, 2};
    uint8_t state[2] = {9, 9};
    uint64_t place = unread, n = unread;
    double energy = unwritten, sum = unwritten;
    reply("states", mj_states(DESIGN, &place, &n), 0);
    count("their place", place == MJ_NOWHERE);
    count("their count", n == 4);
    reply("rank 4", mj_state(DESIGN, 4, state, 2, &place), 13);
    count("state kept", state[0] == 9 && state[1] == 9);
    reply("rank 2", mj_state(DESIGN, 2, state, 2, &place), 0);
    count("state written", state[0] == 0 && state[1] == 2);
    reply("a state energy", mj_state_energy(DESIGN, both, 2, &place, &energy), 0);
    figure("it", energy, -1.5);
    reply("a stranger", mj_state_energy(DESIGN, stranger, 2, &place, &energy), 11);
    figure("no energy", energy, 0.0);
    reply("a chain energy", mj_chain_energy(DESIGN, both, 2, &place, &sum, &energy), 0);
    figure("it", energy, -1.5);
    figure("its sum", sum, -3.0);
}

static void searches(void)
{
    uint8_t state[2] = {9, 9};
    uint64_t place = unread;
    double energy = unwritten;
    reply("too few entries", mj_search(DESIGN, state, 1, &place, &energy), 1);
    count("its place", place == MJ_NOWHERE);
    figure("no energy", energy, 0.0);
    count("entries kept", state[0] == 9 && state[1] == 9);
    reply("a search", mj_search(DESIGN, state, 2, &place, &energy), 0);
    count("its configuration", state[0] == 0 && state[1] == 2);
    figure("its energy", energy, -1.5);
}

/* The worked ceilings of the two positions. */
static void ceilings(void)
{
    uint8_t state[2] = {9, 9};
    uint64_t place = unread;
    double energy = unwritten;
    reply("none under", mj_first_state_under(DESIGN, -1.6, state, 2, &place, &energy), 23);
    count("its place", place == MJ_NOWHERE);
    figure("no energy", energy, 0.0);
    count("entries kept", state[0] == 9 && state[1] == 9);
    reply("no ceiling", mj_first_state_under(DESIGN, (double)INFINITY, state, 2, &place, &energy), 9);
    count("without a place", place == MJ_NOWHERE);
    reply("a ceiling", mj_first_state_under(DESIGN, -1.5, state, 2, &place, &energy), 0);
    count("the first under it", state[0] == 1 && state[1] == 2);
    figure("its energy", energy, -1.5);
}

/* The worked sheet of jobs: the state energy at ranks 0 and 4, the search, the number of states, and
 * two words that are no jobs. */
static void a_sheet(size_t entries, uint32_t expected, const uint32_t of_jobs[6],
                    const double energies[6], const uint64_t states[6], const uint8_t of_places[12])
{
    static const uint32_t jobs[6] = {0x80000000, 0x80000004, 0x90000000,
                                     0xa0000000, 0x90000001, 0x30000001};
    uint32_t numbers[6] = {99, 99, 99, 99, 99, 99};
    double told[6];
    uint64_t counts[6];
    uint8_t stretches[12];
    for (size_t j = 0; j < 6; j++) {
        told[j] = unwritten;
        counts[j] = unread;
    }
    memset(stretches, 9, sizeof stretches);
    reply("a sheet", mj_job_sheet(DESIGN, jobs, 6, numbers, 6, told, 6, counts, 6, stretches, entries),
          expected);
    for (size_t j = 0; j < 6; j++) {
        reply("a job", numbers[j], of_jobs[j]);
        figure("its energy", told[j], energies[j]);
        count("its count", counts[j] == states[j]);
    }
    count("the stretches", memcmp(stretches, of_places, 12) == 0);
}

static void sheets(void)
{
    static const uint32_t fit[6] = {0, 13, 0, 0, 22, 22}, unfit[6] = {9, 9, 9, 9, 22, 22};
    static const uint32_t asked[6] = {99, 99, 99, 99, 99, 99};
    static const double least[6] = {-1.5, 0.0, -1.5, 0.0, 0.0, 0.0}, no_energy[6];
    static const uint64_t states[6] = {0, 0, 0, 4, 0, 0}, no_state[6];
    static const uint8_t settled[12] = {9, 9, 9, 9, 0, 2, 9, 9, 9, 9, 9, 9};
    static const uint8_t kept[12] = {9, 9, 9, 9, 9, 9, 9, 9, 9, 9, 9, 9};
    const double held[6] = {unwritten, unwritten, unwritten, unwritten, unwritten, unwritten};
    const uint64_t unasked[6] = {unread, unread, unread, unread, unread, unread};
    a_sheet(12, 0, fit, least, states, settled);
    a_sheet(11, 1, asked, held, unasked, kept);
    dg[1][1] = NAN;
    a_sheet(12, 0, unfit, no_energy, no_state, kept);
    dg[1][1] = -0.5;
    reply("a sheet of no job", mj_job_sheet(DESIGN, NULL, 0, NULL, 0, NULL, 0, NULL, 0, NULL, 0), 0);
}

static void designs(void)
{
    uint64_t place = unread, n = unread;
    dg[1][1] = -0.5;
    dg[2][2] = -2.0;
    bonds_and_friends();
    states_and_energies();
    searches();
    ceilings();
    sheets();
    potentials[2] = NAN;
    reply("a potential", mj_states(DESIGN, &place, &n), 17);
    count("its strand", place == 2);
    count("no count", n == 0);
    dg[0][7] = 1.0;
    reply("a null cell beside it", mj_states(DESIGN, &place, &n), 10);
    count("no place", place == MJ_NOWHERE);
    ds[63][63] = 9.0;
    reply("a cell beside both", mj_states(DESIGN, &place, &n), 9);
    count("its place", place == 8191);
    dg[1][1] = NAN;
    reply("a lower cell", mj_states(DESIGN, &place, &n), 9);
    count("its place", place == 65);
    dg[1][1] = -0.5;
    ds[63][63] = dg[0][7] = 0.0;
}

/* The ambient of a design that is else in order: RT, then the two excesses. */
static void an_unfit_ambient(double rt, double strand_excess, double scaffold_excess, uint64_t which)
{
    uint8_t state[2] = {9, 9};
    uint64_t place = unread;
    double energy = unwritten;
    reply("an ambient",
          mj_search(scaffold, 2, blocked, 2, glues, 9, dg[0], 4096, ds[0], 4096, potentials, 3, 0,
                    rt, strand_excess, scaffold_excess, state, 2, &place, &energy),
          16);
    count("its place", place == which);
    figure("no energy", energy, 0.0);
    count("entries kept", state[0] == 9 && state[1] == 9);
}

static void unfit_ambients(void)
{
    potentials[2] = NAN;
    an_unfit_ambient(0.0, 2000.0, 0.0, 0);
    an_unfit_ambient(0.5, 2000.0, (double)NAN, 1);
    an_unfit_ambient(0.5, 0.0, -2000.0, 2);
    potentials[2] = -1.0;
}

/* Tables of bonds beside the design: filled, and then lent with other cells. */
static void bond_tables(void)
{
    static const uint8_t both[2] = {1, 2}, second[2] = {0, 2};
    double pairs[9], sites[6], energy = unwritten;
    uint8_t state[2] = {9, 9};
    uint64_t place = unread, n = unread;
    for (size_t i = 0; i < 9; i++)
        pairs[i] = unwritten;
    for (size_t i = 0; i < 6; i++)
        sites[i] = unwritten;
    reply("a short table", mj_bond_tables(DESIGN, pairs, 9, sites, 5, &place), 1);
    count("both kept", pairs[0] == unwritten && sites[0] == unwritten);
    reply("both tables", mj_bond_tables(DESIGN, pairs, 9, sites, 6, &place), 0);
    count("its place", place == MJ_NOWHERE);
    figure("a strand bond", pairs[8], 0.0);
    figure("a scaffold bond", sites[5], -4.0);
#define TABLES pairs, 9, sites, 6
    reply("a search over them", mj_search_over(DESIGN, TABLES, state, 2, &place, &energy), 0);
    count("its configuration", state[0] == 0 && state[1] == 2);
    figure("its energy", energy, -1.5);
    reply("an energy", mj_state_energy_over(DESIGN, TABLES, both, 2, &place, &energy), 0);
    figure("it", energy, -1.5);
    reply("states", mj_states_over(DESIGN, TABLES, &place, &n), 0);
    count("their count", n == 4);
    reply("rank 3", mj_state_over(DESIGN, TABLES, 3, state, 2, &place), 0);
    count("nobody", state[0] == 0 && state[1] == 0);
    pairs[2] = -3.0;
    reply("a bond with nobody", mj_search_over(DESIGN, TABLES, state, 2, &place, &energy), 0);
    count("its configuration", state[0] == 0 && state[1] == 2);
    figure("its energy", energy, -3.0);
    reply("its state energy", mj_state_energy_over(DESIGN, TABLES, second, 2, &place, &energy), 0);
    figure("it", energy, -1.5);
    pairs[0] = 80001.0;
    reply("a bond out of range", mj_states_over(DESIGN, TABLES, &place, &n), 9);
    count("no place", place == MJ_NOWHERE);
    count("no count", n == 0);
#undef TABLES
}

/* The last position blocked, and then the first. */
static void blocked_positions(void)
{
    static const uint8_t both[2] = {1, 2};
    uint8_t state[2] = {9, 9}, entries[64] = {9};
    uint64_t place = unread, n = unread;
    double energy = unwritten, bond = unwritten;
    blocked[1] = 1;
    reply("a blocked position", mj_states(DESIGN, &place, &n), 0);
    count("two states", n == 2);
    reply("a strand on it", mj_state_energy(DESIGN, both, 2, &place, &energy), 11);
    reply("its friends", mj_friends(DESIGN, 1, entries, 64, &place, &n), 0);
    count("it has none", n == 0 && entries[0] == 9);
    reply("its bond", mj_scaffold_bond(DESIGN, 1, 2, &place, &bond), 0);
    figure("as before", bond, -4.0);
    reply("a search", mj_search(DESIGN, state, 2, &place, &energy), 0);
    count("nobody", state[0] == 0 && state[1] == 0);
    figure("its energy", energy, 0.0);
    blocked[0] = 1;
    blocked[1] = 0;
    potentials[1] = NAN;
    reply("the first blocked", mj_search(DESIGN, state, 2, &place, &energy), 0);
    count("the second", state[0] == 0 && state[1] == 2);
    blocked[0] = 2;
    reply("a mark of 2", mj_search(DESIGN, state, 2, &place, &energy), 1);
    count("no place", place == MJ_NOWHERE);
    blocked[0] = 0;
    potentials[1] = -1.0;
}

/* Concentrations of the two strands, and then the same design with their logarithms for potentials. */
static void concentrations(void)
{
    static const uint8_t both[2] = {1, 2}, stranger[2] = {2, 2};
    double amounts[3] = {NAN, 0x1p-3, 1.0};
    double logs[3] = {NAN, unwritten, unwritten};
    uint8_t state[2] = {9, 9}, settled[2] = {9, 9};
    uint64_t place = unread, n = unread;
    double energy = unwritten, told = unwritten;
    reply("a logarithm", mj_ln(amounts[1], &logs[1]), 0);
    reply("a logarithm", mj_ln(amounts[2], &logs[2]), 0);
#define GIVEN(of_strands, given)                                                                   \
    scaffold, 2, blocked, 2, glues, 9, dg[0], 4096, ds[0], 4096, of_strands, 3, given, 0.5, 0.0, 0.0
    reply("an energy", mj_state_energy(GIVEN(logs, 0), both, 2, &place, &energy), 0);
    reply("with concentrations", mj_state_energy(GIVEN(amounts, 1), both, 2, &place, &told), 0);
    figure("as with their logarithms", told, energy);
    count("near -1.46", fabs(told - (-5.0 + 3.0 * 0.6931471805599453) * 0.5) <= 0x1p-39);
    reply("a search", mj_search(GIVEN(logs, 0), settled, 2, &place, &energy), 0);
    reply("with concentrations", mj_search(GIVEN(amounts, 1), state, 2, &place, &told), 0);
    count("as with their logarithms", memcmp(state, settled, 2) == 0);
    figure("its energy", told, energy);
    reply("another kind of amounts", mj_states(GIVEN(amounts, 2), &place, &n), 1);
    amounts[1] = 0x1p-61;
    memset(state, 9, sizeof state);
    reply("a dilute strand", mj_search(GIVEN(amounts, 1), state, 2, &place, &told), 15);
    count("no place", place == MJ_NOWHERE);
    figure("no energy", told, 0.0);
    count("entries kept", state[0] == 9 && state[1] == 9);
    reply("a stranger before it", mj_state_energy(GIVEN(amounts, 1), stranger, 2, &place, &told), 11);
    reply("a rank before it", mj_state(GIVEN(amounts, 1), 4, state, 2, &place), 13);
    blocked[0] = 1;
    reply("nowhere a friend", mj_search(GIVEN(amounts, 1), state, 2, &place, &told), 0);
    blocked[0] = 0;
#undef GIVEN
}

/* One strand with glues a, b* and c**, at the start of the text; after them two bases. */
static const char text[] = "ab*c**AC";
static const size_t strand[] = { 1, 0, 1, 1, 1, 2, 1, 3, 3 };

static void names(void)
{
    const uint8_t *t = (const uint8_t *)text;
    uint8_t glues[3] = { 9, 9, 9 };
    uint64_t start = unread, length = unread, is_base = unread;
    reply("c**", mj_name(t, 8, 3, 3, &start, &length, &is_base), 0);
    count("its base", start == 3 && length == 1);
    count("stands for it", is_base == 1);
    reply("b*", mj_name(t, 8, 1, 2, &start, &length, &is_base), 0);
    count("b* does not", is_base == 0);
    reply("a name that leaves the text", mj_name(t, 8, 7, SIZE_MAX, &start, &length, &is_base), 1);
    count("no base", start == 0 && length == 0 && is_base == 0);
    reply("too few glues", mj_strand_glues(t, 8, 1, strand, 9, glues, 2), 1);
    count("glues kept", glues[0] == 9 && glues[2] == 9);
    reply("glues", mj_strand_glues(t, 8, 1, strand, 9, glues, 3), 0);
    count("their numbers", glues[0] == 1 && glues[1] == 4 && glues[2] == 5);
}

/* Weights over the bench table's two positions: 1 and 2 for the friends, 4 for the two as neighbours.
 * The states have the products 8, 1, 2 and 1. No other weight is looked at. */
static void sums(void)
{
    uint32_t place_digits[6] = {0, 1u << 30, 7, 0, 0, 1u << 30}, pair_digits[9] = {0};
    int32_t place_powers[6] = {0, -30, 0, INT32_MAX, 0, -29}, pair_powers[9] = {0};
    static const uint8_t numbers[4] = {1, 1, 2, 255};
    static const size_t starts[2] = {0, 2}, lengths[2] = {2, 2}, strangers[2] = {2, 1};
    static const size_t past[2] = {3, 1}, none[2] = {4, 4};
    uint64_t place = unread;
    uint32_t digits = 0xa5a5a5a5;
    int32_t power = INT32_MIN;
    pair_digits[5] = 1u << 30;
    pair_powers[5] = -28;
#define WEIGHTS place_digits, 6, place_powers, 6, pair_digits, 9, pair_powers, 9
    dg[1][1] = -0.5;
    dg[2][2] = -2.0;
    dg[0][7] = 0.0;
    potentials[2] = -1.0;
    reply("a free sum", mj_free_sum(DESIGN, WEIGHTS, &place, &digits, &power), 0);
    count("its place", place == MJ_NOWHERE);
    count("it is 12", digits == 3u << 29 && power == -27);
    reply("a sum of both friends",
          mj_constrained_sum(DESIGN, WEIGHTS, numbers, 4, starts, 2, lengths, 2, &place, &digits,
                             &power), 0);
    count("it is 8", digits == 1u << 30 && power == -27);
    reply("a sum of strangers",
          mj_constrained_sum(DESIGN, WEIGHTS, numbers, 4, strangers, 2, strangers, 2, &place,
                             &digits, &power), 0);
    count("it is zero", digits == 0 && power == 0);
    reply("a list past the numbers",
          mj_constrained_sum(DESIGN, WEIGHTS, numbers, 4, none, 2, past, 2, &place, &digits, &power),
          1);
    count("no sum", digits == 0 && power == 0);
    place_powers[1] = 400001;
    reply("a weight out of form", mj_free_sum(DESIGN, WEIGHTS, &place, &digits, &power), 19);
    count("its place", place == MJ_NOWHERE);
    reply("no positions",
          mj_free_sum(scaffold, 0, blocked, 0, glues, 9, dg[0], 4096, ds[0], 4096, potentials, 3, 0,
                      0.5, 0.0, 0.0, place_digits, 0, place_powers, 0, pair_digits, 9, pair_powers, 9,
                      &place, &digits, &power), 18);
#undef WEIGHTS
}

/* Of the bench table's two positions each has its friend or is empty: at the first both are as
 * probable, at the second the friend is with e^3 / (1 + e^3). */
static void occupants(void)
{
    uint64_t place = unread;
    uint32_t digits[6] = {9, 9, 9, 9, 9, 9};
    int32_t powers[6] = {9, 9, 9, 9, 9, 9};
    reply("a cell too few", mj_occupants(DESIGN, digits, 6, powers, 5, &place), 1);
    count("all kept", digits[0] == 9 && digits[5] == 9 && powers[0] == 9 && powers[4] == 9);
    reply("all occupants", mj_occupants(DESIGN, digits, 6, powers, 6, &place), 0);
    count("their place", place == MJ_NOWHERE);
    count("one half", powers[0] >= -32 && powers[0] <= -31 && powers[1] >= -32 && powers[1] <= -31);
    count("strangers", digits[2] == 0 && powers[2] == 0 && digits[4] == 0 && powers[4] == 0);
    count("it is near 0.953", powers[5] == -31 && digits[5] / 1000000 == 2045);
}

/* The friends of the bench table's two positions weigh 1 and e^3, and as neighbours 1. */
static void energies(void)
{
    static const uint8_t numbers[2] = {1, 2};
    static const size_t starts[2] = {0, 1}, lengths[2] = {1, 1}, free_starts[2] = {0, 0};
    static const size_t free_lengths[2] = {0, 0};
    uint64_t place = unread;
    uint32_t digits = 0xa5a5a5a5;
    int32_t power = INT32_MIN;
    reply("an exponential", mj_exp(0.0, &digits, &power), 0);
    count("it is 1", digits == 1u << 30 && power == -30);
    count("as a double", mj_weight(digits, power) == UINT64_C(0x3ff0000000000000));
    count("zero as a double", mj_weight(0, 0) == 0);
    count("the least double", mj_weight(1u << 30, -400000) == 1);
    reply("the exponential of no number", mj_exp(NAN, &digits, &power), 9);
    count("no exponential", digits == 0 && power == 0);
    reply("a sum of energies", mj_free_sum_of_energies(DESIGN, &place, &digits, &power), 0);
    count("its place", place == MJ_NOWHERE);
    count("it is near 42.17", power == -25 && digits / (1u << 25) == 42);
    reply("a sum of energies of both friends",
          mj_constrained_sum_of_energies(DESIGN, numbers, 2, starts, 2, lengths, 2, &place, &digits,
                                         &power), 0);
    count("it is near 20.09", power == -26 && digits / (1u << 26) == 20);
    reply("a probability",
          mj_probability(DESIGN, numbers, 2, starts, 2, lengths, 2, &place, &digits, &power), 0);
    count("it is near 0.476", power == -32 && digits / 1000000 == 2045);
    reply("the probability of all",
          mj_probability(DESIGN, numbers, 2, free_starts, 2, free_lengths, 2, &place, &digits,
                         &power), 0);
    count("it is 1", digits == 1u << 30 && power == -30);
    reply("lists of another size",
          mj_probability(DESIGN, numbers, 2, starts, 1, lengths, 2, &place, &digits, &power), 1);
    occupants();
}

/* Position 0 has the scaffold name at `site`; the entry for b is the sequence AC, and the quencher
 * copies strand 1. */
static uint32_t built(uint32_t build, size_t site, size_t length, uint8_t *glues, uint8_t *scaffold, double *dg,
                      double *ds)
{
    static const size_t entry[] = { 1, 1, 0, SIZE_MAX, SIZE_MAX, 1, 6, 2 };
    static const double unlooked[] = { NAN, NAN };
    const size_t name[] = { 1, site, length };
    return mj_params(build, (const uint8_t *)text, 8, 1, strand, 9, name, 3, entry, 8, unlooked, 2, 0.5, 0.0,
                     1, 0, glues, 12, scaffold, 1, dg, 4096, ds, 4096);
}

static void params(void)
{
    static const uint8_t expected[12] = { 0, 0, 0, 1, 4, 5, 1, 4, 0, 0, 0, 0 };
    static double dg[4096], ds[4096];
    uint8_t glues[12], scaffold[1];
    memset(glues, 9, sizeof glues);
    reply("c** is not known", built(1, 3, 3, glues, scaffold, dg, ds), 6);
    reply("c** retires", built(0, 1, 1, glues, scaffold, dg, ds), 21);
    reply("no build", built(2, 1, 1, glues, scaffold, dg, ds), 1);
    count("glues kept", glues[0] == 9 && glues[11] == 9);
    reply("b is", built(1, 1, 1, glues, scaffold, dg, ds), 0);
    count("strand glues", memcmp(glues, expected, sizeof glues) == 0);
    count("scaffold glue", scaffold[0] == 3);
    figure("its cell", dg[3 * 64 + 4], (-1.44 + 1.96) + 0.5);
    count("the mirror", dg[4 * 64 + 3] == dg[3 * 64 + 4]);
    figure("the entropy", ds[4 * 64 + 3], (-0.0224 + 0.0057) + 0.0);
}

/* Three positions of glues 1, 2, 3 and one strand with these dGs there, and with one for its bond
 * with itself; RT 0.5. */
static void a_ring(double potential, const double of_positions[3], double pair,
                   const uint8_t expected[3], double least)
{
    static const uint8_t positions[3] = { 1, 2, 3 }, open[3], strands[6] = { 0, 0, 0, 5, 4, 5 };
    static double energies[64][64], none[64][64];
    const double logs[2] = { NAN, potential };
    uint8_t state[3] = { 9, 9, 9 };
    uint64_t place = unread;
    double energy = unwritten;
    for (size_t i = 0; i < 3; i++)
        energies[i + 1][4] = of_positions[i];
    energies[5][5] = pair;
#define RING(n) \
    positions, n, open, n, strands, 6, energies[0], 4096, none[0], 4096, logs, 2, 0, 0.5, 0.0, 0.0
    reply("a ring", mj_ring_search(RING(3), state, 3, &place, &energy), 0);
    count("its place", place == MJ_NOWHERE);
    count("its configuration", memcmp(state, expected, 3) == 0);
    figure("its energy", energy, least);
    energy = unwritten;
    reply("its ring energy", mj_ring_energy(RING(3), expected, 3, &place, &energy), 0);
    figure("it", energy, least);
    reply("a chain of two", mj_ring_search(RING(2), state, 2, &place, &energy), 20);
    count("no place", place == MJ_NOWHERE);
    figure("no energy", energy, 0.0);
    count("entries kept", memcmp(state, expected, 3) == 0);
    reply("two places", mj_ring_energy(RING(2), open, 2, &place, &energy), 20);
    reply("a place less", mj_ring_energy(RING(3), open, 2, &place, &energy), 1);
#undef RING
}

static void rings(void)
{
    static const double tied[3] = { -0.5, -1.0, -0.5 }, closing[3] = { 0.25, -0.25, -0.5 };
    static const double apart[3] = { -1.0, -0.75, -0.5 };
    static const uint8_t all[3] = { 1, 1, 1 }, one[3] = { 1, 0, 0 };
    a_ring(-1.0, tied, 0.0, all, -0.5);
    a_ring(0.0, closing, -0.25, all, -1.25);
    a_ring(-1.0, apart, 0.5, one, -0.5);
}

int main(void)
{
    memset(many, 'g', sizeof many);
    one_sequence();
    two_sequences();
    loops();
    strengths();
    logarithms();
    ambients();
    short_sequences();
    decks();
    decks_with_runs();
    designs();
    unfit_ambients();
    bond_tables();
    blocked_positions();
    concentrations();
    rings();
    sums();
    energies();
    names();
    params();
    printf("client: %u passed, %u failed\n", passed, failed);
    return failed == 0 ? 0 : 1;
}
