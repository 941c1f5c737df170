/*
 * Mujplesten: energies of DNA sequences and of scaffold designs, as C functions on slices.
 *
 * Link with libexports.a (x86-64 Linux); it needs no other library.
 *
 * One function is one call. It answers the number of its reply, 0 or that of a refusal, and writes
 * what else it tells through pointers: a whole number as uint64_t, a double as double, a sum over
 * states as the uint32_t and int32_t that its weights are lent as. All of them are
 * written by every call. On a refusal each figure is 0, of a double with all bits 0; and the place of
 * a fault, where a function has one, is MJ_NOWHERE where the reply has no place. Nothing is kept
 * between calls, which may run on several threads at a time.
 *
 * What a caller sees to; the proofs take it for granted, and nothing checks it:
 *
 *   - A slice is a pointer and a length in elements. The pointer is good for that many elements and
 *     aligned for their type; the length is true. With length 0 nothing is read or written through
 *     the pointer, which may then be null.
 *   - A pointer to a number is good for one, aligned, and never null.
 *   - What a call is to write overlaps nothing else of that call.
 *   - Doubles are rounded to nearest, and subnormals are kept: the mode in which a program starts.
 *     Not so after fesetround, in code that sets flush-to-zero or denormals-are-zero, or in a program
 *     that is linked with -ffast-math.
 *   - A call has 256 KiB of stack left on its thread: a search takes about 140, as do a job sheet and
 *     mj_first_state_under, the sums of energies less than 160, mj_params, the search over tables and
 *     the sums over states less than 64, every other less than 16.
 *
 * Sequences. Letters are a, c, g, t in either case; no NUL ends a sequence. Of two sequences the
 * second is read by index beside the first, not backwards: "aac" pairs with "ttg" without a mismatch.
 *
 * Replies. 0 is an answer; the others say why a call is refused:
 *
 *    1 size     a sequence of more than 256 bytes; a lent slice of another length; more than 128
 *               entries or positions; not 1 to 64 strands; a glue above 63; a strand or a position
 *               that the design lacks; more than 61 user strands or 1,024 energy entries; a name of
 *               more than 64 bytes; a name or a sequence that leaves the text; a mark, a form, a build or
 *               a kind of amounts of another value; marks that are not one for each position; a quencher or reporter that is no user strand;
 *               weights, lists of a constraint, or cells for occupants that are not as many as the design asks for; a list that
 *               leaves the numbers
 *    2 base     a byte other than a, c, g, t in either case
 *    3 short    a single sequence of fewer than 2 bases
 *    4 unequal  paired sequences of different length
 *    5 loop     a loop kind other than 0, 1, 2, or a loop length outside 3 to 254
 *    6 unknown  a scaffold name that is neither the base of a strand glue nor that base with one star
 *    7 glues    the strands use more than 31 base names
 *    8 twice    two energy entries name the same unordered pair of known names
 *    9 range    a number not finite or outside its range, but for those of 15 to 17; a lent bond
 *               above 80,000 in size or not finite, or such an argument of the exponential; an entry of
 *               a configuration above 63 that is to be written as a deck
 *   10 null     strand 0 has a glue, or row or column 0 of a table a nonzero cell
 *   11 stranger a configuration holds, at some position, neither 0 nor a friend
 *   12 many     a design of more than 1,048,576 states
 *   13 rank     a rank at or above the number of states, or of short sequences
 *   14 deck     a stored configuration that breaks the word rules
 *   15 dilute   the concentration of a strand that is a friend somewhere, or an argument of the
 *               logarithm, not finite or outside 2^-60 to 2^10
 *   16 ambient  RT or an excess temperature of a design not finite or outside its range
 *   17 potential  the potential of a strand that is a friend somewhere not finite or outside its range
 *   18 bare     a sum over the states of a scaffold of no positions
 *   19 weight   a weight outside its form that some state uses
 *   20 ring     a scaffold of fewer than 3 positions that is to be a ring
 *   21 stars    a strand or entry name that ends in two or more stars, in an ordinary build
 *   22 job      a word of a job sheet that is no job; a job's reply, never a call's
 *   23 none     no state at or under a ceiling
 *
 * If several apply, the lowest is given. Four of them say where the fault lies:
 *
 *    9 of a design   the lowest bad cell: 64 * row + column in dg, 4,096 more in ds; none where a
 *                    lent bond alone is out
 *   14               the index of the faulty word
 *   16               the first that is out: 0 rt, 1 strand_excess, 2 scaffold_excess
 *   17               the lowest such strand
 *
 * Units. Free energies (dg, strengths, rt) are in kcal/mol, entropies (ds) in kcal/mol/K,
 * temperatures and excess temperatures in kelvin.
 */
#ifndef MUJPLESTEN_H
#define MUJPLESTEN_H

#include <stddef.h>
#include <stdint.h>

#ifdef __cplusplus
extern "C" {
#endif

/* The place of a reply that has none. */
#define MJ_NOWHERE UINT64_MAX

/* One strand with its perfect match, initiation included (string_dna_dg_ds). Replies 1, 2, 3. The
 * other three answer one number of the same call, a double as its 64 bits. */
uint32_t mj_sequence(const uint8_t *s, size_t n, double *dg, double *ds);
uint32_t mj_sequence_reply(const uint8_t *s, size_t n);
uint64_t mj_sequence_dg(const uint8_t *s, size_t n);
uint64_t mj_sequence_ds(const uint8_t *s, size_t n);

/* The same as the paper has it: after the same stacks its initiation entropy of -0.0057, its terms
 * for each end whose pair is A-T, and that for a sequence equal to its own reverse complement
 * (published_dna_dg_ds). Replies 1, 2, 3. */
uint32_t mj_published_reply(const uint8_t *s, size_t n);
uint64_t mj_published_dg(const uint8_t *s, size_t n);
uint64_t mj_published_ds(const uint8_t *s, size_t n);

/* Two strands, mismatches and internal loops priced, no initiation (sequence_pair_dg_ds).
 * Replies 1, 2, 4, 5. The other three as above. */
uint32_t mj_pair(const uint8_t *a, size_t m, const uint8_t *b, size_t n, double *dg, double *ds);
uint32_t mj_pair_reply(const uint8_t *a, size_t m, const uint8_t *b, size_t n);
uint64_t mj_pair_dg(const uint8_t *a, size_t m, const uint8_t *b, size_t n);
uint64_t mj_pair_ds(const uint8_t *a, size_t m, const uint8_t *b, size_t n);

/* The sequence at a rank, counted from 0, among all 87,376 of 2 to 8 bases: shorter first, then
 * alphabetically. It is written in lower case from the start of 8 lent bytes, the rest is kept, and the
 * number of its bases told. Replies 1 (not 8 bytes), 13 (a rank past the last). */
uint32_t mj_short_sequence(uint64_t rank, uint8_t *bytes, size_t lent, uint64_t *bases);

/* The free energy of a loop (loop_penalty). Kind: 0 internal, 1 bulge, 2 hairpin; lengths 3 to 254.
 * At 3 to 10, 12, 14, 16, 18, 20, 25, 30 it is the table's, elsewhere within 2^-30 kcal/mol of the
 * longest entry below and R x 310.15 x 2.44 times the logarithm of the ratio. Reply 5. */
uint32_t mj_loop_penalty(size_t length, uint32_t kind, double *dg);

/* The binding strength of one strand with its perfect match at an excess temperature over 37 C,
 * -1024 to 1024 (sequences_strength). Replies 1, 2, 3, 9. */
uint32_t mj_sequence_strength(const uint8_t *s, size_t n, double excess, double *strength);

/* The same of two strands. Replies 1, 2, 4, 5, 9. */
uint32_t mj_pair_strength(const uint8_t *a, size_t m, const uint8_t *b, size_t n, double excess,
                          double *strength);

/* RT and the two excess temperatures at a temperature of 200 to 500 kelvin. Reply 9. */
uint32_t mj_ambient(double kelvin, double *rt, double *strand_excess, double *scaffold_excess);

/* The natural logarithm of a double from 2^-60 to 2^10, within 2^-40 of the exact one. Reply 15. */
uint32_t mj_ln(double x, double *logarithm);

/* Stored configurations. Reading takes a deck of n words and is lent 128 entries, of which it fills
 * as many as there are positions (count); writing takes the n entries of a configuration, 0 to 128,
 * and is lent 129 words, of which it fills count. What lies past the result is kept, and on a refusal
 * all is. The place is the index of the faulty word, with reply 14 alone. Replies 1, 14 and 1, 9.
 *
 * A deck has one of two forms: 0 has a word for each strand, 1 a word for each run of one strand; any
 * other number is refused with 1. Moving takes a deck of n words in a form and is lent 129 words, into
 * which it writes the deck of the same configuration in the other form. Replies 1, 14, the latter by
 * the rules of the form that the deck is in. */
uint32_t mj_deck_read(uint32_t form, const uint32_t *words, size_t n, uint8_t *entries, size_t lent,
                      uint64_t *place, uint64_t *count);
uint32_t mj_deck_write(uint32_t form, const uint8_t *configuration, size_t n, uint32_t *words,
                       size_t lent, uint64_t *count);
uint32_t mj_deck_move(uint32_t form, const uint32_t *words, size_t n, uint32_t *moved, size_t lent,
                      uint64_t *place, uint64_t *count);

/* Names. All names lie in one text; each is a start and a length in it. A list of names has a row of
 * three numbers for each: its mark, 0 absent, 1 present; its start; its length. The start and length
 * of an absent name are not looked at. A name's trailing stars are stripped to its base; an even
 * number of them means the base, an odd number base*. UTF-8 is not asked for. */

/* The base of a name (self_and_inverse): where it starts in the text, its length, and 1 where the name
 * stands for it, 0 where it stands for base*. Reply 1. */
uint32_t mj_name(const uint8_t *text, size_t n, size_t start, size_t length, uint64_t *base_start,
                 uint64_t *base_length, uint64_t *is_base);

/* The numbers of all glues of the user strands, 0 to 61 of them, three names for each: west, bottom,
 * east; into as many lent glues. A new base takes the next two numbers from 1, for itself and for
 * base*; an absent name is 0. On a refusal all glues are kept. Replies 1, 7. */
uint32_t mj_strand_glues(const uint8_t *text, size_t n, size_t users, const size_t *strands,
                         size_t strand_numbers, uint8_t *glues, size_t lent);

/* A design's glues and tables from names and energies (from_params).
 *
 *   strands      three names for each user strand, 0 to 61 of them
 *   scaffold     a name for each position, 0 to 128 of them, looked up as it is spelled
 *   entries      a row of eight numbers for each energy entry, 0 to 1,024 of them: start and length of
 *                its first name, which is always there; mark, start and length of its second; its form;
 *                start and length of its sequence. An entry for one name is for its base and base*.
 *                Form 0 is the entry's two doubles, form 1 its sequence, a part of the text of 2 to 256
 *                bases, whose energies are those of mj_sequence
 *   energies     a row of two doubles, dG and dS, for each entry; not looked at where its form is 1
 *   penalty_dg, penalty_ds   are added to both numbers of every entry; 0.0 for none
 *   quencher, reporter       the number of the user strand that is copied, from 1; 0 for none
 *
 * Written are strand_glues, three for strand 0, for each user strand, for the quencher (west and
 * bottom of its strand) and for the reporter (bottom and east of its strand); scaffold_glues, one for
 * each position; dg and ds, 4,096 cells each, a cell and its mirror for each entry both of whose names
 * are known, all else 0.0. On a refusal all are kept.
 *
 * The build is 0, an ordinary one, which refuses strand and entry names that end in two or more stars,
 * or 1, the archive's, which takes old designs with such names; any other number is refused with 1.
 * Scaffold names follow one rule in both. Replies 1, 2, 3, 6, 7, 8, 9, 21. */
uint32_t mj_params(uint32_t build, const uint8_t *text, size_t n, size_t users, const size_t *strands,
                   size_t strand_numbers, const size_t *scaffold, size_t scaffold_numbers,
                   const size_t *entries, size_t entry_numbers, const double *energies,
                   size_t energy_doubles, double penalty_dg, double penalty_ds, size_t quencher,
                   size_t reporter, uint8_t *strand_glues, size_t strand_glues_lent,
                   uint8_t *scaffold_glues, size_t scaffold_glues_lent, double *dg, size_t dg_lent,
                   double *ds, size_t ds_lent);

/* Designs. A design is six slices, each a pointer and a length, and the ambient:
 *
 *   scaffold     a glue for each position, 0 to 128 of them
 *   marks        one for each position: 0 open, 1 blocked
 *   glues        three for each strand: west, bottom, east; strand 0 is empty and has none (0, 0, 0)
 *   dg, ds       4,096 cells each, row first: 64 rows of 64; dg within 1024, ds within 8 of 0
 *   amounts      one for each strand, 1 to 64 of them, strand 0 included; looked at only where the
 *                strand is a friend
 *   given        what they are: 0 potentials, the logarithms of concentrations, within 1024 of 0;
 *                1 concentrations in mol/L, 2^-60 to 2^10, for whose logarithms (mj_ln) as potentials
 *                a design then answers; any other number is refused with 1, before all else
 *   rt           1/8 to 8; strand_excess, scaffold_excess within 1024 of 0
 *
 * Every call checks all of the design. A strand is a friend at a position if the position is open and
 * dG or dS is nonzero at the cell of the position's glue and the strand's bottom glue: a blocked
 * position has no friends, and is empty in every state. Bonds are those of the glues, whatever the
 * marks. A configuration has an occupant for
 * each position, 0 for an empty place; a state is one that has 0 or a friend at each position. */
#define MJ_DESIGN                                                                              \
    const uint8_t *scaffold, size_t positions, const uint8_t *marks, size_t mark_count,        \
        const uint8_t *glues, size_t glue_count, const double *dg, size_t dg_cells,            \
        const double *ds, size_t ds_cells, const double *amounts, size_t strands,              \
        uint32_t given, double rt, double strand_excess, double scaffold_excess

/* The bond between strand x and strand y to the east of it: an energy over RT
 * (bond_between_strands). Replies 1, 9, 10, 15, 16, 17. */
uint32_t mj_strand_bond(MJ_DESIGN, uint8_t x, uint8_t y, uint64_t *place, double *bond);

/* The bond between the scaffold at a position and a strand (bond_with_scaffold). Replies 1, 9, 10, 15,
 * 16, 17. */
uint32_t mj_scaffold_bond(MJ_DESIGN, size_t position, uint8_t strand, uint64_t *place,
                          double *bond);

/* The friends of a position, in rising order, into 64 lent entries, of which it fills as many as
 * there are friends (count); the rest is kept, and on a refusal all is. Replies 1, 9, 10, 15, 16, 17. */
uint32_t mj_friends(MJ_DESIGN, size_t position, uint8_t *entries, size_t lent, uint64_t *place,
                    uint64_t *count);

/* How many states there are. Replies 1, 9, 10, 12, 15, 16, 17. */
uint32_t mj_states(MJ_DESIGN, uint64_t *place, uint64_t *count);

/* The state at a rank in the order of system_states, into one lent entry for each position; on a
 * refusal all are kept. Replies 1, 9, 10, 12, 13, 15, 16, 17. */
uint32_t mj_state(MJ_DESIGN, uint64_t rank, uint8_t *entries, size_t lent, uint64_t *place);

/* The state energy of a configuration (g_system), in kcal/mol. Replies 1, 9, 10, 11, 15, 16, 17. */
uint32_t mj_state_energy(MJ_DESIGN, const uint8_t *configuration, size_t n, uint64_t *place,
                         double *energy);

/* The chain energy of a configuration: the sum as it is, a plain number, and RT times it, in kcal/mol.
 * Replies 1, 9, 10, 11, 15, 16, 17. */
uint32_t mj_chain_energy(MJ_DESIGN, const uint8_t *configuration, size_t n, uint64_t *place,
                         double *sum, double *energy);

/* The search (mfe_configuration): the configuration with the lowest RT times chain energy, into one
 * lent entry for each position, 0 for an empty place, and that energy in kcal/mol; on a refusal all
 * entries are kept. Replies 1, 9, 10, 15, 16, 17. */
uint32_t mj_search(MJ_DESIGN, uint8_t *configuration, size_t lent, uint64_t *place, double *energy);

/* Tables of bonds beside a design, row first, each row as many cells as there are strands:
 *
 *   strand_bonds     strands rows: the cell [x][y] is the bond of mj_strand_bond
 *   scaffold_bonds   positions rows: the cell [i][x] is that of mj_scaffold_bond
 *
 * Filling writes every cell of both; on a refusal all are kept. The other calls read the cells where
 * those over a design work the bonds out, bonds with strand 0 included: over tables that were filled
 * they answer as over the design, over other cells by the same rules with these as the bonds. They
 * check all of the design, and every cell: one that is not finite or above 80,000 in size is 9, without
 * a place where dg and ds are in range. */
#define MJ_TABLES                                                                              \
    const double *strand_bonds, size_t strand_cells, const double *scaffold_bonds,             \
        size_t scaffold_cells

/* Fills both tables. Replies 1, 9, 10, 15, 16, 17. */
uint32_t mj_bond_tables(MJ_DESIGN, double *strand_bonds, size_t strand_cells,
                        double *scaffold_bonds, size_t scaffold_cells, uint64_t *place);

/* As mj_state_energy. Replies 1, 9, 10, 11, 15, 16, 17. */
uint32_t mj_state_energy_over(MJ_DESIGN, MJ_TABLES, const uint8_t *configuration, size_t n,
                              uint64_t *place, double *energy);

/* As mj_states. Replies 1, 9, 10, 12, 15, 16, 17. */
uint32_t mj_states_over(MJ_DESIGN, MJ_TABLES, uint64_t *place, uint64_t *count);

/* As mj_state. Replies 1, 9, 10, 12, 13, 15, 16, 17. */
uint32_t mj_state_over(MJ_DESIGN, MJ_TABLES, uint64_t rank, uint8_t *entries, size_t lent,
                       uint64_t *place);

/* As mj_search. Replies 1, 9, 10, 15, 16, 17. */
uint32_t mj_search_over(MJ_DESIGN, MJ_TABLES, uint8_t *configuration, size_t lent,
                        uint64_t *place, double *energy);

#undef MJ_TABLES
/* Rings: a scaffold of 3 positions or more whose last position stands beside its first. The ring
 * energy of a configuration is its chain energy plus, where first and last place are both occupied,
 * the strand bond from the last to the first, times RT, in kcal/mol. Replies 1, 9, 10, 11, 15, 16, 17,
 * 20. */
uint32_t mj_ring_energy(MJ_DESIGN, const uint8_t *configuration, size_t n, uint64_t *place,
                        double *energy);

/* The search for rings: the configuration with the lowest ring energy, into one lent entry for each
 * position, 0 for an empty place, and that energy in kcal/mol; on a refusal all entries are kept. Of
 * several lowest it is one with the first of their occupants at position 0, empty last, and else the
 * one that the chain's search would find. Replies 1, 9, 10, 15, 16, 17, 20. */
uint32_t mj_ring_search(MJ_DESIGN, uint8_t *configuration, size_t lent, uint64_t *place,
                        double *energy);
/* The sum over all states of a design of the products of their weights. A weight is digits * 2^power:
 * digits from 2^30 up to, not including, 2^31, and a power from -400,000 to 400,000. One is lent for
 * each position and strand, [position * strands + strand], and one for each pair of neighbours,
 * [left * strands + right], digits and powers apart; strand 0 has its cells. An empty place, and a pair
 * with one, has the factor 1 whatever its cell holds, and only weights that some state uses are looked
 * at. The sum is told in the same form with any power, or as 0 * 2^0 for zero; it lies within one part
 * in 2^15 of the exact sum. However many states there are, it takes one pass over the positions.
 * Replies 1, 9, 10, 15, 16, 17, 18, 19. */
uint32_t mj_free_sum(MJ_DESIGN, const uint32_t *place_digits, size_t place_digit_count,
                     const int32_t *place_powers, size_t place_power_count,
                     const uint32_t *pair_digits, size_t pair_digit_count,
                     const int32_t *pair_powers, size_t pair_power_count, uint64_t *place,
                     uint32_t *digits, int32_t *power);

/* The same over the states that meet a constraint: for each position a list of allowed occupants, 0
 * for empty, from starts[i] on and lengths[i] long in numbers. An empty list leaves the place free; a
 * number that is neither 0 nor a friend there is passed over. Zero exactly if no state meets it.
 * Replies as above; 1 also where there is not one list for each position, or one leaves the numbers. */
uint32_t mj_constrained_sum(MJ_DESIGN, const uint32_t *place_digits, size_t place_digit_count,
                            const int32_t *place_powers, size_t place_power_count,
                            const uint32_t *pair_digits, size_t pair_digit_count,
                            const int32_t *pair_powers, size_t pair_power_count,
                            const uint8_t *numbers, size_t number_count, const size_t *starts,
                            size_t start_count, const size_t *lengths, size_t length_count,
                            uint64_t *place, uint32_t *digits, int32_t *power);

/* The exponential of a double from -80,000 to 80,000, told as digits * 2^power with digits from 2^30 up
 * to, not including, 2^31: within one part in 2^24, and exactly 2^30 * 2^-30 of 0. Reply 9. */
uint32_t mj_exp(double x, uint32_t *digits, int32_t *power);

/* digits * 2^power as a double, its 64 bits: rounded once to the nearest. 0.0 of zero alone: where the
 * nearest double of anything else would be 0.0 it is the smallest above; past the largest it is
 * infinity. So a sum or a probability is 0.0 exactly if no state meets its constraint. */
uint64_t mj_weight(uint32_t digits, int32_t power);

/* The same sums over the weights of a design's own energies: a position and a strand weigh the
 * exponential of minus their bond less the strand's potential, rounded once; a left and a right strand
 * that of minus their bond. Each sum lies within one part in 2^14 of that of the exact exponentials.
 * Replies 1, 9, 10, 15, 16, 17, 18. */
uint32_t mj_free_sum_of_energies(MJ_DESIGN, uint64_t *place, uint32_t *digits, int32_t *power);
uint32_t mj_constrained_sum_of_energies(MJ_DESIGN, const uint8_t *numbers, size_t number_count,
                                        const size_t *starts, size_t start_count,
                                        const size_t *lengths, size_t length_count,
                                        uint64_t *place, uint32_t *digits, int32_t *power);

/* The probability of the states that meet a constraint: their sum of energies by that over all states,
 * in the form of a sum, within one part in 2^12 of the exact quotient; 0 * 2^0 exactly if no state meets
 * it. Replies 1, 9, 10, 15, 16, 17, 18. */
uint32_t mj_probability(MJ_DESIGN, const uint8_t *numbers, size_t number_count, const size_t *starts,
                        size_t start_count, const size_t *lengths, size_t length_count,
                        uint64_t *place, uint32_t *digits, int32_t *power);

/* The probability of each occupant at each position: that of the states that have it there, by that
 * over all states. Digits and powers have a cell for each position and strand, [position * strands +
 * strand], column 0 for the empty place; each is as near as mj_probability of a list of that occupant
 * alone, 0 * 2^0 for a strand that is no friend there. On a refusal all cells are kept. Replies 1, 9,
 * 10, 15, 16, 17, 18. */
uint32_t mj_occupants(MJ_DESIGN, uint32_t *digits, size_t digit_count, int32_t *powers,
                      size_t power_count, uint64_t *place);

/* The first state in listing order whose state energy is at most the ceiling, into one lent entry for
 * each position, 0 for an empty place, and its state energy in kcal/mol; on a refusal all entries are
 * kept. A ceiling that is not finite is 9, without a place. Replies 1, 9, 10, 12, 15, 16, 17, 23. */
uint32_t mj_first_state_under(MJ_DESIGN, double ceiling, uint8_t *entries, size_t lent,
                              uint64_t *place, double *energy);

/* A sheet of n job words, at most 64, on one design. The top 4 bits of a word are its kind, the low 28
 * its payload: kind 8 is the state energy of the state at the rank in the payload; 9 the search and 10
 * the number of states, both with payload 0; a word of another kind or payload is 22, whatever else
 * holds. Each job has a number, an energy and a count in one entry each, those that mj_state and
 * mj_state_energy, mj_search and mj_states tell, 0 where a job has none. Stretches has one entry for
 * each job and position, those of the first job first, and a search that is answered fills its own; all
 * other stretches are kept. A job that is refused stops no other; the sheet itself is refused where it
 * is too long, one of the four is lent at another length, or the number of the amounts names no kind,
 * and then all are kept. Reply 1. */
uint32_t mj_job_sheet(MJ_DESIGN, const uint32_t *jobs, size_t n, uint32_t *numbers,
                      size_t number_count, double *energies, size_t energy_count, uint64_t *counts,
                      size_t count_count, uint8_t *stretches, size_t stretch_entries);

#undef MJ_DESIGN

#ifdef __cplusplus
}
#endif

#endif
