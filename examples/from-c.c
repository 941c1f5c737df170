/* The energies of a sequence with its perfect match. */

#include <inttypes.h>
#include <stdio.h>
#include <string.h>

#include "mujplesten.h"

int main(void)
{
    const char *bases = "CCATGA";
    double dg, ds;
    uint32_t reply = mj_sequence((const uint8_t *)bases, strlen(bases), &dg, &ds);
    if (reply != 0) {
        printf("refused %" PRIu32 "\n", reply);
        return 1;
    }
    printf("dG %.2f kcal/mol, dS %.4f kcal/mol/K\n", dg, ds);
    return 0;
}
