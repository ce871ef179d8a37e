/* The functions of a program's inputs and writes, and of a circuit's lines behind each gate, made by BuDDy (Debian's
 * libbdd-dev) in the order in which `check` and `verify` make them, over the same variables and with each one kept. Prints
 * how many nodes they share.
 *
 * Standard input: the numbers of inputs and steps; for each input the number of its variable; and for each step a sign and
 * three references: `&` or `^` with its operands, `f` with the two controls and the target of a flip, or `0` or `1` with
 * none. Inputs are numbered before steps.
 */
#include <bdd.h>
#include <stdio.h>
#include <stdlib.h>

int main(void) {
    int inputs, steps, left, right, target;
    char sign;
    if (scanf("%d %d", &inputs, &steps) != 2) return 1;
    BDD *functions = malloc(sizeof(BDD) * (inputs + steps));
    if (functions == NULL || bdd_init(100000, 50000) < 0) return 1;
    bdd_gbc_hook(NULL);
    bdd_disable_reorder();
    bdd_setcacheratio(4);
    bdd_setmaxincrease(1000000);
    bdd_setvarnum(inputs);
    for (int input = 0; input < inputs; input++) {
        if (scanf("%d", &left) != 1) return 1;
        functions[input] = bdd_ithvar(left);
    }
    for (int at = inputs; at < inputs + steps; at++) {
        if (scanf(" %c %d %d %d", &sign, &left, &right, &target) != 4) return 1;
        if (sign == '&') functions[at] = bdd_and(functions[left], functions[right]);
        else if (sign == '^') functions[at] = bdd_xor(functions[left], functions[right]);
        else if (sign == 'f') {
            BDD both = bdd_addref(bdd_and(functions[left], functions[right]));
            functions[at] = bdd_xor(functions[target], both);
            bdd_delref(both);
        } else functions[at] = sign == '1' ? bddtrue : bddfalse;
        bdd_addref(functions[at]);
    }
    printf("%d\n", bdd_anodecount(functions, inputs + steps));
    return 0;
}
