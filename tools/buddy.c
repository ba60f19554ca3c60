/* tools/buddy.c: runs a list of operations of tools/diagrams.py on BuDDy 2.4, as crates/bdd_client does on bdd_store and bdd_ops.
 *
 * Usage: buddy NODES CACHE < LIST. The table of nodes begins with so many places, and each cache has so many entries. It writes the same lines as bdd_client, and on standard error the processor time of the operations
 * alone, in seconds: without the start of the program, in which BuDDy makes its tables, and without reading the list.
 * Each function that is made is kept until the list drops it.
 */
#include <bdd.h>
#include <stdint.h>
#include <stdio.h>
#include <stdlib.h>
#include <time.h>

enum { VARIABLE, CONSTANT, AND, OR, NOT, EXISTS, RENAME, DROP, COUNT };

static uint32_t *read_list(size_t *length) {
    size_t room = 1 << 16, have = 0, got;
    unsigned char *bytes = malloc(room);
    while (bytes && (got = fread(bytes + have, 1, room - have, stdin)) > 0) {
        have += got;
        if (have == room) bytes = realloc(bytes, room *= 2);
    }
    *length = have / sizeof(uint32_t);
    return (uint32_t *)bytes;
}

/* The pairs by which each variable of odd number becomes the one before it. */
static bddPair *pairs_of(int vars) {
    bddPair *pairs = bdd_newpair();
    for (int v = 1; v < vars; v += 2) bdd_setpair(pairs, v, v - 1);
    return pairs;
}

static BDD made_by(const BDD *made, const uint32_t *line, bddPair *pairs) {
    switch (line[0]) {
        case VARIABLE: return bdd_ithvar((int)line[1]);
        case CONSTANT: return line[1] ? bddtrue : bddfalse;
        case AND: return bdd_and(made[line[1]], made[line[2]]);
        case OR: return bdd_or(made[line[1]], made[line[2]]);
        case NOT: return bdd_not(made[line[1]]);
        case EXISTS: return bdd_exist(made[line[1]], bdd_ithvar((int)line[2]));
        case RENAME: return bdd_replace(made[line[1]], pairs);
        default: exit(3);
    }
}

static double seconds(void) {
    struct timespec now;
    clock_gettime(CLOCK_PROCESS_CPUTIME_ID, &now);
    return (double)now.tv_sec + 1e-9 * (double)now.tv_nsec;
}

static void no_report(int before, bddGbcStat *of) {
    (void)before;
    (void)of;
}

int main(int argc, char **argv) {
    if (argc != 3) return 4;
    size_t length;
    uint32_t *list = read_list(&length);
    if (!list || length < 1 || (length - 1) % 3 != 0) return 3;
    size_t lines = (length - 1) / 3, count = 0;
    BDD *made = malloc((lines + 1) * sizeof(BDD));
    if (!made || bdd_init(atoi(argv[1]), atoi(argv[2])) < 0) return 7;
    bdd_gbc_hook(no_report);
    bdd_setvarnum((int)list[0]);
    double start = seconds();
    bddPair *pairs = pairs_of((int)list[0]);
    for (size_t i = 0; i < lines; i++) {
        const uint32_t *line = list + 1 + 3 * i;
        if (line[0] == DROP) {
            bdd_delref(made[line[1]]);
        } else if (line[0] == COUNT) {
            printf("%d\n", bdd_nodecount(made[line[1]]));
        } else {
            made[count] = bdd_addref(made_by(made, line, pairs));
            count++;
        }
    }
    fprintf(stderr, "%.6f\n", seconds() - start);
    return fflush(stdout) ? 6 : 0;
}
