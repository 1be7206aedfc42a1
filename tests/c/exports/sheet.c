/* The session's rules, as docs/sheet.csv has them: kdr_step from every phase that a record can hold and
 * in versions around the four, those that no session reaches too. */
#include "check.h"
#include <stdio.h>

enum { PHASES = 31, WIDTH = 32 };

static char phases[PHASES][WIDTH], cells[PHASES][INSTRUCTIONS][4][WIDTH];

/* A line for each phase and instruction, in the table's order, and none behind them. */
static void read_sheet(void)
{
    char line[200], name[WIDTH];
    FILE *file = fopen("docs/sheet.csv", "r");
    CHECK(file != NULL);
    CHECK(fgets(line, sizeof line, file) != NULL);
    CHECK(strcmp(line, "phase,instruction,1.0,2.0,3.0,4.0\n") == 0);
    for (size_t p = 0; p < PHASES; p++) {
        for (size_t i = 0; i < INSTRUCTIONS; i++) {
            char(*to)[WIDTH] = cells[p][i];
            CHECK(fgets(line, sizeof line, file) != NULL);
            CHECK(sscanf(line, "%31[^,],%31[^,],%31[^,],%31[^,],%31[^,],%31[^\n]", phases[p], name,
                         to[0], to[1], to[2], to[3]) == 6);
        }
    }
    CHECK(fgets(line, sizeof line, file) == NULL);
    fclose(file);
}

/* The session goes to the phase that stands under its version, or is left, and the step refused with
 * 9. Below 1.0 a version counts as 1.0, above 4.0 as 4.0; no phase above the last has a line. */
static void check_step(unsigned phase, unsigned version, size_t i)
{
    uint8_t session[KDR_SESSION_BYTES] = {(uint8_t)phase, (uint8_t)version};
    unsigned slot = version <= 1 ? 0 : version >= 4 ? 3 : version - 1;
    const char *to = phase < PHASES ? cells[phase][i][slot] : "-";
    uint64_t n = written(TABLE[i].number, TABLE[i].shape);
    uint64_t answer = kdr_step(session, KDR_SESSION_BYTES, TABLE[i].side, lent.out, n, lent.numbers,
                               KDR_FIELDS);
    if (strcmp(to, "-") == 0) {
        CHECK(answer == KDR_REFUSED + KDR_OUT_OF_ORDER);
        CHECK(session[0] == phase && session[1] == version);
    } else {
        CHECK(answer == n);
        CHECK(session[0] < PHASES && strcmp(phases[session[0]], to) == 0);
        CHECK(session[1] == (TABLE[i].number == KDR_SessionParameters ? 4 : version));
    }
}

void check_sheet(void)
{
    static const unsigned versions[] = {0, 1, 2, 3, 4, 5, 255};
    read_sheet();
    for (unsigned phase = 0; phase <= 255; phase++) {
        for (size_t v = 0; v < sizeof versions / sizeof *versions; v++) {
            for (size_t i = 0; i < INSTRUCTIONS; i++) {
                check_step(phase, versions[v], i);
            }
        }
    }
}
