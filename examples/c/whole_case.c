/* The whole case of document 01 through the library: map, check, simulate. */
#include "bhedhmurali.h"

#include <inttypes.h>
#include <stdio.h>
#include <string.h>

static const char NETLIST[] =
    "0102000501\n0200000001\n0200000002\n0200010002\n0200030004\n020005\n"
    "030006\n";

/* Says what a call answered; 1 where it was refused. */
static int said(const char *call, int64_t answer) {
    if (answer < 0) {
        printf("%s: refused with %" PRId64 "\n", call, -answer);
        return 1;
    }
    printf("%s: %" PRId64 "\n", call, answer);
    return 0;
}

int main(void) {
    const uint8_t *netlist = (const uint8_t *)NETLIST;
    size_t netlist_size = strlen(NETLIST);
    uint8_t sequence[4096];
    int64_t length = bhedhmurali_map(5, netlist, netlist_size, sequence, sizeof sequence);
    if (said("map, row of 5", length)) {
        return 1;
    }
    fwrite(sequence, 1, (size_t)length, stdout);
    if (said("check", bhedhmurali_check(netlist, netlist_size, sequence, (size_t)length))) {
        return 1;
    }
    for (int number = 0; number < 4; number++) {
        uint8_t row[5] = {(uint8_t)(number / 2), (uint8_t)(number % 2), 0, 0, 0};
        uint8_t inputs[2] = {row[0], row[1]};
        uint8_t value[1];
        if (bhedhmurali_simulate(sequence, (size_t)length, row, sizeof row, 100) < 0 ||
            bhedhmurali_evaluate(netlist, netlist_size, inputs, 2, value, 1) < 0 ||
            row[3] != value[0]) {
            printf("inputs %d %d: the row and the netlist differ\n", inputs[0], inputs[1]);
            return 1;
        }
        printf("inputs %d %d: cell 3 holds %d\n", inputs[0], inputs[1], row[3]);
    }
    said("map, row of 4", bhedhmurali_map(4, netlist, netlist_size, sequence, sizeof sequence));
    return 0;
}
