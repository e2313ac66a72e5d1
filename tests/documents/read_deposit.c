/* What sigvanyor_read makes of deposit files: for each its name, then its counts in a line and the
 * bits of each payoff as 16 hexadecimal digits in a line, or `refused` and the number. */
#include "sigvanyor.h"
#include <inttypes.h>
#include <stdio.h>
#include <string.h>

/* One word more than the largest deposit has. */
static uint8_t bytes[SIGVANYOR_MAX_FILE + 4];
static size_t counts[SIGVANYOR_MAX_PLAYERS];
static double payoffs[SIGVANYOR_MAX_CELLS];

static void print_reading(size_t length) {
    size_t players, cells = 1;
    const uint32_t status = sigvanyor_read(bytes, length, counts, SIGVANYOR_MAX_PLAYERS, payoffs,
                                           SIGVANYOR_MAX_CELLS, &players);
    if (status != 0) {
        printf("refused %" PRIu32 "\n", status);
        return;
    }
    for (size_t p = 0; p < players; p++) {
        printf(p == 0 ? "%zu" : " %zu", counts[p]);
        cells *= counts[p];
    }
    printf("\n");
    cells *= players;
    for (size_t i = 0; i < cells; i++) {
        uint64_t bits;
        memcpy(&bits, &payoffs[i], sizeof bits);
        printf("%016" PRIx64 "\n", bits);
    }
}

int main(int argc, char **argv) {
    if (sigvanyor_interface() != SIGVANYOR_INTERFACE) {
        fprintf(stderr, "read_deposit: the header is not the archive's\n");
        return 2;
    }
    for (int i = 1; i < argc; i++) {
        FILE *file = fopen(argv[i], "rb");
        if (file == NULL) {
            fprintf(stderr, "read_deposit: %s cannot be opened\n", argv[i]);
            return 2;
        }
        const size_t length = fread(bytes, 1, sizeof bytes, file);
        const bool whole = !ferror(file) && fgetc(file) == EOF;
        fclose(file);
        if (!whole) {
            fprintf(stderr, "read_deposit: %s cannot be read, or is too long\n", argv[i]);
            return 2;
        }
        printf("%s\n", argv[i]);
        print_reading(length);
    }
    return 0;
}
