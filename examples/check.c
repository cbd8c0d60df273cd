/* Checks the topology file named on the command line.

   (cd crates/host && rt lib) && mkdir -p target
   cc -Iinclude examples/check.c crates/host/out/libhost.a -o target/check_c
   target/check_c samples/campus.cm */
#include "topology_check.h"

#include <inttypes.h>
#include <stdio.h>

/* One byte more than is allowed, so that a longer file is seen. */
static uint8_t bytes[65537];

int main(int argc, char **argv) {
    if (argc != 2) {
        fprintf(stderr, "usage: %s FILE\n", argv[0]);
        return 2;
    }
    FILE *file = fopen(argv[1], "rb");
    if (file == NULL) {
        perror(argv[1]);
        return 2;
    }
    size_t len = fread(bytes, 1, sizeof bytes, file);
    int failed = ferror(file);
    fclose(file);
    if (failed) {
        fprintf(stderr, "%s: cannot be read\n", argv[1]);
        return 2;
    }
    uint64_t answer = topology_check(bytes, len);
    if (answer == 0) {
        puts("ok");
        return 0;
    }
    if (answer == TOPOLOGY_TOO_LONG) {
        puts("too long");
        return 1;
    }
    printf("refused %u at %" PRIu64 "\n", topology_fault(answer), topology_place(answer));
    return 1;
}
