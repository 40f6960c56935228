/* The tests of the calls. Prints the number of checks made; what fails goes to standard error. With an argument, the one test that needs
 * 128 MB is left out. */
#include "harness.h"

int main(int argc, char **argv) {
    (void)argv;
    test_samples();
    test_refusals();
    test_limits();
    test_ragged();
    test_nulls();
    test_compact(argc == 1);
    printf("%lu\n", checks);
    return failures != 0;
}
