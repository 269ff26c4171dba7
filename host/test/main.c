/* entries-test [EXAMPLES]: the entries called from C, as a host would; EXAMPLES is the directory of the example files. */
#include "check.h"
#include "tests.h"
#include "text.h"

int main(int argc, char **argv) {
    if (argc > 1) examples = argv[1];
    test_example();
    test_refused();
    test_rooms();
    test_sizes();
    test_collect();
    test_dropped();
    test_six();
    test_value();
    return checked();
}
