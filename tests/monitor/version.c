/* Whether the header's version, as text and as a number, is the version in the argument. */
#include <stdio.h>
#include <string.h>

#include "jugrond.h"

#if JUGROND_VERSION_NUMBER < 10000
#error "no version is below 1.0.0"
#endif

int main(int argc, char **argv)
{
    unsigned major, minor, patch;
    int end = 0;

    if (argc != 2 || strcmp(argv[1], JUGROND_VERSION) != 0) {
        printf("the header says %s\n", JUGROND_VERSION);
        return 1;
    }
    if (sscanf(JUGROND_VERSION, "%u.%2u.%2u%n", &major, &minor, &patch, &end) != 3 || JUGROND_VERSION[end] != '\0') {
        printf("%s is not of the form MAJOR.MINOR.PATCH\n", JUGROND_VERSION);
        return 1;
    }
    if (JUGROND_VERSION_NUMBER != 10000 * major + 100 * minor + patch) {
        printf("%s does not have the number %d\n", JUGROND_VERSION, JUGROND_VERSION_NUMBER);
        return 1;
    }
    return 0;
}
