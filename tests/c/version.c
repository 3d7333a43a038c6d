/* The version's numbers and its string are the same; which they are, the installation's test compares. */
#include <stdio.h>
#include <string.h>

#include "hpfaddr.h"

int main(void)
{
    char numbers[64];
    snprintf(numbers, sizeof numbers, "%d.%d.%d", HPFADDR_VERSION_MAJOR, HPFADDR_VERSION_MINOR, HPFADDR_VERSION_PATCH);
    puts(strcmp(numbers, HPFADDR_VERSION_STRING) == 0 ? "numbers and string agree" : "numbers and string differ");
    return 0;
}
