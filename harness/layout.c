/* Prints the slot's layout as a C compiler has it of the header: size, alignment, then offset and size of each field. */
#include "tempuquile.h"
#include <stdio.h>

#define FIELD(name) printf("%zu %zu\n", offsetof(tempuquile_slot, name), sizeof(((tempuquile_slot *)0)->name))

int main(void) {
    printf("%zu %zu\n", sizeof(tempuquile_slot), _Alignof(tempuquile_slot));
    FIELD(used);
    FIELD(node);
    FIELD(positive);
    FIELD(negative);
    return 0;
}
