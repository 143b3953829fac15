/* Replaces bcryptprimitives.dll if Wine has none. Its bytes rise from call to call. */
#include <stddef.h>

__declspec(dllexport) int ProcessPrng(unsigned char *bytes, size_t size) {
    static unsigned char next;
    for (size_t place = 0; place < size; place++)
        bytes[place] = next++;
    return 1;
}
