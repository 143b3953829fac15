/* Includes only the header, twice. Its macros for attributes must not stay defined. */
#include "nanorand.h"
#include "nanorand.h"

#if defined NANORAND_NOT_NULL || defined NANORAND_USE_STATUS
#error "a macro is left"
#endif

int main(void)
{
    return nanorand_version() == NANORAND_VERSION ? 0 : 1;
}
