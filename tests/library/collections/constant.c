// constant: the body that an export is given in the place of its own, which answers the same to all calls.
#include <stdint.h>

uint32_t constant_body(void);

uint32_t constant_body(void)
{
    return ANSWER;
}
