/* The texts of the codes as a symbol of the library, for languages that call no inline function of a header. */
#define wozgirt_text wozgirt_text_here
#include "../clients/c/wozgirt.h"
#undef wozgirt_text

const char *wozgirt_text(uint32_t code);

const char *wozgirt_text(uint32_t code)
{
    return wozgirt_text_here(code);
}
