/* Text to the output. */
#include "system.h"

void put_text(const char *text);
void put_number(long number);
/* The low 32 bits in eight hexadecimal digits. */
void put_hex(unsigned number);
