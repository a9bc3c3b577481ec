/* What nobody may do who does not know the word. */
#include "door.h"
#include "text.h"

_Noreturn void open_door(void)
{
    put_text("the door is open\n");
    leave(42);
}
