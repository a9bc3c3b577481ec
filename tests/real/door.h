/* Opens the door and ends the program. */
_Noreturn void open_door(void);
