/* A lock for up to eight harts, by loads and stores alone. */
enum { HARTS = 8 };
void lock(int hart);
void unlock(int hart);
