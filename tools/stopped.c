/* What a program without proofs says of itself: where one of its checks stops it, before the signal
 * ends it; and of its version, that it isn't proved. It has no header, since the kit's clang finds
 * none. */
#define SIGILL 4
#define SAID                                                                                    \
    "sysmem_replay: stopped by a check of arithmetic, an index, a cast or a place that can't be " \
    "reached: a proved program can't come there; keep the script, since it shows a fault\n"

#define NOT_PROVED "not proved: built without proofs\n"

void (*signal(int number, void (*handler)(int)))(int);
long write(int file, const void *bytes, unsigned long size);
int strcmp(const char *one, const char *other);
_Noreturn void _Exit(int status);
_Noreturn void _exit(int status);

/* The instruction that stopped the program is tried again, and then nothing takes the signal. */
static void say(int number)
{
    (void)!write(2, SAID, sizeof SAID - 1);
    signal(number, (void (*)(int))0);
}

/* Whether its version is asked for, by the first word. */
static int is_asked;

/* glibc gives what begins a program the words of main. */
__attribute__((constructor)) static void begin(int n, char **words)
{
    signal(SIGILL, say);
    is_asked = n > 1 && (!strcmp(words[1], "--version") || !strcmp(words[1], "-V"));
}

/* Behind the version: the kit's programs end by this call, which stands before the C library's. */
_Noreturn void _exit(int status)
{
    if (is_asked)
        (void)!write(1, NOT_PROVED, sizeof NOT_PROVED - 1);
    _Exit(status);
}
