/* Of macOS: what os_posix.c needs. */
void (*signal(int number, void (*action)(int)))(int);
#define SIGPIPE 13
#define SIG_IGN ((void (*)(int))1)
