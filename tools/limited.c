// Starts three threads, and tells where one is refused; see tools/test_gate.
#include <pthread.h>
#include <stdio.h>
#include <unistd.h>
static void *rest(void *it) { usleep(300000); return it; }
static int told() { return puts("a growth of memory was refused"); }
static int refused(int count) { told(); return count > 1 ? 0 : 5; }
int main(int count, char **words) {
    pthread_t thread;
    for (int at = 0; at < 3; at++)
        if (pthread_create(&thread, 0, rest, 0)) return refused(count);
    return 0;
}
