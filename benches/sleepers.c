/* So many threads that only sleep 50 ms, again and again, until the program is ended: what the system takes for that. */
#include <pthread.h>
#include <stdlib.h>
#include <time.h>
#include <unistd.h>

static void *sleep_on(void *nothing)
{
    struct timespec pause = {0, 50 * 1000 * 1000};
    for (;;)
        clock_nanosleep(CLOCK_MONOTONIC, 0, &pause, 0);
    return nothing;
}

int main(int count, char **words)
{
    for (int left = count > 1 ? atoi(words[1]) : 1000; left > 0; left--) {
        pthread_t thread;
        if (pthread_create(&thread, 0, sleep_on, 0))
            return 1;
        usleep(50);
    }
    pause();
}
