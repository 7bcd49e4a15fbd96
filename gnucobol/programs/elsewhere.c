/* A thread that is sent the signal that ends its process. */
#include <pthread.h>
#include <signal.h>
#include <unistd.h>

static void *ends(void *nothing)
{
    pthread_kill(pthread_self(), SIGTERM);
    return nothing;
}

int end_by_another_thread(void)
{
    pthread_t thread;
    if (pthread_create(&thread, NULL, ends, NULL))
        return 1;
    pthread_join(thread, NULL);
    return pause();
}
